"""What a page shows of a store, and the changes that it asks for, by commands of one running hac.

Paths, names and queries come and go as text in which each byte that isn't UTF-8 is a lone surrogate, as Python writes
names of files. Lists and texts are given in parts.
"""

from __future__ import annotations

import re
import shutil
import subprocess
import threading
from typing import Any, Callable, Dict, List, Optional, Tuple

from hac_client import CAUSES, MAX_TEXT, Hac, Reply, ToolError, joined, shown, spelled_in_braces, word

_PART = 65_536  # Bytes of a text that are given at a time.
_ROWS = 500  # Rows of a list that are given at most at a time.
_WORD = re.compile(rb"[A-Za-z0-9\x80-\xff]+")
_QUERY = re.compile(rb"\{(?:[^}\\]|\\.)*\}|([A-Za-z0-9\x80-\xff]+)(\*?)", re.DOTALL)
_NAMED = re.compile(rb"\{((?:[^}\\]|\\.)*)\}", re.DOTALL)

# The commands that a page may give: how many paths they take, and whether a query or a text stands behind them.
_COMMANDS: Dict[str, Tuple[int, str]] = {
    "mkdir": (1, ""),
    "smkdir": (1, "query"),
    "setq": (1, "query"),
    "unq": (1, ""),
    "sln": (2, ""),
    "srm": (2, ""),
    "sforget": (2, ""),
    "mv": (2, ""),
    "rm": (1, ""),
    "rmdir": (1, ""),
    "put": (1, "text"),
}


class Refused(Exception):
    """Why something isn't done: hac's words and what they mean, and the place of a query's first wrong byte."""

    def __init__(self, said: str, reason: str, place: Optional[int] = None) -> None:
        super().__init__(said)
        self.answer = {"refused": said, "reason": reason, "place": place}


def from_page(text: Any) -> bytes:
    """What a page says as text."""
    if not isinstance(text, str):
        raise Refused("bad-line", "a text was wanted")
    try:
        return text.encode("utf-8", "surrogateescape")
    except UnicodeEncodeError:
        raise Refused("bad-line", "no text has this sign") from None


def to_page(said: bytes) -> str:
    return said.decode("utf-8", "surrogateescape")


def number(given: Any, least: int, most: int) -> int:
    """A number that a page says, or the nearest one that may be."""
    return max(least, min(most, given)) if isinstance(given, int) else least


class Views:
    """Answers a page, one question at a time. What was changed is counted, so that pages know when to look again."""

    def __init__(self, hac: Hac, read_only: bool) -> None:
        self._hac = hac
        self._read_only = read_only
        self._lock = threading.Lock()
        self._changed = threading.Condition()
        self._listed: Dict[bytes, Tuple[int, List[bytes]]] = {}  # Lists, with the count of changes at which they were read.
        self._read: Optional[Tuple[bytes, int, bytes]] = None  # The text that was read last, in the same way.
        self.changes = 0
        self._views: Dict[str, Callable[[Dict[str, Any]], Dict[str, Any]]] = {
            "directory": self._directory,
            "rows": self._rows,
            "text": self._text,
            "find": self._find,
            "preview": self._preview,
            "graph": self._graph,
            "change": self._change,
        }

    def answer(self, asked: Dict[str, Any]) -> Dict[str, Any]:
        """The answer to a page, or why there is none."""
        view = self._views.get(asked.get("do", ""))
        try:
            if view is None:
                raise Refused("bad-line", "no such question")
            with self._lock:
                return {**view(asked), "changes": self.changes}
        except Refused as refused:
            return refused.answer
        except ToolError as error:
            return {"stopped": str(error)}

    def finish(self) -> None:
        """Waits until nothing is asked of hac, and asks nothing any more."""
        self._lock.acquire()

    def wait(self, seen: int, seconds: float) -> Dict[str, Any]:
        """Waits until something changed that a page hasn't seen, or until the time is over."""
        with self._changed:
            self._changed.wait_for(lambda: self.changes != seen, seconds)
            return {"changes": self.changes, "readOnly": self._read_only}

    def _ask(self, line: bytes, body: Optional[bytes] = None) -> Reply:
        if b"\n" in line:
            raise Refused("bad-line", CAUSES["bad-line"])
        reply = self._hac.ask(line, body)
        if reply.refusal is not None:
            parts = reply.refusal.split(b" ")
            place = int(parts[1]) if parts[0] == b"bad-query" else None
            raise Refused(shown(reply.refusal), reply.reason.partition(" (")[2][:-1], place)
        return reply

    def _list(self, line: bytes) -> List[bytes]:
        """The lines of a reply. They are kept while nothing changes, since a page asks for them window by window."""
        kept = self._listed.get(line)
        if kept is None or kept[0] != self.changes:
            if len(self._listed) >= 8:
                self._listed.clear()
            kept = self.changes, list(self._ask(line).lines)
            self._listed[line] = kept
        return kept[1]

    # What is there.

    def _directory(self, asked: Dict[str, Any]) -> Dict[str, Any]:
        """The directories in a directory, semantic ones with the number of their links, and its own query."""
        path = from_page(asked.get("path"))
        listed = self._list(b"ls " + word(path))
        inside = [(line[:1], line[2:]) for line in listed if line[:1] in (b"d", b"s", b"m")]
        start = number(asked.get("from"), 0, len(inside))
        rows = []
        for letter, name in inside[start : start + _ROWS]:
            row: Dict[str, Any] = {"letter": to_page(letter), "name": to_page(name)}
            if letter == b"s":
                row["links"] = self._count(joined(path, name))
            rows.append(row)
        return {"rows": rows, "from": start, "total": len(inside), "query": self._query(path)}

    def _count(self, path: bytes) -> int:
        return sum(1 for line in self._ask(b"sls " + word(path)).lines if line[:1] != b"x")

    def _query(self, path: bytes) -> Optional[str]:
        reply = self._hac.ask(b"query " + word(path))
        return to_page(reply.lines[0][2:]) if reply.ok else None

    def _rows(self, asked: Dict[str, Any]) -> Dict[str, Any]:
        """Some of what is in a directory: what is stored, and then its links, each with its letter and path."""
        path = from_page(asked.get("path"))
        stored = [(line[:1], joined(path, line[2:])) for line in self._list(b"ls " + word(path))]
        query = self._query(path)
        links = [] if query is None else [(line[:1], line[2:]) for line in self._list(b"sls " + word(path))]
        return {**self._window(asked, stored + links), "query": query, "stored": len(stored)}

    def _window(self, asked: Dict[str, Any], rows: List[Tuple[bytes, bytes]]) -> Dict[str, Any]:
        start = number(asked.get("from"), 0, len(rows))
        count = number(asked.get("count"), 1, _ROWS)
        window = [{"letter": to_page(letter), "path": to_page(path)} for letter, path in rows[start : start + count]]
        return {"rows": window, "from": start, "total": len(rows)}

    def _text(self, asked: Dict[str, Any]) -> Dict[str, Any]:
        """A part of a text, in pieces: those that a query's words find are marked."""
        text = self._text_at(from_page(asked.get("path")))
        if asked.get("whole"):
            return self._whole(text)
        start = number(asked.get("from"), 0, len(text))
        end = _between_words(text, start, min(len(text), start + _PART))
        pieces = marked(text[start:end], from_page(asked.get("query", "")))
        return {"pieces": pieces, "from": start, "next": end, "total": len(text)}

    def _text_at(self, path: bytes) -> bytes:
        """A text. It is kept while nothing changes, since a page asks for it part by part."""
        if self._read is None or self._read[:2] != (path, self.changes):
            self._read = path, self.changes, self._ask(b"cat " + word(path)).text
        return self._read[2]

    def _whole(self, text: bytes) -> Dict[str, Any]:
        """A text that can be edited in a page: one that is UTF-8, in which a page changes nothing by itself."""
        try:
            plain = text.decode("utf-8")
        except UnicodeDecodeError:
            raise Refused("not-text", "the text isn't UTF-8, so a page would change it") from None
        if "\r" in plain or "\0" in plain:
            raise Refused("not-text", "the text has line ends or bytes that a page would change")
        return {"text": plain}

    def _find(self, asked: Dict[str, Any]) -> Dict[str, Any]:
        found = self._list(b"find " + from_page(asked.get("query")))
        return self._window(asked, [(line[:1], line[2:]) for line in found])

    def _preview(self, asked: Dict[str, Any]) -> Dict[str, Any]:
        """What a directory would find by another query, and how that differs from what it finds now."""
        path, query = from_page(asked.get("path")), from_page(asked.get("query"))
        self._list(b"find " + query)  # So a fault is told at its place in the query that was given.
        above = path.rpartition(b"/")[0]
        scope = b"{" + spelled_in_braces(above) + b"} AND (" + query + b")" if above else query
        found = [line[2:] for line in self._list(b"find " + scope)]
        links = self._list(b"sls " + word(path)) if self._query(path) is not None else []
        marks = {line[2:] for line in links if line[:1] != b"t"}
        now = {line[2:] for line in links if line[:1] == b"t"}
        then = [item for item in found if item not in marks and item.rpartition(b"/")[0] != path]
        added = [item for item in then if item not in now]
        gone = sorted(now - set(found))
        return {
            "total": len(then),
            "added": [to_page(item) for item in added[:_ROWS]],
            "gone": [to_page(item) for item in gone[:_ROWS]],
            "addedTotal": len(added),
            "goneTotal": len(gone),
        }

    # What depends on what.

    def _graph(self, asked: Dict[str, Any]) -> Dict[str, Any]:
        """A drawing of which semantic directory depends on which, by Graphviz where it is there."""
        lines = self._edges()
        program = shutil.which("dot")
        if program is None:
            return {"svg": None, "edges": [[to_page(one), to_page(other), how] for one, other, how in lines]}
        drawn = subprocess.run([program, "-Tsvg"], input=_dot(lines), capture_output=True, timeout=60)
        svg = drawn.stdout.decode("utf-8", "replace") if drawn.returncode == 0 else None
        return {"svg": svg, "edges": [[to_page(one), to_page(other), how] for one, other, how in lines]}

    def _edges(self) -> List[Tuple[bytes, bytes, str]]:
        edges: List[Tuple[bytes, bytes, str]] = []
        directories = [b"/"]
        kinds = {b"/": b"d"}
        for directory in directories:
            for line in self._ask(b"ls " + word(directory)).lines:
                if line[:1] in (b"d", b"s", b"m"):
                    kinds[joined(directory, line[2:])] = line[:1]
                    if line[:1] != b"m":
                        directories.append(joined(directory, line[2:]))
        for path in (path for path, kind in kinds.items() if kind == b"s"):
            edges.append((path, path.rpartition(b"/")[0] or b"/", "parent"))
            query = self._ask(b"query " + word(path)).lines[0][2:]
            edges += [(path, re.sub(rb"\\(.)", rb"\1", named), "query") for named in _NAMED.findall(query)]
            links = [line[2:] for line in self._ask(b"sls " + word(path)).lines if line[:1] == b"p"]
            edges += [(path, link, "link") for link in links if link in kinds]
        return edges

    # Changes.

    def _change(self, asked: Dict[str, Any]) -> Dict[str, Any]:
        """Gives a command that changes the store."""
        if self._read_only:
            raise Refused("read-only", "the page was opened for reading")
        command = asked.get("command", "")
        paths = asked.get("paths")
        if command not in _COMMANDS or not isinstance(paths, list) or len(paths) != _COMMANDS[command][0]:
            raise Refused("bad-line", CAUSES["bad-line"])
        line = b" ".join([command.encode(), *(word(from_page(path)) for path in paths)])
        body = None
        if _COMMANDS[command][1] == "query":
            line += b" " + from_page(asked.get("query"))
        elif _COMMANDS[command][1] == "text":
            body = from_page(asked.get("text"))
            if len(body) > MAX_TEXT:
                raise Refused("limit text", CAUSES["limit text"])
            line += b" %d" % len(body)
        self._ask(line, body)
        with self._changed:
            self.changes += 1
            self._changed.notify_all()
        return {}


def _between_words(text: bytes, start: int, end: int) -> int:
    """A place at or before the end of a part at which no word and no sign is cut, if there is one."""
    if end == len(text):
        return end
    place = end
    while place > start and _WORD.match(text[place - 1 : place]) and _WORD.match(text[place : place + 1]):
        place -= 1
    return place if place > start else end


def asked_for(query: bytes) -> Tuple[List[bytes], Tuple[bytes, ...]]:
    """The words and the beginnings of words that a query names."""
    words: List[bytes] = []
    beginnings: List[bytes] = []
    for found in _QUERY.finditer(query):
        if found[1] is None or (found[1] in (b"AND", b"OR", b"NOT") and not found[2]):
            continue
        (beginnings if found[2] else words).append(found[1].lower())
    return words, tuple(beginnings)


def marked(text: bytes, query: bytes) -> List[List[Any]]:
    """The pieces of a text, each with 1 if a query's words find it, else 0."""
    words, beginnings = asked_for(query)
    pieces: List[List[Any]] = []
    place = 0
    if words or beginnings:
        for found in _WORD.finditer(text):
            small = found[0].lower()
            if small in words or small.startswith(beginnings or (b"\n",)):
                if found.start() > place:
                    pieces.append([text[place : found.start()].decode("utf-8", "replace"), 0])
                pieces.append([found[0].decode("utf-8", "replace"), 1])
                place = found.end()
    if place < len(text):
        pieces.append([text[place:].decode("utf-8", "replace"), 0])
    return pieces


def _dot(edges: List[Tuple[bytes, bytes, str]]) -> bytes:
    """The drawing's description. Names are quoted, and nothing in them is a command."""
    numbers: Dict[bytes, int] = {}
    for one, other, _ in edges:
        numbers.setdefault(one, len(numbers))
        numbers.setdefault(other, len(numbers))
    lines = ["digraph {", 'rankdir=RL; bgcolor=transparent; node [shape=box, fontname="sans-serif"];']
    for path, count in numbers.items():
        label = shown(path).replace("\\", "\\\\").replace('"', '\\"')
        lines.append(f'n{count} [label="{label}", id="n{count}"];')
    styles = {"parent": "solid", "query": "dashed", "link": "dotted"}
    lines += [f"n{numbers[one]} -> n{numbers[other]} [style={styles[how]}];" for one, other, how in edges]
    return "\n".join([*lines, "}"]).encode("utf-8", "replace")
