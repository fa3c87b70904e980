"""Speaks with a running hac: a command and its bytes go in, its reply up to `ok` or `no` comes back.

The tools beside this file do everything through it, so what hac promises holds of what they store. It knows how hac
is found, how words and texts are spelled, and what a refusal and an ending mean in words. It knows no folder, no
mail and no terminal.
"""

from __future__ import annotations

import argparse
import contextlib
import errno
import fcntl
import io
import os
import re
import select
import signal
import stat
import subprocess
import sys
import time
from collections import deque
from dataclasses import dataclass
from pathlib import Path
from types import TracebackType
from typing import Callable, Deque, Dict, Iterator, List, NoReturn, Optional, Set, Tuple, Type

HERE = Path(__file__).resolve().parent
TOP = HERE.parent

VERSION = "1.0"

MAX_NAME = 255
MAX_TEXT = 1_048_576
MAX_SCRIPT = 268_435_456
# What a whole store takes: bytes of all its texts, and files and documents.
MAX_TEXTS = 67_108_864
MAX_ITEMS = 65_536

# What each cause of a refusal means. The key is its first word or, behind `limit`, two.
CAUSES: Dict[str, str] = {
    "bad-line": "the line isn't a command, or its words are spelled wrongly",
    "short-put": "the script ended before the bytes of a put",
    "bad-name": "a path is empty, or has a byte that no name may have",
    "bad-query": "the query isn't one; the number is the place of its first wrong byte",
    "no-path": "nothing is at this path",
    "not-dir": "a file is at this path, where a directory is wanted",
    "loop": "this path leads through more than 16 symbolic links, or in a circle",
    "root": "the root can't be removed or moved, and gets no query",
    "not-file": "a directory is at this path, where a file is wanted",
    "not-semantic": "the directory at this path has no query",
    "not-link": "what is at this path is no symbolic link",
    "not-mount": "the directory at this path is no mount",
    "exists": "something is already at this path",
    "under": "a directory can't be moved into itself",
    "not-empty": "the directory at this path isn't empty",
    "referenced": "the query of this directory names the one that was to be removed, or that one is linked in it",
    "busy": "this session stands in the directory that was to be removed",
    "not-linked": "the file isn't a link of that directory",
    "already": "the file or directory is already a permanent link of that directory",
    "no-mark": "the file or directory has no mark in that directory",
    "cycle": "the directory would depend on itself through this one",
    "in-mount": "what is in this mount belongs to its space and isn't changed",
    "no-space": "this space has to be asked, and isn't attached",
    "space-fault": "this space failed as it was asked",
    "gone": "the space of this document no longer has it",
    "limit line": "a line has at most 65,536 bytes",
    "limit name": "a name has at most 255 bytes",
    "limit target": "the path to which a symbolic link leads has at most 1,024 bytes",
    "limit text": "a text has at most 1,048,576 bytes",
    "limit query": "a query has at most 1,024 bytes",
    "limit terms": "a query has at most 64 words and directories",
    "limit nesting": "a query has at most 32 parentheses and NOTs around a word",
    "limit texts": "all texts of the store together have at most 67,108,864 bytes",
    "limit dirs": "a store has at most 65,536 directories, and one of version 1 at most 10,000",
    "limit semantics": "a store has at most 1,000 semantic directories",
    "limit mounts": "a store has at most 64 mounts, and one of version 1 at most 16",
    "limit symlinks": "a store has at most 65,536 symbolic links, and one of version 1 at most 10,000",
    "limit path": "a path has at most 64 names",
    "limit docs": "a mount has at most 65,536 documents, and in a store of version 1 at most 10,000",
    "limit answers": "mounts keep at most 65,536 answers, and these name at most 4,194,304 documents",
    "limit sessions": "at most 1,024 sessions may stand elsewhere than in the root, and in a store of version 1 at most 64",
    "limit items": "a store has at most 65,536 files and documents",
    "limit numbers": "a store has used up its numbers for new entries; one of version 1 gets more by a checkpoint",
    "limit store": "the store file has its greatest length",
}

BUSY = "another run of hac has it open"

_STORED = "Every command that was answered is in the store, and at most one more."

# How hac ends, other than well: what happened, and what that means.
_ENDINGS: Dict[int, str] = {
    2: "it doesn't take the store's name, which must be UTF-8",
    3: f"its commands couldn't be read any further. {_STORED}",
    4: f"its replies couldn't be written any further. {_STORED}",
    5: "the store can't be opened, read, written or synced: the disk may be full or failing, the file may not be "
    f"yours to write, or another run may have it open. {_STORED}",
    6: "the file isn't a store. Nothing was written to it.",
    7: f"memory ran out. {_STORED}",
    8: "a catalogue has a bad line, or can't be read. The store wasn't touched.",
    9: f"it got more than a script may have. {_STORED}",
    10: "the file is a store already. Nothing was written to it.",
}


class ToolError(Exception):
    """Why a tool can't go on, in words for its user."""

    status = 1


class Stopped(ToolError):
    """hac ended before its commands were answered."""

    def __init__(self, store: Path, status: int, said: str) -> None:
        super().__init__(store, status, said)
        self.store = store
        self.ended = status
        self.said = said
        self.status = status if status > 0 else 128 - status
        self.why = fault_of(store) if status == 5 else None

    def __str__(self) -> str:
        store = shown(os.fsencode(self.store))
        if self.ended < 0:
            return f"{store}: hac was ended by {_signal_name(-self.ended)}. {_STORED}"
        words = f"{self.why}. {_STORED}" if self.why else _ENDINGS.get(self.ended, f"it doesn't say why. {_STORED}")
        said = f" ({self.said})" if self.said else ""
        return f"{store}: hac ended with status {self.ended}{said}: {words}"


class CannotOpen(Stopped):
    """The system says why there can be no run on this store. None was begun, and nothing was made."""

    def __init__(self, store: Path, why: str) -> None:
        super().__init__(store, 5, "")
        self.why = why

    def __str__(self) -> str:
        return f"{shown(os.fsencode(self.store))}: {self.why}"


class Interrupted(Exception):
    """The user doesn't want to wait for this answer. The command is carried out all the same."""


class InUse(ToolError):
    """Another tool has the store open. The status is hac's for a store that can't be opened."""

    status = 5

    def __init__(self, store: Path) -> None:
        super().__init__(f"{shown(os.fsencode(store))}: another tool has this store open; nothing was changed")


@dataclass(frozen=True)
class Reply:
    """The reply to a command: its data lines, or what follows `no `."""

    lines: Tuple[bytes, ...] = ()
    refusal: Optional[bytes] = None

    @property
    def ok(self) -> bool:
        return self.refusal is None

    @property
    def reason(self) -> str:
        """The refusal and what it means."""
        return "" if self.refusal is None else f"{shown(self.refusal)} ({meaning(self.refusal)})"

    @property
    def text(self) -> bytes:
        """The text that `cat` shows."""
        return unspelled(self.lines[0][2:])


_SESSION = re.compile(rb" *@([A-Za-z0-9_-]{1,32}) ")


class Hac:
    """A run of hac on a store. While it lasts no other tool has the store.

    A script has a greatest length. Before it would be passed, a new run begins, and its sessions go to where those of
    the last one stood.

    The lock lies in a file beside the store. The program holds it too, so that after a tool was killed the next one
    waits until that program has ended.
    """

    def __init__(
        self, store: Path, *, make: bool = False, ticks: int = 0, wait: float = 10.0, spaces: Tuple[str, ...] = ()
    ) -> None:
        """Opens a store, or makes it where `make` is given and there is no file. Behind each reply up to `ticks` files are
        indexed. Each of `spaces` attaches one, as NAME=FILE."""
        self.store = store
        self._spaces = [os.fsencode(space) for space in spaces]
        self._words = [b"--tick", b"%d" % ticks] if ticks else []
        why = unmakeable(store) if make and not os.path.lexists(store) else unopenable(store)
        if why is not None:
            raise CannotOpen(store, why)
        self._program = find_program()
        self._lock = _locked(store, wait)
        self._sessions: Set[bytes] = {b"main"}
        self._wakes: Optional[int] = None
        self._owes = False
        try:
            self._kept = () if self._lock is None else (self._lock,)
            if make and not store.exists():
                _make_store(self._program, store, self._kept)
            self._process = self._start()
        except BaseException:
            if self._lock is not None and not os.path.lexists(store):
                with contextlib.suppress(OSError):
                    os.unlink(_lock_file(store))
            self._unlock()
            raise

    def __enter__(self) -> Hac:
        return self

    def __exit__(
        self, kind: Optional[Type[BaseException]], error: Optional[BaseException], trace: Optional[TracebackType]
    ) -> None:
        try:
            self._end()
        except Stopped:
            if kind is None:
                raise
        finally:
            self._unlock()

    def ask(self, line: bytes, body: Optional[bytes] = None) -> Reply:
        """The reply to a command. A body's bytes go behind the line, whose last word is their number."""
        if is_silent(line) or b"\n" in line:
            raise ValueError(f"not a command: {line!r}")
        script = line + b"\n" + (body or b"")
        named = _SESSION.match(line)
        if named:
            self._sessions.add(named[1])
        # A `pwd` of each session, which has 38 bytes at most, is to fit behind it.
        if self._sent + len(script) + 38 * len(self._sessions) > MAX_SCRIPT:
            self._go_on()
        return self._answered(script)

    def is_running(self) -> bool:
        """The program hasn't ended. Its end stays to be taken."""
        if self._process.returncode is not None:
            return False
        return os.waitid(os.P_PID, self._process.pid, os.WEXITED | os.WNOHANG | os.WNOWAIT) is None

    def put(self, path: bytes, text: bytes) -> Reply:
        return self.ask(b"put %s %d" % (word(path), len(text)), text)

    def cat(self, path: bytes) -> Reply:
        return self.ask(b"cat " + word(path))

    def ls(self, path: bytes) -> Reply:
        return self.ask(b"ls " + word(path))

    def sls(self, path: bytes) -> Reply:
        return self.ask(b"sls " + word(path))

    def find_in(self, directory: bytes) -> Reply:
        """Lists all that a directory provides."""
        return self.ask(b"find {" + spelled_in_braces(directory) + b"}")

    def mkdir(self, path: bytes) -> Reply:
        return self.ask(b"mkdir " + word(path))

    def rmdir(self, path: bytes) -> Reply:
        return self.ask(b"rmdir " + word(path))

    def rm(self, path: bytes) -> Reply:
        return self.ask(b"rm " + word(path))

    def mv(self, path: bytes, to: bytes) -> Reply:
        return self.ask(b"mv %s %s" % (word(path), word(to)))

    def index(self) -> Reply:
        return self.ask(b"index")

    @contextlib.contextmanager
    def interruptible(self) -> Iterator[None]:
        """Here a Control-C ends the wait for an answer, by Interrupted. That answer is read to its end, and dropped,
        before the next command is sent, so later answers are those of their commands."""
        wakes, woken = os.pipe()
        os.set_blocking(wakes, False)
        os.set_blocking(woken, False)
        before = signal.signal(signal.SIGINT, lambda number, frame: None)
        before_wakes = signal.set_wakeup_fd(woken, warn_on_full_buffer=False)
        self._wakes = wakes
        try:
            yield
        finally:
            self._wakes = None
            signal.set_wakeup_fd(before_wakes)
            signal.signal(signal.SIGINT, before)
            os.close(wakes)
            os.close(woken)

    def make_directories(self, path: bytes) -> Reply:
        """Makes each directory on a path that isn't there yet. The reply is that to the last one."""
        reply = self.ls(path)
        if reply.ok or not (reply.refusal or b"").startswith(b"no-path"):
            return reply
        made = b""
        for name in names_of(path):
            made += b"/" + name
            reply = self.mkdir(made)
            if not reply.ok and reply.refusal != b"exists " + made:
                return reply
        return self.ls(path)

    def _go_on(self) -> None:
        """Begins a new run, with each session where it stands."""
        places = {name: self._answered(b"@%s pwd\n" % name).lines[0][2:] for name in sorted(self._sessions)}
        self._end()
        self._process = self._start()
        for name, place in places.items():
            if place != b"/":
                self._answered(b"@%s cd %s\n" % (name, word(place)))

    def _answered(self, script: bytes) -> Reply:
        """The reply to a line with the bytes that belong to it."""
        if self._process.returncode is not None:
            raise self._stopped()
        if self._owes:
            self._reply()  # Of an answer that was dropped.
        self._sent += len(script)
        self._owes = True
        assert self._process.stdin is not None
        try:
            self._process.stdin.write(script)
            self._process.stdin.flush()
        except BrokenPipeError:
            pass  # The replies end too, and then its status tells why.
        return self._reply()

    def _start(self) -> "subprocess.Popen[bytes]":
        self._sent = 0
        self._owes = False
        self._come: List[bytes] = []
        self._lines: Deque[bytes] = deque()
        self._rest = b""
        return subprocess.Popen(
            [os.fsencode(self._program), *self._words, b"--", os.fsencode(self.store), *self._spaces],
            stdin=subprocess.PIPE,
            stdout=subprocess.PIPE,
            stderr=subprocess.PIPE,
            pass_fds=self._kept,
            start_new_session=True,  # A Control-C at the terminal is for the tool alone.
        )

    def _reply(self) -> Reply:
        """The answer that is due. Where the wait for it is interrupted, what came of it is kept for the next call."""
        lines = self._come
        while True:
            line = self._line()
            if line == b"ok":
                reply = Reply(tuple(lines))
            elif line.startswith(b"no ") and not lines:
                reply = Reply(refusal=line[3:])
            else:
                lines.append(line)
                continue
            self._come, self._owes = [], False
            return reply

    def _line(self) -> bytes:
        """The next line, without its end."""
        assert self._process.stdout is not None
        while not self._lines:
            source = self._process.stdout.fileno()
            if self._wakes is not None:
                select.select([source, self._wakes], [], [])
                if _drained(self._wakes):
                    raise Interrupted
            came = os.read(source, 65536)
            if not came:
                raise self._stopped()
            *whole, self._rest = (self._rest + came).split(b"\n")
            self._lines.extend(whole)
        return self._lines.popleft()

    def _stopped(self) -> Stopped:
        status, said = self._wait()
        return Stopped(self.store, status, said)

    def _end(self) -> None:
        """Ends the run. Its status says whether all went well."""
        status, said = self._wait()
        if status not in (0, 1):
            raise Stopped(self.store, status, said)

    def _wait(self) -> Tuple[int, str]:
        process = self._process
        assert process.stdin is not None and process.stdout is not None and process.stderr is not None
        try:
            process.stdin.close()
        except BrokenPipeError:
            pass
        if process.returncode is None:
            process.stdout.read()
            self._said = process.stderr.read().decode("utf-8", "replace").strip()
            process.stdout.close()
            process.stderr.close()
        return process.wait(), self._said

    def _unlock(self) -> None:
        if self._lock is not None:
            os.close(self._lock)
            self._lock = None


# How the program is found, and a store locked and made.


def find_program() -> Path:
    """The program that HAC names, the one that was installed beside this file, or the one that ./hac at the top of the
    repository would run, which it builds where that has to be."""
    given = os.environ.get("HAC")
    if given:
        if not os.access(given, os.X_OK) or os.path.isdir(given):
            raise ToolError(f"HAC names no program: {given}")
        return Path(given).absolute()
    if os.access(HERE / "hac", os.X_OK):
        return HERE / "hac"
    try:
        ended = subprocess.run([TOP / "hac", "--program"], stdin=subprocess.DEVNULL, stdout=subprocess.PIPE)
    except OSError as error:
        raise ToolError(f"{TOP / 'hac'} can't be run: {error.strerror}") from error
    if ended.returncode != 0:
        raise ToolError(f"{TOP / 'hac'} didn't build the program: it ended with status {ended.returncode}")
    return Path(os.fsdecode(ended.stdout.rstrip(b"\n")))


def store_at(name: str) -> Path:
    """Where the store of this name lies, behind any symbolic links. What belongs to it lies beside it."""
    return Path(os.path.realpath(name))


def unopenable(store: Path) -> Optional[str]:
    """Why the system lets nobody, or not this user, open a store for reading and writing, if it doesn't."""
    try:
        status = os.stat(store)
    except FileNotFoundError:
        return "there is no such file; `hac-shell --new` makes a new store"
    except PermissionError:
        return "you have no permission to look into its folder"
    except OSError as error:
        return f"it can't be opened: {error.strerror}"
    if stat.S_ISDIR(status.st_mode):
        return "it is a folder, and no store"
    if not stat.S_ISREG(status.st_mode):
        return "it is no regular file, and no store"
    if not _may(store, os.R_OK):
        return "you have no permission to read it"
    if not _may(store, os.W_OK):
        return "you may only read it, and hac opens a store to write too; copy the file and open the copy"
    return None


def unmakeable(store: Path) -> Optional[str]:
    """Why no store can be made here, if none can."""
    folder = shown(os.fsencode(store.parent))
    try:
        if not stat.S_ISDIR(os.stat(store.parent).st_mode):
            return f"no store can be made there: {folder} is no folder"
    except FileNotFoundError:
        return f"no store can be made there: there is no folder {folder}"
    except OSError as error:
        return f"no store can be made there: {folder}: {error.strerror}"
    if not _may(store.parent, os.W_OK | os.X_OK):
        return f"no store can be made there: you have no permission to write in the folder {folder}"
    return None


def fault_of(store: Path) -> Optional[str]:
    """What the system says of a store behind a disk fault, if it says something."""
    why = unopenable(store)
    if why is None and _is_locked(store):
        return BUSY
    try:
        if why is None and os.statvfs(store).f_bavail == 0:
            return "the disk is full"
    except OSError:
        pass
    return why


def _may(path: Path, mode: int) -> bool:
    effective = os.access in os.supports_effective_ids
    return os.access(path, mode, effective_ids=effective)


def _is_locked(store: Path) -> bool:
    """A run of hac holds its lock on the store."""
    try:
        with open(store, "rb") as file:
            fcntl.flock(file, fcntl.LOCK_SH | fcntl.LOCK_NB)
    except BlockingIOError:
        return True
    except OSError:
        pass
    return False


def _drained(wakes: int) -> bool:
    """Something stood in this pipe, and stands there no more."""
    try:
        return bool(os.read(wakes, 4096))
    except BlockingIOError:
        return False


def _lock_file(store: Path) -> str:
    return f"{os.fspath(store)}.lock"


def _locked(store: Path, wait: float) -> Optional[int]:
    """A lock on the store, or none where no file can be made beside it."""
    try:
        lock = os.open(_lock_file(store), os.O_RDWR | os.O_CREAT | os.O_CLOEXEC, 0o666)
    except OSError:
        return None
    until = time.monotonic() + wait
    while True:
        try:
            fcntl.flock(lock, fcntl.LOCK_EX | fcntl.LOCK_NB)
            return lock
        except OSError:
            if time.monotonic() >= until:
                os.close(lock)
                raise InUse(store) from None
            time.sleep(0.02)


def _make_store(program: Path, store: Path, kept: Tuple[int, ...]) -> None:
    """Makes a store where there is no file: whole or not at all, and never over another file."""
    new = store.with_name(f".{store.name}.new")
    try:
        if new.exists():
            new.unlink()
        ended = subprocess.run(
            [os.fsencode(program), b"--new", b"--", os.fsencode(new)],
            stdin=subprocess.DEVNULL,
            capture_output=True,
            pass_fds=kept,
        )
        if ended.returncode != 0:
            raise Stopped(store, ended.returncode, ended.stderr.decode("utf-8", "replace").strip())
        os.link(new, store)
        new.unlink()
        sync_folder(store.parent)
    except OSError as error:
        raise ToolError(f"no store can be made at {shown(os.fsencode(store))}: {error.strerror}") from error


def sync_folder(folder: Path) -> None:
    """Brings the names in a folder to the disk."""
    descriptor = os.open(folder, os.O_RDONLY)
    try:
        os.fsync(descriptor)
    finally:
        os.close(descriptor)


def write_whole(path: Path, content: bytes) -> None:
    """Writes a file so that at any moment it has its old content or the new one."""
    new = path.with_name(path.name + ".new")
    try:
        with open(new, "wb") as file:
            file.write(content)
            file.flush()
            os.fsync(file.fileno())
        os.replace(new, path)
        sync_folder(path.parent)
    except OSError as error:
        if error.filename is None:  # A write that fails doesn't say where.
            with contextlib.suppress(OSError):
                os.unlink(new)
            raise OSError(error.errno, error.strerror, os.fspath(path)) from error
        raise


# How words, paths and texts are spelled.


def word(path: bytes) -> bytes:
    """A path as one word of a line."""
    return b'"' + path.replace(b"\\", b"\\\\").replace(b'"', b'\\"') + b'"'


def spelled_in_braces(path: bytes) -> bytes:
    """A path as it stands between the braces of a query."""
    return path.replace(b"\\", b"\\\\").replace(b"}", b"\\}")


def is_silent(line: bytes) -> bool:
    """The line is blank or a comment, and has no reply."""
    return not line.strip(b" ") or line.startswith(b"#")


def names_of(path: bytes) -> List[bytes]:
    """The names on a path, as hac reads it: empty parts and `.` are dropped, `..` removes the name before it."""
    names: List[bytes] = []
    for part in path.split(b"/"):
        if part == b"..":
            del names[-1:]
        elif part not in (b"", b"."):
            names.append(part)
    return names


def joined(directory: bytes, name: bytes) -> bytes:
    """The path of an entry of a directory."""
    return directory.rstrip(b"/") + b"/" + name


def cut(name: bytes, length: int) -> bytes:
    """The beginning of a name with at most so many bytes, which doesn't end within a sign of UTF-8."""
    if len(name) <= length:
        return name
    while length > 0 and name[length] & 0xC0 == 0x80:
        length -= 1
    return name[:length]


def name_fault(name: bytes) -> Optional[str]:
    """Why a name can't stand in a store, if it can't."""
    if len(name) > MAX_NAME:
        return "its name has more than 255 bytes"
    if any(byte < 32 or byte in (47, 127) for byte in name) or name in (b"", b".", b".."):
        return "its name has a byte that no name in a store may have"
    return None


_ESCAPE = re.compile(rb"\\(?:x([0-9a-fA-F]{2})|(.))", re.DOTALL)
_ESCAPED = {b"n": b"\n", b"t": b"\t", b"\\": b"\\"}


def unspelled(spelled: bytes) -> bytes:
    """The text that is spelled so, as `cat` shows it and `write` takes it."""
    if b"\\\\" not in spelled and b"\\x" not in spelled:
        return spelled.replace(b"\\n", b"\n").replace(b"\\t", b"\t")
    return _ESCAPE.sub(lambda found: bytes([int(found[1], 16)]) if found[1] else _ESCAPED[found[2]], spelled)


_TO_SPELL = re.compile(rb"[\x00-\x1f\x7f\\]")
_SPELLED = {bytes([byte]): b"\\x%02x" % byte for byte in (*range(32), 127)}
_SPELLED.update((meant, b"\\" + escape) for escape, meant in _ESCAPED.items())


def spelled(text: bytes) -> bytes:
    """A text on one line, as `cat` shows it and `write` takes it."""
    return _TO_SPELL.sub(lambda found: _SPELLED[found[0]], text)


def shown(name: bytes) -> str:
    """A name as a person may see it: bytes and signs that a terminal might obey are spelled out."""
    text = name.decode("utf-8", "backslashreplace")
    return "".join(sign if sign.isprintable() else sign.encode("unicode_escape").decode("ascii") for sign in text)


def meaning(refusal: bytes) -> str:
    """What a refusal means, in words."""
    parts = refusal.decode("ascii", "replace").split(" ")
    key = " ".join(parts[:2]) if parts[0] == "limit" else parts[0]
    return CAUSES.get(key, "no page of the manual has this refusal")


def _signal_name(number: int) -> str:
    try:
        return f"the signal {signal.Signals(number).name}"
    except ValueError:
        return f"the signal {number}"


# How a tool runs and tells.


class Words(argparse.ArgumentParser):
    """Reads a tool's words. Its help is the tool's page in docs/tools.md, whose first line is the usage."""

    def __init__(self, page: str) -> None:
        usage = page.splitlines()[0]
        super().__init__(prog=usage.split(" ")[1], usage=usage[len("usage: ") :], allow_abbrev=False)
        self._page = page
        self.add_argument("--version", action="version", version=f"{self.prog} {VERSION}")

    def format_help(self) -> str:
        return self._page

    def given(self) -> argparse.Namespace:
        """The words of this call. An option that there isn't is told before words that miss."""
        for word in sys.argv[1:]:
            if word == "--":
                break
            name = word.partition("=")[0] if word.startswith("--") else word[:2]
            if len(name) > 1 and name.startswith("-") and name not in self._option_string_actions:
                self.error(f"there is no option {shown(os.fsencode(name))}; --help shows the page")
        return self.parse_args()


class Progress:
    """A line at a terminal that says how far long work is. It stays away for the first second."""

    def __init__(self, tool: str) -> None:
        self._tool = tool
        self._seen = sys.stderr.isatty()
        self._next = time.monotonic() + 1
        self._width = 0

    def tell(self, doing: str, done: int, total: Optional[int] = None) -> None:
        now = time.monotonic()
        if not self._seen or now < self._next:
            return
        self._next = now + 0.1
        of = "" if total is None else f" of {total:,}"
        self._write(f"{self._tool}: {doing}: {done:,}{of}")

    def end(self) -> None:
        if self._width:
            self._write("")
            self._width = 0

    def _write(self, line: str) -> None:
        sys.stderr.write("\r" + line.ljust(self._width) + ("" if line else "\r"))
        sys.stderr.flush()
        self._width = len(line)


_FULL = "; the disk is full: make room and run it again, and it goes on"

_GOES_ON = "stopped; what was done is in the store, and the next run goes on"


def run_tool(tool: str, main: Callable[[], int], stopped: str = _GOES_ON) -> NoReturn:
    """Runs a tool and ends with its status: 0 well, 1 with something refused, as hac did where that ended.

    `stopped` is what a user who stopped it should know.
    """
    if signal.getsignal(signal.SIGINT) is signal.SIG_DFL:
        signal.signal(signal.SIGINT, signal.default_int_handler)
    for stream in (sys.stdout, sys.stderr):
        if isinstance(stream, io.TextIOWrapper):
            stream.reconfigure(errors="backslashreplace")
    try:
        status = main()
        sys.stdout.flush()
    except ToolError as error:
        print(f"{tool}: {error}", file=sys.stderr)
        status = error.status
    except KeyboardInterrupt:
        print(f"\n{tool}: {stopped}", file=sys.stderr)
        status = 128 + signal.SIGINT
    except BrokenPipeError:
        # Nobody reads on. What is left in the buffer must not raise this again at the end.
        os.dup2(os.open(os.devnull, os.O_WRONLY), sys.stdout.fileno())
        status = 128 + signal.SIGPIPE
    except OSError as error:
        name = f"{shown(os.fsencode(error.filename))}: " if isinstance(error.filename, (str, bytes)) else ""
        full = _FULL if name and error.errno in (errno.ENOSPC, errno.EDQUOT) else ""
        print(f"{tool}: {name}{error.strerror or error}{full}", file=sys.stderr)
        status = 1
    sys.exit(status)
