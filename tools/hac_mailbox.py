"""Reads mailboxes: where their messages stand, and what each says as a text.

What strangers wrote is read as far as it can be, and nothing in it ends a run. It knows an mbox and a Maildir, and no
store and no catalogue.
"""

from __future__ import annotations

import base64
import binascii
import codecs
import email
import email.message
import email.parser
import email.utils
import html
import itertools
import os
import re
from dataclasses import dataclass
from pathlib import Path
from typing import BinaryIO, Dict, Iterator, List, Match, Optional, Tuple

from hac_client import MAX_NAME, MAX_TEXT, ToolError, cut, shown
from hac_record import digest_of

MAX_MESSAGE = 67_108_864
SHOWN_HEADERS = ("From", "To", "Cc", "Date", "Subject", "Message-ID")


# Where messages come from.


@dataclass(frozen=True)
class Source:
    """Where a message stands, for a person, its bytes or why there are none, and the day on which it came, where its
    mailbox tells that."""

    place: str
    content: bytes = b""
    fault: Optional[str] = None
    came: str = ""


_TOO_LONG = "it has more than 67,108,864 bytes"


def messages_of(source: Path) -> Iterator[Source]:
    if source.is_file():
        return mbox_messages(source)
    if not source.exists():
        raise ToolError(f"{shown(os.fsencode(source))}: there is no such file or folder")
    folders = maildirs_in(source)
    if not folders:
        raise ToolError(
            f"{shown(os.fsencode(source))} is neither an mbox file nor a folder with a Maildir, which has `cur` and `new`"
        )
    return itertools.chain.from_iterable(maildir_messages(folder, source) for folder in folders)


def maildirs_in(source: Path) -> List[Path]:
    """The Maildirs in a folder, itself first: those of a Maildir's folders stand in it, and any may stand below others."""
    found = []
    for at, names, _ in os.walk(os.fsencode(source)):
        names.sort()
        if b"cur" in names and b"new" in names:
            found.append(Path(os.fsdecode(at)))
            names[:] = [name for name in names if name not in (b"cur", b"new", b"tmp")]
    return found


def maildir_messages(folder: Path, source: Path) -> Iterator[Source]:
    below = "" if folder == source else shown(os.fsencode(folder.relative_to(source))) + "/"
    for part in ("cur", "new"):
        for path in sorted((folder / part).iterdir(), key=os.fsencode):
            place = f"{below}{part}/{shown(os.fsencode(path.name))}"
            if path.name.startswith(".") or not path.is_file():
                continue
            try:
                too_long = path.stat().st_size > MAX_MESSAGE
                yield Source(place, fault=_TOO_LONG) if too_long else Source(place, path.read_bytes())
            except OSError as error:
                yield Source(place, fault=f"it can't be read: {error.strerror}")


# The line before a message: the sender, and a date with a time of day.
_FROM_LINE = re.compile(rb"From .*\d\d?:\d\d")
_QUOTED_FROM = re.compile(rb"^>(>*From )", re.MULTILINE)


def mbox_messages(path: Path) -> Iterator[Source]:
    """The messages of an mbox: each begins behind a line `From ` at the beginning or behind a blank line."""
    with open(path, "rb") as file:
        first = file.readline(MAX_TEXT)
        while first and not first.strip():
            first = file.readline(MAX_TEXT)
        if first and not first.startswith(b"From "):
            raise ToolError(f"{shown(os.fsencode(path))} is no mbox: its first line doesn't begin with `From `")
        number = 0
        while first:
            number += 1
            came = day_of_from_line(first)
            content, first = mbox_message(file)
            place = f"message {number}"
            yield Source(place, fault=_TOO_LONG) if content is None else Source(place, content, came=came)


# A day as the line before a message has it: `Mon Jan  1 00:00:00 2024`, with a zone before or behind the year, or none.
_FROM_DAY = re.compile(
    rb" (Jan|Feb|Mar|Apr|May|Jun|Jul|Aug|Sep|Oct|Nov|Dec) +(\d\d?) +\d\d?:\d\d(?::\d\d)?(?: +[A-Z+-][A-Z0-9]*)* +(\d{4})\b"
)


def day_of_from_line(line: bytes) -> str:
    """The day in the line before a message, if one is there."""
    found = _FROM_DAY.search(line)
    return day_of(f"{int(found[2])} {found[1].decode()} {found[3].decode()} 00:00:00") if found else ""


def mbox_message(file: BinaryIO) -> Tuple[Optional[bytes], bytes]:
    """The message up to the next line `From `, and that line. A piece of a long line is no line."""
    pieces: List[bytes] = []
    length = 0
    begins_line, after_blank = True, False
    while True:
        piece = file.readline(MAX_TEXT)
        if not piece or (begins_line and after_blank and _FROM_LINE.match(piece)):
            break
        after_blank = begins_line and not piece.strip()
        begins_line = piece.endswith(b"\n")
        length += len(piece)
        if length <= MAX_MESSAGE:
            pieces.append(piece)
    content = _QUOTED_FROM.sub(rb"\1", b"".join(pieces)) if length <= MAX_MESSAGE else None
    return content, piece


# What a message says.


@dataclass(frozen=True)
class Message:
    """A message as it's stored: by what it's known again, its date and subject, its text, and whether nothing had to
    be cut off that."""

    key: str
    title: bytes
    text: bytes
    is_whole: bool

    @property
    def name(self) -> bytes:
        """The date and the subject, as a name that leaves room for a number."""
        return cut(self.title, MAX_NAME - 12).rstrip(b" ")


@dataclass(frozen=True)
class Body:
    """The words of a part, and whether they are all of them."""

    text: str = ""
    is_whole: bool = True


def read_message(content: bytes, came: str = "") -> Message:
    """What a message says. The day on which it came stands for that of a message without a date."""
    message, body = parsed(content)
    headers = {name: header(message, name) for name in SHOWN_HEADERS}
    lines = [f"{name}: {headers[name]}" for name in SHOWN_HEADERS if headers[name]]
    text = "\n".join([*lines, "", body.text.strip("\n"), ""])
    encoded = cleaned(text[: 2 * MAX_TEXT]).encode("utf-8", "replace")
    is_whole = body.is_whole and len(text) <= 2 * MAX_TEXT and len(encoded) <= MAX_TEXT
    encoded = cut(encoded, MAX_TEXT)
    seen = "\n".join(headers[name] for name in ("From", "Date", "Subject"))
    known_by = seen.encode("utf-8", "replace") if headers["Message-ID"] else encoded
    return Message(f"{headers['Message-ID']} {digest_of(known_by)}", title_of(headers, came), encoded, is_whole)


def parsed(content: bytes) -> Tuple[email.message.Message, Body]:
    """The message and its words. Where its parts can't be told apart, all behind its headers is its words."""
    try:
        message = email.message_from_bytes(content)
        return message, body_of(message)
    except Exception:
        # What a stranger wrote must not end the run, and the parser raises many things: parts in parts in parts
        # without end (RecursionError), headers that aren't what they seem (TypeError, IndexError, and others).
        message = email.parser.BytesHeaderParser().parsebytes(content)
        return message, Body(decoded(content.partition(b"\n\n")[2], None))


def header(message: email.message.Message, name: str) -> str:
    """A header on one line, decoded as far as it can be."""
    values = [value for key, value in message.raw_items() if key.lower() == name.lower()]
    return " ".join(" ".join(decoded_header(str(value)) for value in values[:1]).split())


_ENCODED = re.compile(r"=\?([^?\s]+)\?([bBqQ])\?([^?]*)\?=")
_ENCODED_RUN = re.compile(r"(?:=\?[^?\s]+\?[bBqQ]\?[^?]*\?=\s*)+(?<=\?=)")


def decoded_header(value: str) -> str:
    """A header's value with its encoded words decoded. Bytes that aren't ASCII stand in it as surrogates."""
    plain = decoded(value.encode("utf-8", "surrogateescape"), None)
    return _ENCODED_RUN.sub(decoded_run, plain)


def decoded_run(run: Match[str]) -> str:
    """Encoded words with spaces alone between them. A sign may begin in one and end in the next."""
    words = itertools.groupby(_ENCODED.finditer(run[0]), key=lambda found: found[1].partition("*")[0].lower())
    return "".join(decoded(b"".join(map(bytes_of_word, same)), charset) for charset, same in words)


def bytes_of_word(found: Match[str]) -> bytes:
    content = found[3].encode("utf-8", "replace")
    if found[2] in "qQ":
        return binascii.a2b_qp(content, header=True)
    digits = re.sub(rb"[^A-Za-z0-9+/]", b"", content)
    digits = digits[: len(digits) - (len(digits) % 4 == 1)]
    return base64.b64decode(digits + b"=" * (-len(digits) % 4))


# Codecs of Python that are no charsets, some of which take very long.
_NO_CHARSETS = {"punycode", "idna", "unicode-escape", "raw-unicode-escape", "undefined"}


def decoded(content: bytes, charset: Optional[str]) -> str:
    """Bytes in a charset. Where that is unknown or wrong they are read as UTF-8, or else as Latin text."""
    for candidate in (charset, "utf-8", "cp1252"):
        try:
            if candidate and codecs.lookup(candidate).name not in _NO_CHARSETS:
                return content.decode(candidate)
        except (LookupError, ValueError):
            continue
    return content.decode("latin-1")


def body_of(part: email.message.Message) -> Body:
    """The words of a part and of those in it."""
    kind = part.get_content_type()
    if part.is_multipart():
        parts = part.get_payload()
        if kind == "multipart/alternative":
            return alternative(parts)
        bodies = [body_of(inner) for inner in parts]
        texts = [body.text for body in bodies if body.text]
        if kind == "message/rfc822":
            texts = [f"{headers_of(inner)}\n{body.text}" for inner, body in zip(parts, bodies)]
        return Body("\n\n".join(texts), all(body.is_whole for body in bodies))
    name = decoded_header(str(part.get_filename() or ""))
    # What says that it has parts and has none is read as a text.
    is_text = part.get_content_maintype() in ("text", "multipart")
    if not is_text or part.get_content_disposition() == "attachment":
        return Body(f"[attachment: {' '.join(name.split()) or 'without a name'}, {kind}]")
    text = decoded(payload_of(part), charset_of(part))
    text = text.replace("\r\n", "\n").replace("\r", "\n").lstrip(_MARK)
    if kind == "text/html":
        return Body(text_of_html(text[: 8 * MAX_TEXT]), len(text) <= 8 * MAX_TEXT)
    return Body(text)


# A byte order mark, which is no sign of a text.
_MARK = "\ufeff"

# What is shown of a message within another.
_INNER_HEADERS = ("From", "To", "Date", "Subject")


def headers_of(message: email.message.Message) -> str:
    """The headers of a message within another, each on a line."""
    values = {name: header(message, name) for name in _INNER_HEADERS}
    return "".join(f"{name}: {value}\n" for name, value in values.items() if value)


def alternative(parts: List[email.message.Message]) -> Body:
    """Of several forms of the same the plain one, if it says anything, else the first that does."""
    ordered = sorted(parts, key=lambda part: part.get_content_type() != "text/plain")
    return next((body for body in map(body_of, ordered) if body.text.strip()), Body())


def payload_of(part: email.message.Message) -> bytes:
    payload = part.get_payload(decode=True)
    return payload if isinstance(payload, bytes) else b""


def charset_of(part: email.message.Message) -> Optional[str]:
    charset = part.get_param("charset")
    return email.utils.collapse_rfc2231_value(charset) if isinstance(charset, (str, tuple)) else None


# HTML.

_BLOCKS = set("br p div tr li ul ol table blockquote pre hr h1 h2 h3 h4 h5 h6".split(" "))
_UNSEEN = {"script", "style", "title"}
# The names of HTML, old and new. A `<` before another name is a sign of the text, as in `x <y`.
_NAMES = (
    _BLOCKS
    | _UNSEEN
    | set(
        "a abbr acronym address applet area article aside audio b base basefont bdi bdo bgsound big blink body button canvas"
        " caption center cite code col colgroup command content data datalist dd del details dfn dialog dir dl dt element em"
        " embed fieldset figcaption figure font footer form frame frameset head header hgroup html i iframe image img input"
        " ins isindex kbd keygen label legend link listing main map mark marquee math menu menuitem meta meter multicol nav"
        " nextid nobr noembed noframes noscript object optgroup option output param picture plaintext portal progress q rb rp"
        " rt rtc ruby s samp search section select shadow slot small source spacer span strike strong sub summary sup svg"
        " tbody td template textarea tfoot th thead time track tt u var video wbr xmp xml".split(" ")
    )
)
_TAG_NAME = re.compile(r"/?\s*([a-zA-Z][a-zA-Z0-9]*)([:-]?)")
_IN_TAG = re.compile("[\"'<>]")


def text_of_html(source: str) -> str:
    """The words of HTML, well formed or not, in time that grows with its length alone."""
    pieces: List[str] = []
    place = 0
    patience = 8 * len(source)
    while place < len(source):
        start = source.find("<", place)
        if start < 0:
            start = len(source)
        pieces.append(re.sub(r"\s+", " ", source[place:start]))
        if source.startswith("<!--", start):
            place = end_of(source, "-->", start + 4)
            continue
        name = _TAG_NAME.match(source, start + 1)
        ends, place = is_tag(source, start, name), start + 1
        if ends:
            ends, place = end_of_tag(source, start + 1, strict=name is not None and patience > 0)
        if not ends:
            # What was read in vain is read again, so there is an end to it.
            patience -= place - start
            pieces.append(source[start : start + 1])
            place = start + 1
            continue
        tag = name[1].lower() if name else ""
        if tag in _BLOCKS:
            pieces.append("\n")
        if tag in _UNSEEN and source[start + 1] != "/":
            closing = re.compile(f"</{tag}", re.IGNORECASE).search(source, place)
            place = end_of(source, ">", closing.start()) if closing else len(source)
    lines = html.unescape("".join(pieces)).split("\n")
    return re.sub(r"\n{3,}", "\n\n", "\n".join(" ".join(line.split()) for line in lines))


def end_of(source: str, ending: str, place: int) -> int:
    """Behind the first such ending, or the end."""
    found = source.find(ending, place)
    return len(source) if found < 0 else found + len(ending)


def is_tag(source: str, start: int, name: Optional[Match[str]]) -> bool:
    """What begins here is a tag by its name: one of HTML, or one with a colon or a hyphen, as others add them."""
    if name is None:
        return source.startswith(("<!", "<?"), start)
    return name[1].lower() in _NAMES or name[2] != ""


def end_of_tag(source: str, start: int, strict: bool) -> Tuple[bool, int]:
    """Whether a tag ends, and the place behind it. Its values in quotes may hold a `>` and a `<`; a quote that isn't closed
    is no quote. Where it is to be strict, another `<` before the `>` shows that it is no tag."""
    place = start
    while True:
        found = _IN_TAG.search(source, place)
        if found is None:
            return True, len(source)
        place = found.end()
        if found[0] == ">":
            return True, place
        if found[0] == "<":
            if strict:
                return False, place
            continue
        closing = source.find(found[0], place)
        if closing >= 0:
            place = closing + 1


# Names.


_CONTROLS = dict.fromkeys(sign for sign in [*range(32), 127] if chr(sign) not in "\n\t")


def cleaned(text: str) -> str:
    """Without control signs, other than line ends and tabs."""
    return text.translate(_CONTROLS)


def title_of(headers: Dict[str, str], came: str = "") -> bytes:
    """The date and the subject, with no byte that a name mustn't have."""
    subject = as_name(headers["Subject"]) or "no subject"
    day = day_of(headers["Date"])
    return f"{came if day == _UNDATED and came else day} {subject}".encode("utf-8", "replace")


def as_name(text: str) -> str:
    """A text on one line, without the signs that a name mustn't have. It may be empty, or longer than a name."""
    return " ".join(cleaned(text).replace("/", "-").split())


_UNDATED = "undated"


def day_of(date: str) -> str:
    """The day on which a message was written, where it was."""
    try:
        when = email.utils.parsedate_tz(date)
    except Exception:  # The parser raises many things over what strangers write.
        when = None
    if when is None or not (1 <= when[1] <= 12 and 1 <= when[2] <= 31 and 1900 <= when[0] <= 9999):
        return _UNDATED
    return f"{when[0]:04}-{when[1]:02}-{when[2]:02}"
