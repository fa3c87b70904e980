"""What a mounted store has, as the mount keeps it: files, directories, symbolic links, and links of semantic directories."""

from __future__ import annotations

from dataclasses import dataclass, field
from typing import Dict, Iterator, List, Optional, Set, Tuple

MAX_PATH = 64


@dataclass(eq=False)
class Entry:
    """Something that has a name in a directory. The kernel knows it by its number, which is never used again."""

    number: int
    name: bytes
    parent: Optional[Directory]  # None of the root, and of what is gone.
    time: int  # Nanoseconds; the store keeps none.
    known: int = 0  # How often the kernel was given it and hasn't forgotten it.


@dataclass(eq=False)
class File(Entry):
    """A file, or a document of a mount."""

    is_document: bool = False
    is_stored: bool = True  # A new file comes into the store when it is saved first.
    size: Optional[int] = None  # Of its text, where that is known.
    indexed: int = 0  # The size of its text when it was indexed last, as far as that is known.
    opened: int = 0  # How often it is open.
    text: Optional[bytearray] = None  # While it is open and was changed: the text of all who have it open.
    is_changed: bool = False  # That text isn't stored yet.


@dataclass(eq=False)
class Symlink(Entry):
    """A symbolic link that is stored."""

    target: bytes = b""


@dataclass(eq=False)
class Link(Entry):
    """A link of a semantic directory. It is shown as a symbolic link to its item, below the mount."""

    item: bytes = b""  # The path of what is linked, in the store.
    mark: bytes = b""  # The letter that `sls` shows.
    target: bytes = b""


@dataclass(eq=False)
class Directory(Entry):
    """A directory, a semantic directory or a mount: `d`, `s` or `m`."""

    letter: bytes = b"d"
    stored: Optional[Dict[bytes, Entry]] = None  # What `ls` lists, once it was asked.
    links: Dict[bytes, Link] = field(default_factory=dict)
    listed: Tuple[bytes, ...] = ()  # The path at which it stood as its links were asked for, and what `sls` showed.
    taken: Set[bytes] = field(default_factory=set)  # The names of what was stored in it then.
    links_of: int = -1  # The state of the tree in which the links were asked for.
    readers: int = 0  # How many have it open, to list it.
    former: Dict[bytes, bytes] = field(default_factory=dict)  # Items by names that they had while it was open.
    fault: bytes = b""  # What hac said when it refused something here last.


def path_of(entry: Entry) -> Optional[bytes]:
    """Where an entry stands in the store; None if it is gone."""
    names = []
    at = entry
    while at.parent is not None:
        names.append(at.name)
        at = at.parent
    if at.number != ROOT:
        return None
    return b"/" + b"/".join(reversed(names))


def depth_of(directory: Directory) -> int:
    """How many names the path of a directory has."""
    return sum(1 for _ in ancestors(directory)) - 1


def ancestors(directory: Directory) -> Iterator[Directory]:
    """A directory and those above it."""
    at: Optional[Directory] = directory
    while at is not None:
        yield at
        at = at.parent


def relative(directory: bytes, path: bytes) -> bytes:
    """How a path is reached from a directory; both are paths of the store."""
    start = directory.split(b"/")[1:] if directory != b"/" else []
    names = path.split(b"/")[1:] if path != b"/" else []
    common = 0
    while common < min(len(start), len(names)) and start[common] == names[common]:
        common += 1
    return b"/".join([b".."] * (len(start) - common) + names[common:]) or b"."


def listing_of(directory: Directory) -> List[Tuple[bytes, Entry]]:
    """What a directory shows: what is stored in it, and then its links."""
    return [*(directory.stored or {}).items(), *directory.links.items()]


ROOT = 1
