"""What hac-sync brought into a store: the record in the file STORE.sync beside it.

The record says which paths of the store are hac-sync's. It names each before the store has it, so it never misses one.
What it says of a file's text is a shortcut, good while the store is the one that it was written for; where it says
nothing of it, the store is asked. hac-view reads here which file of which folder a path of the store came from.
"""

from __future__ import annotations

import hashlib
import json
import os
from dataclasses import dataclass, field
from pathlib import Path
from typing import Any, Dict, List, Optional, Set, Tuple

from hac_client import joined, write_whole

VERSION = 2
_TAIL = 4096
# So many of the files that went are remembered.
_REMOVED = 65_536


@dataclass(frozen=True)
class Seen:
    """By what an unchanged file is known again: its size, its time, when its inode changed, and its inode. Where nothing
    is known, or not enough, they are those of no file."""

    size: int = -1
    time: int = -1
    changed: int = -1
    inode: str = ""

    def may_be(self, other: Seen) -> bool:
        """It is the same file, or one like it: not just another that came to its place."""
        return self.inode == other.inode or (self.size, self.time) == (other.size, other.time)


@dataclass(frozen=True)
class Brought:
    """A file that hac-sync brought or was about to bring: the text in the store, and by what the file was known then."""

    digest: Optional[str] = None  # None where a run ended before it was known.
    seen: Seen = Seen()
    birth: int = 0  # When the file was made, or 0: inodes are used again.

    @property
    def size(self) -> int:
        return self.seen.size


@dataclass(frozen=True)
class LeftOut:
    """A file that couldn't come, and by what it was known then."""

    reason: str
    seen: Seen


@dataclass(frozen=True)
class Directory:
    """A directory of the store that stands for one of the folder."""

    inode: str  # Of the folder's, to know it again under another name.
    made: bool  # hac-sync made it, and removes it when it is empty.


@dataclass(frozen=True)
class Stamp:
    """By what a store is known that nobody wrote to since."""

    length: int
    time: int
    inode: int

    @staticmethod
    def of(store: Path) -> Optional[Stamp]:
        try:
            status = os.stat(store)
        except FileNotFoundError:
            return None
        return Stamp(status.st_size, status.st_mtime_ns, status.st_ino)


@dataclass
class Folder:
    """What came from one folder. Paths are below the folder, and so below the place in the store."""

    folder: bytes
    files: Dict[bytes, Brought] = field(default_factory=dict)
    directories: Dict[bytes, Directory] = field(default_factory=dict)
    left_out: Dict[bytes, LeftOut] = field(default_factory=dict)
    # What was removed or moved away, with the text that it had: in an older store that is put back it stands again.
    removed: Dict[bytes, str] = field(default_factory=dict)
    # Files that the store has below the place, and that came from nowhere that hac-sync knows.
    others: List[bytes] = field(default_factory=list)
    stamp: Optional[Stamp] = None  # The store's, where a run ended with all of this in it.


@dataclass(frozen=True)
class Mark:
    """By what a store is known again that only grew since: its length and a digest of its last bytes."""

    length: int
    digest: str

    @staticmethod
    def of(store: Path, length: Optional[int] = None) -> Optional[Mark]:
        """The mark of a store, or of its first bytes. The very last one is left out: a next record changes it."""
        with open(store, "rb") as file:
            whole = file.seek(0, 2)
            end = whole if length is None else length
            if end > whole:
                return None
            start = max(0, end - 1 - _TAIL)
            file.seek(start)
            tail = file.read(max(0, end - 1 - start))
        return Mark(end, digest_of(tail))

    def holds(self, store: Path) -> bool:
        return Mark.of(store, self.length) == self


@dataclass
class Record:
    """All that hac-sync knows of a store: a folder for each place in it, and the store's mark."""

    mark: Optional[Mark] = None
    folders: Dict[bytes, Folder] = field(default_factory=dict)

    def sources(self) -> Dict[bytes, bytes]:
        """For each path of the store that was brought, the path of the file that it came from."""
        return {
            joined(place, path): joined(folder.folder, path)
            for place, folder in self.folders.items()
            for path in folder.files
        }


def record_file(store: Path) -> Path:
    return store.with_name(store.name + ".sync")


def mail_paths(store: Path) -> Set[bytes]:
    """Where hac-mail brought messages."""
    try:
        lines = store.with_name(store.name + ".mail").read_bytes().split(b"\n")
    except OSError:
        return set()
    paths: Set[bytes] = set()
    for line in lines:
        try:
            _, path = json.loads(line)
            paths.add(_bytes(path))
        except (ValueError, TypeError, AttributeError):
            continue  # A mark of the store, or no line of hac-mail's.
    return paths


def digest_of(text: bytes) -> str:
    return hashlib.blake2b(text, digest_size=16).hexdigest()


def read_record(store: Path) -> Tuple[Record, bool]:
    """The record beside a store, an empty one where there is none; and whether it could be read."""
    try:
        content = record_file(store).read_bytes()
    except FileNotFoundError:
        return Record(), True
    try:
        return _parsed(json.loads(content)), True
    except (ValueError, KeyError, TypeError, AttributeError):
        return Record(), False


def write_record(store: Path, record: Record) -> None:
    """Writes the record, whole or not at all."""
    write_whole(record_file(store), json.dumps(_plain(record), separators=(",", ":")).encode("ascii"))


def _parsed(plain: Any) -> Record:
    if plain["version"] not in (1, VERSION):
        raise ValueError("another version")
    return Record(
        mark=Mark(*plain["mark"]) if plain["mark"] else None,
        folders={
            _bytes(place): Folder(
                folder=_bytes(folder["folder"]),
                files={_bytes(path): _brought(*brought) for path, brought in folder["files"].items()},
                directories={_bytes(path): Directory(*known) for path, known in folder["directories"].items()},
                left_out={_bytes(path): LeftOut(known[0], Seen(*known[1:])) for path, known in folder["left_out"].items()},
                removed={_bytes(path): digest for path, digest in folder.get("removed", {}).items()},
                others=[_bytes(path) for path in folder.get("others", [])],
                stamp=Stamp(*folder["stamp"]) if folder["stamp"] else None,
            )
            for place, folder in plain["folders"].items()
        },
    )


def _plain(record: Record) -> Any:
    return {
        "version": VERSION,
        "mark": [record.mark.length, record.mark.digest] if record.mark else None,
        "folders": {
            _str(place): {
                "folder": _str(folder.folder),
                "files": {
                    _str(path): [known.digest, *_seen(known.seen), known.birth] for path, known in folder.files.items()
                },
                "directories": {_str(path): [known.inode, known.made] for path, known in folder.directories.items()},
                "left_out": {_str(path): [known.reason, *_seen(known.seen)] for path, known in folder.left_out.items()},
                "removed": {_str(path): digest for path, digest in list(folder.removed.items())[-_REMOVED:]},
                "others": [_str(path) for path in folder.others],
                "stamp": [folder.stamp.length, folder.stamp.time, folder.stamp.inode] if folder.stamp else None,
            }
            for place, folder in record.folders.items()
        },
    }


def _brought(digest: Optional[str], size: int, time: int, changed: int = -1, inode: str = "", birth: int = 0) -> Brought:
    """A file as the record has it. One of version 1 says neither when its inode changed nor which it was."""
    return Brought(digest, Seen(size, time, changed, inode), birth)


def _seen(seen: Seen) -> Tuple[int, int, int, str]:
    return seen.size, seen.time, seen.changed, seen.inode


def _bytes(name: str) -> bytes:
    return name.encode("utf-8", "surrogateescape")


def _str(name: bytes) -> str:
    return name.decode("utf-8", "surrogateescape")
