"""Reads a folder of files: what stands in it, by what each file is known again, and its text.

It knows no store. A text is what a store is to have of a file: UTF-8 without a byte order mark, wherever the file has one.
"""

from __future__ import annotations

import fnmatch
import functools
import os
import re
import stat
import struct
import time
from dataclasses import dataclass, field
from pathlib import Path
from typing import Any, Dict, Iterator, List, Optional, Sequence, Set, Tuple

from hac_client import MAX_TEXT, joined, name_fault
from hac_record import Seen

try:
    import ctypes
except ImportError:  # Some builds of Python have none. Then no file's birth is known.
    ctypes = None  # type: ignore[assignment]

VIEW = b".hac-view"

# A file that was written so short a time before it was read may be written again with the same time: that of the file,
# which some file systems keep in steps of two seconds, and that of its inode, which the system takes from its own clock.
_FRESH = 2_000_000_000
_FRESHLY_CHANGED = 20_000_000

_CONTROL = re.compile(rb"[\x00-\x06\x0e-\x1a\x1c-\x1f]")
_UTF_8_MARK = b"\xef\xbb\xbf"
_UTF_16_MARKS = (b"\xff\xfe", b"\xfe\xff")


class CannotCome(Exception):
    """Why a file isn't brought."""


@dataclass
class Scan:
    """What is in a folder, by the path below it."""

    files: Dict[bytes, Seen] = field(default_factory=dict)
    directories: Dict[bytes, str] = field(default_factory=dict)
    left_out: Dict[bytes, str] = field(default_factory=dict)
    # Files that are there and can't come, and directories that can't be read. What came of them stays.
    kept: Set[bytes] = field(default_factory=set)

    def keeps(self, path: bytes) -> bool:
        return bool(self.kept) and (path in self.kept or any(above in self.kept for above in parents(path)))


class Scanner:
    """Reads the names of a folder."""

    def __init__(self, folder: bytes, store: Path, skip: Sequence[bytes]) -> None:
        self._folder = folder
        self._store = os.fsencode(store.name)
        self._store_in = inode_of(os.stat(store.parent))
        self._skip = skip

    def scan(self) -> Scan:
        scan = Scan()
        pending = [b""]
        while pending:
            below = pending.pop()
            try:
                pending += self._scan_directory(below, scan)
            except OSError as error:
                if not below:
                    raise
                scan.directories.pop(below, None)
                scan.left_out[below] = f"it can't be read: {error.strerror}"
                scan.kept.add(below)
        return scan

    def _scan_directory(self, below: bytes, scan: Scan) -> List[bytes]:
        """Takes in what stands in a directory. Gives the directories among it."""
        with os.scandir(joined(self._folder, below)) as listed:
            entries = sorted(listed, key=lambda entry: entry.name)
        if below and any(entry.name == VIEW for entry in entries):
            del scan.directories[below]
            scan.left_out[below] = "it was made by hac-view"
            return []
        has_store = inode_of(os.stat(joined(self._folder, below))) == self._store_in
        directories = []
        for entry in entries:
            path = under(below, entry.name)
            if (has_store and self._is_of_store(entry.name)) or self._is_skipped(entry.name, path):
                continue
            if self._take(entry, path, scan):
                directories.append(path)
        return directories

    def _take(self, entry: "os.DirEntry[bytes]", path: bytes, scan: Scan) -> bool:
        """Takes in an entry, and says whether it's a directory to look into."""
        fault = name_fault(entry.name)
        if fault is not None:
            scan.left_out[path] = fault
            return False
        try:
            status = entry.stat(follow_symlinks=False)
        except FileNotFoundError:
            return False
        if stat.S_ISDIR(status.st_mode):
            scan.directories[path] = inode_of(status)
            return True
        if stat.S_ISLNK(status.st_mode):
            scan.left_out[path] = "it's a symbolic link"
        elif not stat.S_ISREG(status.st_mode):
            scan.left_out[path] = "it's no regular file"
        elif status.st_size > MAX_TEXT:
            scan.left_out[path] = "it has more than 1,048,576 bytes"
            scan.kept.add(path)
        else:
            scan.files[path] = seen(status)
        return False

    def _is_of_store(self, name: bytes) -> bool:
        """The name is that of the store, or of a file that belongs to it."""
        if name == b"." + self._store + b".new":
            return True
        if not name.startswith(self._store):
            return False
        return name[len(self._store) :] in (b"", b".lock", b".sync", b".sync.new", b".mail")

    def _is_skipped(self, name: bytes, path: bytes) -> bool:
        return any(fnmatch.fnmatchcase(name, skip) or fnmatch.fnmatchcase(path, skip) for skip in self._skip)


def inode_of(status: os.stat_result) -> str:
    return f"{status.st_dev}:{status.st_ino}"


def seen(status: os.stat_result) -> Seen:
    return Seen(status.st_size, status.st_mtime_ns, status.st_ctime_ns, inode_of(status))


def under(below: bytes, name: bytes) -> bytes:
    return below + b"/" + name if below else name


def parents(path: bytes) -> Iterator[bytes]:
    """The directories above a path, the highest first, without the folder itself."""
    place = path.find(b"/")
    while place >= 0:
        yield path[:place]
        place = path.find(b"/", place + 1)


def above(path: bytes) -> bytes:
    return path.rpartition(b"/")[0]


def base(path: bytes) -> bytes:
    return path.rpartition(b"/")[2]


def rename_below(paths: Dict[bytes, Any], old: bytes, new: bytes) -> None:
    """Gives a directory, and what is below it, its new path."""
    for path in [path for path in paths if path == old or path.startswith(old + b"/")]:
        paths[new + path[len(old) :]] = paths.pop(path)


# A file's text.


def read_text(path: bytes) -> Tuple[bytes, Seen]:
    """The bytes of a file, and what it was known by before they were read."""
    try:
        # A pipe that took the file's place mustn't be waited for.
        descriptor = os.open(path, os.O_RDONLY | os.O_NOFOLLOW | os.O_NONBLOCK | os.O_CLOEXEC)
        with open(descriptor, "rb") as file:
            status = os.fstat(descriptor)
            if not stat.S_ISREG(status.st_mode):
                raise CannotCome("it's no regular file")
            content = file.read(MAX_TEXT + 1)
    except OSError as error:
        raise CannotCome(f"it can't be read: {error.strerror}") from error
    if len(content) > MAX_TEXT:
        raise CannotCome("it has more than 1,048,576 bytes")
    now = time.time_ns()
    is_fresh = now - status.st_mtime_ns < _FRESH or now - status.st_ctime_ns < _FRESHLY_CHANGED
    found = seen(status)
    return content, Seen(len(content), -1, found.changed, found.inode) if is_fresh else found


def text_in(content: bytes) -> Optional[bytes]:
    """The text of a file with these bytes, or None where they are none: UTF-16 with its mark is spelled as UTF-8, and the
    mark of UTF-8 is no sign of the text."""
    if content.startswith(_UTF_16_MARKS) and len(content) % 2 == 0:
        try:
            content = content.decode("utf-16").encode("utf-8")
        except UnicodeError:
            return None
    content = content[len(_UTF_8_MARK) :] if content.startswith(_UTF_8_MARK) else content
    return content if is_text(content) else None


def is_text(content: bytes) -> bool:
    """There is no byte 0, and where there are other control bytes, it's UTF-8."""
    if _CONTROL.search(content) is None:
        return True
    if b"\0" in content:
        return False
    try:
        content.decode("utf-8")
    except UnicodeDecodeError:
        return False
    return True


# When a file came to be. Inodes are used again, and then this tells one file from another.

_HERE = -100
_NO_FOLLOW = 0x100
_BIRTH = 0x800
_BIRTH_PLACE = 80


def birth_of(path: bytes) -> int:
    """When the file at a path was made, in nanoseconds, or 0 where the system doesn't say."""
    libc = _libc()
    if not hasattr(libc, "statx"):
        return _birth_by_stat(path)
    told = ctypes.create_string_buffer(256)
    if libc.statx(_HERE, ctypes.c_char_p(path), _NO_FOLLOW, _BIRTH, told) != 0:
        return 0
    (mask,) = struct.unpack_from("=I", told)
    seconds: int
    rest: int
    seconds, rest = struct.unpack_from("=qI", told, _BIRTH_PLACE)
    return seconds * 1_000_000_000 + rest if mask & _BIRTH else 0


@functools.lru_cache(maxsize=None)
def _libc() -> Any:
    return ctypes.CDLL(None) if ctypes is not None else None


def _birth_by_stat(path: bytes) -> int:
    try:
        return int(getattr(os.lstat(path), "st_birthtime", 0) * 1_000_000_000)
    except OSError:
        return 0
