"""Answers the kernel for a mounted store, by pyfuse3. The tree says what is there and what becomes of it.

Each request is answered whole before the next is taken: there is one hac, which takes one command after the other.
"""

from __future__ import annotations

import errno
import functools
import itertools
import logging
import os
import select
import signal
import stat
import time
from dataclasses import dataclass
from pathlib import Path
from typing import Any, Awaitable, Callable, Dict, Iterator, List, Optional, Sequence, Tuple

import pyfuse3  # type: ignore[import]
import trio  # type: ignore[import]
from pyfuse3 import EntryAttributes, FileInfo, FUSEError, ReaddirToken, RequestContext, SetattrFields, StatvfsData

from hac_client import Hac, Stopped, shown
from hac_mount_entries import Directory, Entry, File, Link, Symlink
from hac_mount_tree import Tree

# The kernel keeps names and attributes, since it is told when they change. What a semantic directory has changes by
# itself, and with it the time that is shown of it.
_LONG = 86_400.0
_SHORT = 1.0

# What statfs tells: a store takes so many bytes of texts, counted in blocks, and so many items.
_BLOCK = 512
_TEXTS = 67_108_864
_ITEMS = 65_536

_QUERY, _LINKS, _FAULT = b"user.hac.query", b"user.hac.links", b"user.hac.fault"
_MARK = b"system.hac.mark"  # The kernel has no user attributes on symbolic links.
_LONGEST_ATTRIBUTE = 65_536

_QUIET = 0.1  # Nothing was asked for so many seconds: then what waits is done.
_LATEST = 0.4  # And after so many seconds it is done whatever is asked.
_SLICE = 0.02  # Such work goes on for about so long at a time.


@dataclass(frozen=True)
class Shown:
    """What is shown of all entries, as the store keeps none of it."""

    user: int
    group: int


def _answered(handler: Callable[..., Awaitable[Any]]) -> Callable[..., Awaitable[Any]]:
    """A handler whose errors are the system's, whatever goes wrong."""

    @functools.wraps(handler)
    async def answer(self: Kernel, *words: Any) -> Any:
        self.check()
        try:
            return await handler(self, *words)
        except OSError as error:
            raise FUSEError(error.errno or errno.EIO) from None
        except Stopped as error:
            raise FUSEError(self.stop(error)) from None
        except FUSEError:
            raise
        except Exception as error:  # A fault of this program: the folder is to go on.
            self.tell(f"a fault of hac-mount in {handler.__name__}: {error!r}")
            raise FUSEError(errno.EIO) from None
        finally:
            self.tell_kernel()
            self.wake()

    return answer


class Kernel(pyfuse3.Operations):  # type: ignore[misc]
    """What the kernel asks for, and the work that goes on while it asks for nothing."""

    def __init__(self, tree: Tree, hac: Hac, shows: Shown, index: bool, tell: Callable[[str], None]) -> None:
        super().__init__()
        self._tree = tree
        self._hac = hac
        self._shows = shows
        self._index = index
        self.tell = tell
        self.stopped: Optional[Stopped] = None
        self._lost = errno.EIO
        self._handles = itertools.count(1)
        self._listings: Dict[int, Tuple[Directory, List[Tuple[bytes, Entry]]]] = {}
        self._dropped: List[int] = []
        self._asked = 0.0
        self._worked = time.monotonic()
        self._steps = 1
        self._learning: Optional[Iterator[None]] = tree.learn()
        self._wake: Optional[trio.Event] = None
        self._done_state = -1  # The state of the tree behind which nothing is left to be done.

    # How requests end.

    def check(self) -> None:
        self._asked = time.monotonic()
        if self.stopped is not None:
            raise FUSEError(self._lost)

    def stop(self, error: Stopped) -> int:
        """hac ended. From now on each request is answered by an error."""
        if self.stopped is None:
            self.stopped = error
            self._lost = errno.ENOSPC if _is_full(error.store) else errno.EIO
            self.tell(f"{error} Unmount the folder, and mount it again.")
        return self._lost

    def tell_kernel(self) -> None:
        """Tells the kernel which names lead elsewhere now."""
        for number, name in self._tree.stale:
            pyfuse3.invalidate_entry_async(number, name, ignore_enoent=True)
        self._tree.stale.clear()

    def wake(self) -> None:
        """Has what waits done, if something changed."""
        tree = self._tree
        if self._wake is not None and (tree.state != self._done_state or (self._index and tree.pending) or self._dropped):
            self._wake.set()

    # Names and attributes.

    def _attributes(self, entry: Entry, size: Optional[int] = None) -> EntryAttributes:
        shown_as = EntryAttributes()
        shown_as.st_ino = entry.number
        shown_as.generation = 0
        shown_as.entry_timeout = shown_as.attr_timeout = _LONG
        shown_as.st_nlink = 1
        shown_as.st_uid = self._shows.user
        shown_as.st_gid = self._shows.group
        shown_as.st_rdev = 0
        shown_as.st_blksize = 131_072
        shown_as.st_atime_ns = shown_as.st_mtime_ns = shown_as.st_ctime_ns = entry.time
        if isinstance(entry, File):
            shown_as.st_mode = stat.S_IFREG | (0o444 if entry.is_document else 0o644)
            shown_as.st_size = self._tree.size(entry) if size is None else size
        elif isinstance(entry, Directory):
            shown_as.st_mode = stat.S_IFDIR | (0o555 if entry.letter == b"m" else 0o755)
            shown_as.st_size = 0
            if entry.letter == b"s":
                shown_as.attr_timeout = _SHORT
        elif isinstance(entry, (Link, Symlink)):
            shown_as.st_mode = stat.S_IFLNK | 0o777
            shown_as.st_size = len(entry.target)
        shown_as.st_blocks = (shown_as.st_size + 511) // 512
        return shown_as

    def _given(self, entry: Entry) -> EntryAttributes:
        """The attributes of an entry that the kernel is given to know."""
        attributes = self._attributes(entry)
        entry.known += 1
        return attributes

    def _entry(self, number: int) -> Entry:
        return self._tree.entries[number]

    def _file(self, number: int) -> File:
        entry = self._tree.entries[number]
        if not isinstance(entry, File):
            raise OSError(errno.EISDIR, "no file")
        return entry

    @_answered
    async def lookup(self, parent: int, name: bytes, ctx: RequestContext) -> EntryAttributes:
        directory = self._tree.directory(parent)
        if name in (b".", b".."):
            return self._given(directory if name == b"." else directory.parent or directory)
        entry = self._tree.look(directory, name)
        if entry is None:
            raise FUSEError(errno.ENOENT)
        given = self._given(entry)
        if entry.name != name:
            given.entry_timeout = 0  # A former name, which isn't kept.
        return given

    async def forget(self, forgotten: Sequence[Tuple[int, int]]) -> None:
        for number, times in forgotten:
            if number in self._tree.entries:
                self._tree.forget(self._tree.entries[number], times)

    @_answered
    async def getattr(self, number: int, ctx: RequestContext) -> EntryAttributes:
        return self._attributes(self._entry(number))

    @_answered
    async def setattr(
        self, number: int, wanted: EntryAttributes, fields: SetattrFields, handle: Optional[int], ctx: RequestContext
    ) -> EntryAttributes:
        """Sizes and times are changed; modes and owners stay, and nobody is told that they do."""
        entry = self._entry(number)
        if fields.update_size:
            self._tree.truncate(self._file(number), wanted.st_size)
        if fields.update_mtime:
            entry.time = wanted.st_mtime_ns
        return self._attributes(entry)

    @_answered
    async def readlink(self, number: int, ctx: RequestContext) -> bytes:
        entry = self._entry(number)
        if not isinstance(entry, (Link, Symlink)):
            raise FUSEError(errno.EINVAL)
        return entry.target

    # Directories.

    @_answered
    async def opendir(self, number: int, ctx: RequestContext) -> int:
        directory = self._tree.directory(number)
        handle = next(self._handles)
        self._listings[handle] = directory, self._listing(directory)
        directory.readers += 1
        return handle

    @_answered
    async def readdir(self, handle: int, start: int, token: ReaddirToken) -> None:
        directory, listing = self._listings[handle]
        if start == 0:
            listing = self._listing(directory)
            self._listings[handle] = directory, listing
        for place in range(start, len(listing)):
            name, entry = listing[place]
            is_dot = place < 2
            if not is_dot and (entry.parent is not directory or entry.name != name):
                continue  # It went since.
            if not pyfuse3.readdir_reply(token, name, self._listed(entry), place + 1):
                return
            entry.known += not is_dot

    def _listing(self, directory: Directory) -> List[Tuple[bytes, Entry]]:
        dots: List[Tuple[bytes, Entry]] = [(b".", directory), (b"..", directory.parent or directory)]
        return dots + self._tree.list(directory)

    def _listed(self, entry: Entry) -> EntryAttributes:
        """The attributes of an entry in a listing. The text of a file isn't read for it: the kernel asks for the size."""
        if isinstance(entry, File) and entry.size is None and entry.text is None:
            attributes = self._attributes(entry, 0)
            attributes.attr_timeout = 0
            return attributes
        return self._attributes(entry)

    async def releasedir(self, handle: int) -> None:
        directory, _ = self._listings.pop(handle)
        self._tree.close_listing(directory)

    @_answered
    async def fsyncdir(self, handle: int, data_only: bool) -> None:
        directory, _ = self._listings[handle]
        for entry in list(self._tree.stored_in(directory).values()):
            if isinstance(entry, File) and not entry.is_stored:
                self._tree.save(entry)

    # Files.

    @_answered
    async def open(self, number: int, flags: int, ctx: RequestContext) -> FileInfo:
        file = self._file(number)
        if file.is_document:
            if flags & (os.O_WRONLY | os.O_RDWR):
                raise FUSEError(errno.EROFS)
            self._tree.text(file)  # Where its space doesn't say, it isn't opened.
        file.opened += 1
        if flags & os.O_TRUNC:
            self._tree.truncate(file, 0)
        return FileInfo(fh=number, keep_cache=True)

    @_answered
    async def create(
        self, parent: int, name: bytes, mode: int, flags: int, ctx: RequestContext
    ) -> Tuple[FileInfo, EntryAttributes]:
        file = self._tree.create(self._tree.directory(parent), name)
        file.opened = 1
        return FileInfo(fh=file.number, keep_cache=True), self._given(file)

    @_answered
    async def read(self, handle: int, offset: int, size: int) -> bytes:
        return self._tree.read(self._file(handle), offset, size)

    @_answered
    async def write(self, handle: int, offset: int, written: bytes) -> int:
        self._tree.write(self._file(handle), offset, written)
        return len(written)

    @_answered
    async def flush(self, handle: int) -> None:
        self._tree.save(self._file(handle))

    @_answered
    async def fsync(self, handle: int, data_only: bool) -> None:
        self._tree.save(self._file(handle))

    @_answered
    async def release(self, handle: int) -> None:
        if self._tree.close(self._file(handle)):
            self._dropped.append(handle)  # The kernel still has the text that wasn't stored.

    # Changes.

    @_answered
    async def mknod(self, parent: int, name: bytes, mode: int, device: int, ctx: RequestContext) -> EntryAttributes:
        if not stat.S_ISREG(mode):
            raise FUSEError(errno.EPERM)
        file = self._tree.create(self._tree.directory(parent), name)
        file.opened = 1
        try:
            self._tree.save(file)
        finally:
            self._tree.close(file)
        return self._given(file)

    @_answered
    async def mkdir(self, parent: int, name: bytes, mode: int, ctx: RequestContext) -> EntryAttributes:
        return self._given(self._tree.mkdir(self._tree.directory(parent), name))

    @_answered
    async def symlink(self, parent: int, name: bytes, target: bytes, ctx: RequestContext) -> EntryAttributes:
        return self._given(self._tree.symlink(self._tree.directory(parent), name, target))

    @_answered
    async def link(self, number: int, parent: int, name: bytes, ctx: RequestContext) -> EntryAttributes:
        raise FUSEError(errno.EPERM)

    @_answered
    async def unlink(self, parent: int, name: bytes, ctx: RequestContext) -> None:
        self._tree.unlink(self._tree.directory(parent), name)

    @_answered
    async def rmdir(self, parent: int, name: bytes, ctx: RequestContext) -> None:
        self._tree.rmdir(self._tree.directory(parent), name)

    @_answered
    async def rename(self, old: int, old_name: bytes, new: int, new_name: bytes, flags: int, ctx: RequestContext) -> None:
        if flags & ~pyfuse3.RENAME_NOREPLACE:
            raise FUSEError(errno.EINVAL)
        tree = self._tree
        may_replace = not flags & pyfuse3.RENAME_NOREPLACE
        tree.rename(tree.directory(old), old_name, tree.directory(new), new_name, may_replace)

    @_answered
    async def statfs(self, ctx: RequestContext) -> StatvfsData:
        counts = self._tree.counts()
        told = StatvfsData()
        told.f_bsize = told.f_frsize = _BLOCK
        told.f_blocks = _TEXTS // _BLOCK
        told.f_bfree = told.f_bavail = max(0, _TEXTS - self._tree.texts_taken) // _BLOCK
        told.f_files = _ITEMS
        told.f_ffree = told.f_favail = _ITEMS - counts[b"files"] - counts[b"documents"]
        told.f_namemax = 255
        return told

    # Extended attributes.

    @_answered
    async def getxattr(self, number: int, name: bytes, ctx: RequestContext) -> bytes:
        entry = self._entry(number)
        if isinstance(entry, Link) and name == _MARK:
            return entry.mark
        if isinstance(entry, Directory):
            if name == _QUERY and entry.letter == b"s":
                return self._tree.query(entry)
            if name == _LINKS and entry.letter == b"s":
                self._tree.find_links(entry)
                return _attribute(b"".join(line + b"\n" for line in entry.listed[1:]))
            if name == _FAULT and entry.fault:
                return entry.fault
        raise FUSEError(pyfuse3.ENOATTR)

    @_answered
    async def listxattr(self, number: int, ctx: RequestContext) -> List[bytes]:
        """Only what can also be set, since those who copy attributes set what they found listed."""
        entry = self._entry(number)
        if isinstance(entry, Link):
            return [_MARK]
        return [_QUERY] if isinstance(entry, Directory) and entry.letter == b"s" else []

    @_answered
    async def setxattr(self, number: int, name: bytes, value: bytes, ctx: RequestContext) -> None:
        entry = self._entry(number)
        if isinstance(entry, Link) and name == _MARK:
            self._tree.set_mark(entry, value)
        elif isinstance(entry, Directory) and name == _QUERY:
            self._tree.set_query(entry, value)
        else:
            raise FUSEError(errno.ENOTSUP)

    @_answered
    async def removexattr(self, number: int, name: bytes, ctx: RequestContext) -> None:
        entry = self._entry(number)
        if isinstance(entry, Link) and name == _MARK:
            self._tree.forget_mark(entry)
        elif isinstance(entry, Directory) and name == _QUERY:
            self._tree.remove_query(entry)
        elif isinstance(entry, Directory) and name == _FAULT and entry.fault:
            entry.fault = b""
        else:
            raise FUSEError(pyfuse3.ENOATTR)

    # What goes on while nothing is asked.

    async def tend(self) -> None:
        """Indexes what was written, tells the kernel of links that changed, and looks at what nobody has looked at."""
        self._do(self._tree.count_pending)
        while self.stopped is None:
            await trio.sleep(_SLICE)
            await self._drop_texts()
            if not self._waits():
                self._done_state = self._tree.state
                self._wake = trio.Event()
                await self._wake.wait()
                self._wake = None
                continue
            now = time.monotonic()
            quiet = now - self._asked > _QUIET
            if quiet or now - self._worked > _LATEST:
                self._do(self._work)
                self._worked = time.monotonic()

    def _waits(self) -> bool:
        return bool((self._index and self._tree.pending) or self._tree.outdated() or self._learning or self._dropped)

    def _do(self, work: Callable[[], None]) -> None:
        try:
            work()
        except Stopped as error:
            self.stop(error)
        except OSError:
            pass  # The log has why.
        except Exception as error:  # A fault of this program: the folder is to go on.
            self.tell(f"a fault of hac-mount in {work.__name__}: {error!r}")
            self._index, self._learning = False, None
        self.tell_kernel()

    def _work(self) -> None:
        if self._index and self._tree.pending:
            self._tick()
        for directory in self._tree.outdated():
            self._tree.find_links(directory)
        until = time.monotonic() + _SLICE
        while self._learning is not None and time.monotonic() < until:
            if next(self._learning, self) is self:
                self._learning = None

    def _tick(self) -> None:
        """Indexes some files, as many as a short time takes."""
        began = time.monotonic()
        try:
            self._tree.tick(self._steps)
        except OSError:
            self._index = False  # The log has why. What was written stays to be indexed.
            return
        took = time.monotonic() - began
        self._steps = max(1, self._steps // 2) if took > 2 * _SLICE else min(1024, self._steps * 2)

    async def _drop_texts(self) -> None:
        """Has the kernel forget texts that couldn't be stored."""
        while self._dropped:
            number = self._dropped.pop()
            if number in self._tree.entries:
                await trio.to_thread.run_sync(_forget_text, number)

    async def watch(self) -> None:
        """Ends the mount where a signal asks for it, and sees when hac has ended."""
        with trio.open_signal_receiver(signal.SIGINT, signal.SIGTERM, signal.SIGHUP, signal.SIGCHLD) as signals:
            async for number in signals:
                if number != signal.SIGCHLD:
                    break
                if self.stopped is None and not self._hac.is_running():
                    self._do(self._tree.count_pending)
        self.save()
        pyfuse3.terminate()

    def save(self) -> None:
        """Stores what is still open."""
        try:
            self._tree.save_all()
        except Stopped as error:
            self.stop(error)


def _attribute(value: bytes) -> bytes:
    if len(value) > _LONGEST_ATTRIBUTE:
        raise OSError(errno.E2BIG, "longer than an attribute may be")
    return value


def _forget_text(number: int) -> None:
    try:
        pyfuse3.invalidate_inode(number)
    except OSError:
        pass  # The kernel has forgotten it already.


def _is_full(store: Path) -> bool:
    """The disk below a store has no room left."""
    try:
        return os.statvfs(store).f_bavail == 0
    except OSError:
        return False


class _Quick:
    """Waits for requests that follow one another by a system call.

    pyfuse3 waits for each by trio, which takes several times as long as to answer it. So while requests come, the next
    one is waited for by `poll`, for a millisecond at most; and every ten milliseconds other work may come in between.
    """

    def __init__(self, descriptor: int, wait: Callable[[], Awaitable[bool]]) -> None:
        self._poll = select.poll()
        self._poll.register(descriptor, select.POLLIN)
        self._wait = wait
        self._waited = 0.0

    async def wait(self) -> bool:
        if time.monotonic() - self._waited < 0.01 and self._poll.poll(1):
            return True
        goes_on = await self._wait()
        self._waited = time.monotonic()
        return goes_on

    @staticmethod
    def install() -> None:
        """Puts this in the place of pyfuse3's own waiting, in those versions that are known to have it so."""
        wait = getattr(pyfuse3, "_wait_fuse_readable", None)
        devices = [int(name) for name in os.listdir("/proc/self/fd") if _leads_to_fuse(f"/proc/self/fd/{name}")]
        if wait is not None and pyfuse3.__version__.startswith("3.2.") and len(devices) == 1:
            pyfuse3._wait_fuse_readable = _Quick(devices[0], wait).wait


def _leads_to_fuse(descriptor: str) -> bool:
    try:
        return os.readlink(descriptor) == "/dev/fuse"
    except OSError:
        return False


async def _serve(kernel: Kernel) -> None:
    async with trio.open_nursery() as nursery:
        nursery.start_soon(kernel.tend)
        nursery.start_soon(kernel.watch)
        await pyfuse3.main(min_tasks=1, max_tasks=1)
        nursery.cancel_scope.cancel()


def serve(kernel: Kernel, store: bytes, place: bytes, read_only: bool, mounted: Callable[[], None]) -> None:
    """Mounts the tree, says so by a call, and answers until it is unmounted."""
    logging.getLogger("pyfuse3").setLevel(logging.CRITICAL)
    source = shown(store).replace("\\", "\\\\").replace(",", "\\,")
    options = {*pyfuse3.default_options, f"fsname={source}", "subtype=hac", "auto_unmount"}
    if read_only:
        options.add("ro")
    try:
        pyfuse3.init(kernel, os.fsdecode(place), options)
    except RuntimeError as error:
        raise OSError(errno.EIO, f"it can't be mounted: {error}", place) from error
    try:
        _Quick.install()
        mounted()
        trio.run(_serve, kernel)
    finally:
        pyfuse3.close(unmount=True)
        kernel.save()
