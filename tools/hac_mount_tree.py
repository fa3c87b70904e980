"""The tree of a store as a mount shows and changes it, by commands of one running hac.

The mount alone has the store, so what was listed once is kept, and each change here follows an answered command. Only
links come and go by themselves: a semantic directory asks for its own again once anything may have changed them.
Whatever can't be is an OSError with the system's number; what hac said of it stays with the directory.
"""

from __future__ import annotations

import errno
import os
import time
from collections import OrderedDict
from typing import Callable, Dict, Iterator, List, NoReturn, Optional, Tuple

from hac_client import MAX_NAME, MAX_TEXT, Hac, Reply, joined, meaning, name_fault, names_of, shown, word
from hac_link_names import names_for
from hac_mount_entries import (
    MAX_PATH,
    ROOT,
    Directory,
    Entry,
    File,
    Link,
    Symlink,
    depth_of,
    listing_of,
    path_of,
    relative,
)
from hac_mount_faults import error_of

_KEPT = 8 * 1_048_576  # So many bytes of texts are kept that were read last.


class Tree:
    def __init__(self, hac: Hac, place: bytes, began: int, tell: Callable[[str], None]) -> None:
        """`place` is where the tree is mounted, `began` the time that is shown of what didn't change since, and `tell`
        takes the lines of the log."""
        self._hac = hac
        self._place = place
        self._began = began
        self._tell = tell
        self._next = ROOT + 1
        self._texts: OrderedDict[int, bytes] = OrderedDict()
        self._texts_size = 0
        self.root = Directory(ROOT, b"", None, began)
        self.entries: Dict[int, Entry] = {ROOT: self.root}
        self.state = 0  # Counts the changes that may have changed links.
        self.pending = 0  # So many files are dirty, or fewer.
        self.dirty: Dict[int, File] = {}  # What this mount wrote and nobody indexed.
        self._shown: Dict[int, Directory] = {}  # The semantic directories whose links were asked for.
        self.stale: List[Tuple[int, bytes]] = []  # Names that the kernel may know and that lead elsewhere now.
        self.texts_taken = 0  # Bytes of the texts whose size is known.

    # What hac says.

    def ask(self, at: Directory, line: bytes, body: Optional[bytes] = None) -> Reply:
        """The reply to a command about something in this directory."""
        if b"\n" in line:
            self.refuse(at, errno.EINVAL, b"bad-line")
        reply = self._hac.ask(line, body)
        if reply.refusal is not None:
            self.refuse(at, error_of(reply.refusal), reply.refusal)
        return reply

    def refuse(self, at: Directory, error: int, said: bytes) -> NoReturn:
        """Ends a request with an error. `said` is a refusal of hac's."""
        at.fault = f"{shown(said)} ({meaning(said)})".encode()
        self._tell(f"{shown(path_of(at) or b'a removed directory')}: {at.fault.decode()}")
        raise OSError(error, os.strerror(error))

    # Looking.

    def directory(self, number: int) -> Directory:
        entry = self.entries[number]
        if not isinstance(entry, Directory):
            raise OSError(errno.ENOTDIR, "not a directory")
        return entry

    def place_of(self, entry: Entry) -> bytes:
        """The path of an entry that is there."""
        path = path_of(entry)
        if path is None:
            raise OSError(errno.ENOENT, "it is gone")
        return path

    def stored_in(self, directory: Directory) -> Dict[bytes, Entry]:
        """What is stored in a directory, by name."""
        if directory.stored is None:
            listed = self.ask(directory, b"ls " + word(self.place_of(directory))).lines
            directory.stored = {line[2:]: self._found(directory, line[:1], line[2:]) for line in listed}
        return directory.stored

    def look(self, directory: Directory, name: bytes) -> Optional[Entry]:
        """What has this name in a directory."""
        if len(name) > MAX_NAME:
            raise OSError(errno.ENAMETOOLONG, "a name has at most 255 bytes")
        entry = self.stored_in(directory).get(name)
        if entry is None and directory.letter == b"s":
            self.find_links(directory)
            entry = directory.links.get(name) or self._formerly(directory, name)
        return entry

    def _formerly(self, directory: Directory, name: bytes) -> Optional[Link]:
        """The link that had this name when somebody listed the directory who still has it open. As `rm -r` removes one of
        two of the same name, the other gets another one."""
        item = directory.former.get(name)
        return next((link for link in directory.links.values() if link.item == item), None) if item is not None else None

    def close_listing(self, directory: Directory) -> None:
        """One who had a directory open has closed it."""
        directory.readers -= 1
        if directory.readers == 0:
            directory.former.clear()

    def list(self, directory: Directory) -> List[Tuple[bytes, Entry]]:
        """All that a directory shows."""
        self.stored_in(directory)
        if directory.letter == b"s":
            self.find_links(directory)
        return listing_of(directory)

    def at(self, path: bytes) -> Optional[Entry]:
        """What stands at a path of the store; no symbolic link is followed."""
        entry: Optional[Entry] = self.root
        for name in names_of(path):
            if not isinstance(entry, Directory):
                return None
            entry = self.stored_in(entry).get(name)
        return entry

    def _found(self, directory: Directory, letter: bytes, name: bytes) -> Entry:
        """An entry that hac lists."""
        entry: Entry
        if letter in (b"f", b"o"):
            entry = File(self._number(), name, directory, self._began, is_document=letter == b"o")
        elif letter == b"l":
            entry = Symlink(self._number(), name, directory, self._began)
            reply = self.ask(directory, b"readlink " + word(joined(self.place_of(directory), name)))
            entry.target = reply.lines[0][2:]
        else:
            entry = Directory(self._number(), name, directory, self._began, letter=letter)
        self.entries[entry.number] = entry
        return entry

    def _number(self) -> int:
        self._next += 1
        return self._next - 1

    # Links.

    def find_links(self, directory: Directory) -> None:
        """Asks for the links of a semantic directory again, if they may have changed."""
        if directory.links_of == self.state:
            return
        place = self.place_of(directory)
        listed = (place, *self.ask(directory, b"sls " + word(place)).lines)
        directory.links_of = self.state
        self._shown[directory.number] = directory
        taken = set(self.stored_in(directory))
        if (listed, taken) == (directory.listed, directory.taken):
            return
        directory.listed, directory.taken = listed, taken
        self._take_links(directory, place, {line[2:]: line[:1] for line in listed[1:] if line[:1] != b"x"})

    def _take_links(self, directory: Directory, place: bytes, marks: Dict[bytes, bytes]) -> None:
        """Gives the links their names. What is stored here itself is no link besides."""
        stored = self.stored_in(directory)
        items = [item for item in marks if _parent(item) != place or _name(item) not in stored]
        before, directory.links = directory.links, {}
        for name, item in names_for(items, directory.taken):
            link = before.get(name)
            target = relative(place, item)
            if link is None or (link.item, link.target) != (item, target):
                link = Link(self._number(), name, directory, time.time_ns(), item=item, target=target)
                self.entries[link.number] = link
                directory.time = link.time
            link.mark = marks[item]
            directory.links[name] = link
        for name, link in before.items():
            if directory.links.get(name) is not link:
                directory.time = time.time_ns()
                if directory.readers and link.item in marks:
                    directory.former[name] = link.item
                self._drop(link)

    def outdated(self) -> List[Directory]:
        """The semantic directories whose links the kernel may know and that may have changed."""
        gone = [number for number, directory in self._shown.items() if path_of(directory) is None or not directory.links]
        for number in gone:
            del self._shown[number]
        return [directory for directory in self._shown.values() if directory.links_of != self.state]

    def item_behind(self, directory: Directory, target: bytes) -> Optional[Entry]:
        """The item or directory to which a target leads from a directory of the mount, if it is one of the store."""
        if target.startswith(b"/"):
            if target != self._place and not target.startswith(self._place + b"/"):
                return None
            path = target[len(self._place) :]
        else:
            path = joined(self.place_of(directory), target)
        names = names_of(path)
        above = self.at(b"/" + b"/".join(names[:-1]))
        if not names:
            return self.root
        entry = self.look(above, names[-1]) if isinstance(above, Directory) else None
        if isinstance(entry, Link):
            entry = self.at(entry.item)
        return entry if isinstance(entry, (File, Directory)) else None

    # Texts.

    def text(self, file: File) -> bytes:
        """The text of a file as whoever reads it now is to see it."""
        if file.text is not None:
            return bytes(file.text)
        kept = self._texts.get(file.number)
        if kept is not None:
            self._texts.move_to_end(file.number)
            return kept
        if not file.is_stored:
            return b""
        path = self.place_of(file)
        assert file.parent is not None
        text = self.ask(file.parent, b"cat " + word(path)).text
        self._set_size(file, len(text))
        self._keep(file, text)
        return text

    def read(self, file: File, offset: int, size: int) -> bytes:
        """Some bytes of a text."""
        if file.text is not None:
            return bytes(file.text[offset : offset + size])
        return self.text(file)[offset : offset + size]

    def size(self, file: File) -> int:
        """How long a file is. A document whose space doesn't say is shown as empty."""
        if file.text is not None:
            return len(file.text)
        if file.size is None:
            try:
                return len(self.text(file))
            except OSError:
                if not file.is_document:
                    raise
                self._set_size(file, 0)
        return file.size or 0

    def write(self, file: File, offset: int, written: bytes) -> None:
        """Changes the text of a file that is open."""
        end = offset + len(written)
        if end > MAX_TEXT:
            self._too_long(file)
        text = self._open_text(file)
        if offset > len(text):
            text.extend(bytes(offset - len(text)))
        text[offset:end] = written
        self._changed(file)

    def truncate(self, file: File, size: int) -> None:
        """Cuts the text of a file, or fills it up. Where nobody has it open it is stored at once."""
        if file.is_document:
            self._read_only(file)
        if size > MAX_TEXT:
            self._too_long(file)
        if size == 0:
            file.text = bytearray()
        else:
            text = self._open_text(file)
            del text[size:]
            text.extend(bytes(size - len(text)))
        self._changed(file)
        if not file.opened:
            try:
                self.save(file)
            finally:
                self._let_go(file)

    def save(self, file: File) -> None:
        """Stores the text of a file whole, if it was changed. What is gone is stored no longer."""
        if not file.is_changed or file.parent is None:
            return
        assert file.text is not None
        text = bytes(file.text)
        self._put(file.parent, self.place_of(file), text)
        self._saved(file, text)

    def close(self, file: File) -> bool:
        """One who had a file open has closed it. Says whether a text that couldn't be stored was dropped."""
        file.opened -= 1
        if file.opened:
            return False
        try:
            self.save(file)
        except OSError:
            pass  # Whoever closed it was told, and the log has it.
        dropped = file.is_changed and file.parent is not None
        if file.parent is None:
            self.forget(file, 0)
            return False
        self._let_go(file)
        if not file.is_stored:
            del self.stored_in(file.parent)[file.name]
            self._drop(file)
        return dropped

    def _let_go(self, file: File) -> None:
        """Nobody has a file open: its text is the stored one."""
        file.text = None
        file.is_changed = False

    def save_all(self) -> None:
        """Stores what is open and changed, as far as it can be."""
        for entry in list(self.entries.values()):
            if isinstance(entry, File) and entry.is_changed:
                try:
                    self.save(entry)
                except OSError:
                    pass  # The log has it.

    def _put(self, at: Directory, path: bytes, text: bytes) -> None:
        self.ask(at, b"put %s %d" % (word(path), len(text)), text)

    def _saved(self, file: File, text: bytes) -> None:
        """The store has this text of a file."""
        if not file.is_stored:
            file.is_stored = True
            self.state += 1
        file.is_changed = False
        self.dirty[file.number] = file
        self.pending += 1
        self._set_size(file, len(text))
        self._keep(file, text)

    def _open_text(self, file: File) -> bytearray:
        if file.text is None:
            file.text = bytearray(self.text(file))
        return file.text

    def _changed(self, file: File) -> None:
        file.is_changed = True
        file.time = time.time_ns()

    def _too_long(self, file: File) -> NoReturn:
        self.refuse(file.parent or self.root, errno.EFBIG, b"limit text")

    def _read_only(self, file: File) -> NoReturn:
        self.refuse(file.parent or self.root, errno.EROFS, b"in-mount " + (path_of(file.parent or self.root) or b""))

    def _set_size(self, file: File, size: Optional[int]) -> None:
        """Keeps the size of a text, and what all of them take: of each the longer of the present and the indexed one."""
        self.texts_taken -= _taken(file)
        file.size = size
        if file.number not in self.dirty:
            file.indexed = size or 0
        self.texts_taken += _taken(file)

    def _keep(self, file: File, text: bytes) -> None:
        """Keeps a text that was read or stored, and lets those go that weren't wanted for the longest time."""
        self._forget_text(file)
        self._texts[file.number] = text
        self._texts_size += len(text)
        while self._texts_size > _KEPT:
            self._texts_size -= len(self._texts.popitem(last=False)[1])

    def _forget_text(self, file: File) -> None:
        self._texts_size -= len(self._texts.pop(file.number, b""))

    # Changes.

    def create(self, directory: Directory, name: bytes) -> File:
        """A new file, which is stored when it is saved first."""
        self._free(directory, name)
        file = File(self._number(), name, directory, time.time_ns(), is_stored=False, size=0)
        file.text = bytearray()
        file.is_changed = True
        self._add(file)
        return file

    def mkdir(self, directory: Directory, name: bytes) -> Directory:
        path = self._free(directory, name)
        self.ask(directory, b"mkdir " + word(path))
        made = Directory(self._number(), name, directory, time.time_ns(), stored={})
        self._add(made)
        return made

    def symlink(self, directory: Directory, name: bytes, target: bytes) -> Entry:
        """A symbolic link. In a semantic directory, one to an item under its own name is the item's permanent link."""
        path = self._free(directory, name)
        item = self.item_behind(directory, target) if directory.letter == b"s" else None
        if item is not None and item.name == name and item is not self.root:
            return self._add_link(directory, item)
        self.ask(directory, b"ln %s %s" % (word(target), word(path)))
        made = Symlink(self._number(), name, directory, time.time_ns(), target=target)
        self._add(made)
        return made

    def unlink(self, directory: Directory, name: bytes) -> None:
        entry = self._there(directory, name)
        if isinstance(entry, Directory):
            raise OSError(errno.EISDIR, "a directory")
        if isinstance(entry, Link):
            self._take_out(directory, entry)
            return
        if isinstance(entry, File) and entry.is_document:
            self._read_only(entry)
        if isinstance(entry, File) and entry.opened and entry.text is None:
            entry.text = bytearray(self.text(entry))  # Who has it open reads on.
        if not (isinstance(entry, File) and not entry.is_stored):
            self.ask(directory, b"rm " + word(self.place_of(entry)))
        self._remove(entry)

    def rmdir(self, directory: Directory, name: bytes) -> None:
        entry = self._there(directory, name)
        if not isinstance(entry, Directory):
            raise OSError(errno.ENOTDIR, "not a directory")
        path = self.place_of(entry)
        if entry.letter != b"m" and self.stored_in(entry):
            self.refuse(entry, errno.ENOTEMPTY, b"not-empty " + path)
        self.ask(entry, b"rmdir " + word(path))
        for link in entry.links.values():
            self._drop(link)
        self._remove(entry)

    def rename(self, old: Directory, old_name: bytes, new: Directory, new_name: bytes, may_replace: bool) -> None:
        entry = self._there(old, old_name)
        there = self.look(new, new_name)
        if there is entry:
            return
        if there is not None and not may_replace:
            raise OSError(errno.EEXIST, "something is there")
        self._check_name(new, new_name)
        if isinstance(entry, Link):
            self._move_link(old, entry, new, new_name, there)
            return
        if isinstance(entry, File) and entry.is_document:
            self._read_only(entry)
        if isinstance(there, (File, Symlink, Directory)):
            self._replace(entry, there)
        else:
            self._move(entry, joined(self.place_of(new), new_name))
        # A link of this name, if there is one, gets another name: nothing takes its item's place.
        self._put_at(entry, new, new_name)

    def _replace(self, entry: Entry, there: Entry) -> None:
        """Makes way for an entry, or brings its text where it is to be."""
        assert there.parent is not None
        path = self.place_of(there)
        if isinstance(there, Directory) != isinstance(entry, Directory):
            raise OSError(errno.EISDIR if isinstance(there, Directory) else errno.ENOTDIR, "files and directories differ")
        if isinstance(there, File) and isinstance(entry, File):
            self._write_over(entry, there)
            return
        if isinstance(there, Directory):
            if there.letter != b"d" or self.stored_in(there):
                self.refuse(there, errno.ENOTEMPTY, b"not-empty " + path)
            above, name = there.parent, there.name
            self.rmdir(above, name)
            try:
                self._move(entry, path)
            except OSError:
                self.stale.append((above.number, name))
                self.mkdir(above, name)
                raise
        else:
            self.unlink(there.parent, there.name)
            self._move(entry, path)

    def _write_over(self, entry: File, there: File) -> None:
        """Gives a file the text of another, which goes. So it stays the same file, with its links and marks, and at each
        moment it has its old text or the new one."""
        assert there.parent is not None and entry.parent is not None
        if there.is_document:
            self._read_only(there)
        if there.opened and there.text is None:
            there.text = bytearray(self.text(there))
        text = self.text(entry)
        self._put(there.parent, self.place_of(there), text)
        if entry.is_stored:
            self.ask(entry.parent, b"rm " + word(self.place_of(entry)))
        self._remove(there)
        self.texts_taken -= _taken(entry)
        entry.indexed = there.indexed
        self.texts_taken += _taken(entry)
        self._saved(entry, text)

    def _move(self, entry: Entry, path: bytes) -> None:
        assert entry.parent is not None
        if isinstance(entry, File) and not entry.is_stored:
            text = self.text(entry)
            self._put(entry.parent, path, text)
            self._saved(entry, text)
            return
        self.ask(entry.parent, b"mv %s %s" % (word(self.place_of(entry)), word(path)))

    def _put_at(self, entry: Entry, directory: Directory, name: bytes) -> None:
        """Takes an entry that was moved to its new place."""
        assert entry.parent is not None
        now = time.time_ns()
        del self.stored_in(entry.parent)[entry.name]
        entry.parent.time = directory.time = now
        entry.parent, entry.name = directory, name
        self.stored_in(directory)[name] = entry
        self.state += 1

    def _add(self, entry: Entry) -> None:
        assert entry.parent is not None
        self.entries[entry.number] = entry
        self.stored_in(entry.parent)[entry.name] = entry
        entry.parent.time = entry.time

    def _remove(self, entry: Entry) -> None:
        """An entry that was stored is gone."""
        assert entry.parent is not None
        del self.stored_in(entry.parent)[entry.name]
        entry.parent.time = time.time_ns()
        if isinstance(entry, File):
            self.dirty.pop(entry.number, None)
            self.texts_taken -= _taken(entry)
            if entry.opened:
                entry.size = None
            else:
                self._forget_text(entry)
        entry.parent = None
        self.state += 1
        self.forget(entry, 0)

    def _drop(self, entry: Entry) -> None:
        """What is no entry of the store is gone. If the kernel knows its name, it is to be told."""
        if entry.known and entry.parent is not None:
            self.stale.append((entry.parent.number, entry.name))
        entry.parent = None
        self.forget(entry, 0)

    def forget(self, entry: Entry, times: int) -> None:
        """The kernel needs an entry so many times less. What is gone and needed no longer is let go."""
        entry.known -= times
        is_open = isinstance(entry, File) and entry.opened > 0
        if entry.known <= 0 and not is_open and entry.parent is None and entry.number != ROOT:
            self.entries.pop(entry.number, None)

    def _there(self, directory: Directory, name: bytes) -> Entry:
        entry = self.look(directory, name)
        if entry is None:
            raise OSError(errno.ENOENT, "nothing is there")
        return entry

    def _free(self, directory: Directory, name: bytes) -> bytes:
        """The path at which something new is to be."""
        self._check_name(directory, name)
        if self.look(directory, name) is not None:
            raise OSError(errno.EEXIST, "something is there")
        return joined(self.place_of(directory), name)

    def _check_name(self, directory: Directory, name: bytes) -> None:
        """Refuses what can't be, before anything is made of it."""
        place = self.place_of(directory)
        if name_fault(name) is not None:
            long = len(name) > MAX_NAME
            self.refuse(directory, errno.ENAMETOOLONG if long else errno.EINVAL, b"limit name" if long else b"bad-name")
        if directory.letter == b"m":
            self.refuse(directory, errno.EROFS, b"in-mount " + place)
        if depth_of(directory) >= MAX_PATH:
            self.refuse(directory, errno.ENAMETOOLONG, b"limit path")

    # Changes of links, queries and marks.

    def _add_link(self, directory: Directory, item: Entry) -> Link:
        """Adds a permanent link, and gives it as it is shown."""
        path = self._stored_path(item)
        self.ask(directory, b"sln %s %s" % (word(path), word(self.place_of(directory))))
        self.state += 1
        self.find_links(directory)
        for link in directory.links.values():
            if link.item == path:
                return link
        # It is stored here itself, so it's no link besides.
        raise OSError(errno.EEXIST, "it is stored in this directory")

    def _take_out(self, directory: Directory, link: Link) -> None:
        """Takes an item out of a semantic directory, and keeps it out. A directory that was linked is linked no longer."""
        item = self.at(link.item)
        command = b"sforget" if isinstance(item, Directory) else b"srm"
        self.ask(directory, b"%s %s %s" % (command, word(link.item), word(self.place_of(directory))))
        self.state += 1
        del directory.links[link.name]
        self._drop(link)

    def _move_link(self, old: Directory, link: Link, new: Directory, name: bytes, there: Optional[Entry]) -> None:
        """Adds what is linked to another semantic directory, and takes it out of the one where it was."""
        if there is not None:
            raise OSError(errno.EEXIST, "something is there")
        item = self.at(link.item)
        if new is old or new.letter != b"s" or item is None or item.name != name:
            # A link is nowhere else, and has no other name than its item gives it.
            raise OSError(errno.EPERM, "a link goes to a semantic directory, under its own name")
        made = self._add_link(new, item)
        self._take_out(old, link)
        self.stale += [(old.number, link.name), (new.number, name), (new.number, made.name)]

    def set_mark(self, link: Link, mark: bytes) -> None:
        """Marks what is linked: `p` adds it for good, and `x` takes it out."""
        if link.parent is None:
            raise OSError(errno.ENOENT, "it is gone")
        directory = link.parent
        if mark == b"x":
            self._take_out(directory, link)
        elif mark == b"p" and link.mark != b"p":
            self.ask(directory, b"sln %s %s" % (word(link.item), word(self.place_of(directory))))
            self.state += 1
            self.find_links(directory)
        elif mark != link.mark:
            self.refuse(directory, errno.EINVAL, b"bad-line")

    def forget_mark(self, link: Link) -> None:
        """Takes the mark off what is linked; the query decides again."""
        if link.parent is None:
            raise OSError(errno.ENOENT, "it is gone")
        directory = link.parent
        self.ask(directory, b"sforget %s %s" % (word(link.item), word(self.place_of(directory))))
        self.state += 1
        self.find_links(directory)

    def query(self, directory: Directory) -> bytes:
        """The query of a semantic directory."""
        return self.ask(directory, b"query " + word(self.place_of(directory))).lines[0][2:]

    def set_query(self, directory: Directory, query: bytes) -> None:
        self.ask(directory, b"setq %s %s" % (word(self.place_of(directory)), query))
        directory.letter = b"s"
        directory.links_of = -1
        self.state += 1

    def remove_query(self, directory: Directory) -> None:
        if directory.letter != b"s":
            raise OSError(errno.ENODATA, "it has no query")
        self.ask(directory, b"unq " + word(self.place_of(directory)))
        directory.letter = b"d"
        directory.listed = ()
        for link in directory.links.values():
            self._drop(link)
        directory.links = {}
        self.state += 1

    def _stored_path(self, item: Entry) -> bytes:
        """The path of an item that hac is to know, too."""
        if isinstance(item, File):
            if not item.is_stored:
                self.save(item)
        return self.place_of(item)

    # Indexing, and what the store has.

    def counts(self) -> Dict[bytes, int]:
        """What `counts` counts."""
        words = self.ask(self.root, b"counts").lines[0][2:].split(b" ")
        return {name: int(number) for name, number in zip(words[::2], words[1::2]) if number.isdigit()}

    def count_pending(self) -> None:
        """Asks how many files are dirty."""
        self.pending = self.counts().get(b"dirty", 0)

    def tick(self, steps: int) -> None:
        """Indexes so many files."""
        self.ask(self.root, b"tick %d" % steps)
        self.state += 1
        self.pending = max(0, self.pending - steps)
        if not self.pending:
            self._all_indexed()

    def _all_indexed(self) -> None:
        """No file is dirty any more, so each takes as much as its text has."""
        for file in self.dirty.values():
            self.texts_taken -= _taken(file)
            file.indexed = file.size or 0
            self.texts_taken += _taken(file)
        self.dirty.clear()

    def learn(self) -> Iterator[None]:
        """Looks at all that is stored, one thing at a time, until the size of each text is known."""
        directories = [self.root]
        for directory in directories:
            if path_of(directory) is None:
                continue
            for entry in list(self.stored_in(directory).values()):
                if isinstance(entry, Directory):
                    directories.append(entry)
                elif isinstance(entry, File) and entry.size is None and path_of(entry) is not None:
                    self.size(entry)
                    self._forget_text(entry)
                    yield
            yield


def _taken(file: File) -> int:
    """What a file takes of the texts that a store may have."""
    return max(file.size or 0, file.indexed)


def _parent(path: bytes) -> bytes:
    return path.rpartition(b"/")[0] or b"/"


def _name(path: bytes) -> bytes:
    return path.rpartition(b"/")[2]
