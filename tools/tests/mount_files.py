"""Files, directories and symbolic links of a mounted store: what a program does with them, hac has afterwards."""

from __future__ import annotations

import errno
import fcntl
import mmap
import os
import random
import stat

from tests.mount_support import MountTest

MIB = 1_048_576


class Texts(MountTest):
    def test_what_is_there_is_shown(self) -> None:
        self.make_store("mkdir /d", r"write /d/a one\ntwo\x00\xff", "write /empty", "ln d/a /l", "ln /none /far")
        top = self.mount()
        self.assertEqual(sorted(os.listdir(top)), ["d", "empty", "far", "l"])
        self.assertEqual((top / "d/a").read_bytes(), b"one\ntwo\0\xff")
        self.assertEqual((top / "l").read_bytes(), b"one\ntwo\0\xff")
        self.assertEqual((top / "empty").read_bytes(), b"")
        self.assertEqual((os.readlink(top / "l"), os.readlink(top / "far")), ("d/a", "/none"))
        self.assertEqual((top / "d/a").stat().st_size, 9)
        self.assertEqual(stat.filemode((top / "d/a").stat().st_mode), "-rw-r--r--")
        self.assertEqual(stat.filemode((top / "d").stat().st_mode), "drwxr-xr-x")
        self.unmount()
        self.assertEqual(
            self.tree(), {"/d": "d", "/d/a": r"one\ntwo\x00" + "\udcff", "/empty": "", "/l": "-> d/a", "/far": "-> /none"}
        )

    def test_writing(self) -> None:
        top = self.mount()
        (top / "a").write_text("one\n")
        with open(top / "a", "a") as file:
            file.write("two\n")
        with open(top / "a", "r+") as file:
            file.seek(1)
            file.write("N")
        self.assertEqual((top / "a").read_text(), "oNe\ntwo\n")
        os.truncate(top / "a", 3)
        self.assertEqual((top / "a").read_text(), "oNe")
        os.truncate(top / "a", 5)
        with open(top / "holes", "wb") as file:
            file.seek(3)
            file.write(b"x")
        (top / "empty").touch()
        os.mkdir(top / "d")
        os.symlink("../a", top / "d/l")
        self.unmount()
        wanted = {"/a": r"oNe\x00\x00", "/holes": r"\x00\x00\x00x", "/empty": "", "/d": "d", "/d/l": "-> ../a"}
        self.assertEqual(self.tree(), wanted)

    def test_any_changes_of_a_file_are_those_of_a_file_elsewhere(self) -> None:
        draw = random.Random(7)
        top = self.mount()
        with open(top / "a", "w+b", buffering=0) as here, open(self.made / "a", "w+b", buffering=0) as there:
            for _ in range(300):
                place, size = draw.randrange(20_000), draw.randrange(9_000)
                if draw.random() < 0.1:
                    here.truncate(place), there.truncate(place)
                elif draw.random() < 0.5:
                    written = draw.randbytes(size)
                    os.pwrite(here.fileno(), written, place), os.pwrite(there.fileno(), written, place)
                else:
                    self.assertEqual(os.pread(here.fileno(), size, place), os.pread(there.fileno(), size, place))
                if draw.random() < 0.05:
                    os.fsync(here.fileno())
        self.assertEqual((top / "a").read_bytes(), (self.made / "a").read_bytes())
        self.unmount()
        self.mount()
        self.assertEqual((top / "a").read_bytes(), (self.made / "a").read_bytes())

    def test_two_writers_of_one_file(self) -> None:
        top = self.mount()
        with open(top / "a", "w+b", buffering=0) as one, open(top / "a", "r+b", buffering=0) as other:
            one.write(b"0123456789")
            os.pwrite(other.fileno(), b"ab", 2)
            self.assertEqual(os.pread(one.fileno(), 10, 0), b"01ab456789")
            os.pwrite(one.fileno(), b"cd", 6)
            other.close()
            self.assertEqual((top / "a").read_bytes(), b"01ab45cd89")
            os.pwrite(one.fileno(), b"!", 9)
        self.assertEqual((top / "a").read_bytes(), b"01ab45cd8!")
        self.unmount()
        self.assertEqual(self.tree(), {"/a": "01ab45cd8!"})

    def test_lines_that_two_append(self) -> None:
        top = self.mount()
        with open(top / "a", "ab", buffering=0) as one, open(top / "a", "ab", buffering=0) as other:
            for count in range(20):
                (one, other)[count % 2].write(b"%d\n" % count)
        self.assertEqual((top / "a").read_bytes(), b"".join(b"%d\n" % count for count in range(20)))

    def test_maps(self) -> None:
        top = self.mount()
        (top / "a").write_bytes(b"x" * 10_000)
        with open(top / "a", "r+b") as file, mmap.mmap(file.fileno(), 0) as pages:
            pages[5_000] = ord("y")
            pages.flush()
        with open(top / "a", "r+b") as file:
            pages = mmap.mmap(file.fileno(), 0)
        pages[9_999] = ord("z")
        pages.close()
        self.unmount()
        self.mount()
        self.assertEqual((top / "a").read_bytes(), b"x" * 5_000 + b"y" + b"x" * 4_998 + b"z")

    def test_removed_while_it_is_open(self) -> None:
        top = self.mount()
        (top / "a").write_text("one")
        (top / "b").write_text("two")
        with open(top / "a", "r+") as file, open(top / "b") as replaced, open(top / "new", "w") as new:
            os.unlink(top / "a")
            self.assertFalse((top / "a").exists())
            self.assertEqual(file.read(), "one")
            file.write(" more")
            file.flush()
            self.assertEqual(os.fstat(file.fileno()).st_size, 8)
            (top / "c").write_text("three")
            os.rename(top / "c", top / "b")
            self.assertEqual((replaced.read(), (top / "b").read_text()), ("two", "three"))
            new.write("never")
            os.unlink(top / "new")
            (top / "a").write_text("another")
        self.assertEqual((top / "a").read_text(), "another")
        self.unmount()
        self.assertEqual(self.tree(), {"/a": "another", "/b": "three"})

    def test_renamed_while_it_is_open(self) -> None:
        top = self.mount()
        (top / "d").mkdir()
        with open(top / "a", "w") as file:
            file.write("one")
            file.flush()
            os.rename(top / "a", top / "d/b")
            os.rename(top / "d", top / "e")
            file.write(" two")
        self.assertEqual((top / "e/b").read_text(), "one two")
        self.unmount()
        self.assertEqual(self.tree(), {"/e": "d", "/e/b": "one two"})

    def test_locks(self) -> None:
        top = self.mount()
        with open(top / "a", "w") as one, open(top / "a") as other:
            fcntl.flock(one, fcntl.LOCK_EX)
            with self.refused(errno.EAGAIN):
                fcntl.flock(other, fcntl.LOCK_EX | fcntl.LOCK_NB)


class Names(MountTest):
    def test_names_are_bytes(self) -> None:
        names = [b"x" * 255, b"\xff\xfe", b'a "b" \\ {c}', b" ", b"...", b"-", "ä".encode(), b"\xc3"]
        self.mount()
        top = os.fsencode(self.folder)
        for name in names:
            os.mkdir(top + b"/" + name)
            with open(top + b"/" + name + b"/" + name, "wb") as file:
                file.write(name)
            os.symlink(name, top + b"/" + name + b"/l")
        self.assertEqual(sorted(os.listdir(top)), sorted(names))
        self.unmount()
        self.mount()
        self.assertEqual(sorted(os.listdir(top)), sorted(names))
        for name in names:
            with open(top + b"/" + name + b"/" + name, "rb") as file:
                self.assertEqual(file.read(), name)
            self.assertEqual(os.readlink(top + b"/" + name + b"/l"), name)

    def test_names_that_no_store_has(self) -> None:
        top = os.fsencode(self.mount())
        for name, error in ((b"x" * 256, errno.ENAMETOOLONG), (b"a\nb", errno.EINVAL), (b"\x7f", errno.EINVAL)):
            with self.subTest(name=name):
                with self.refused(error):
                    open(top + b"/" + name, "wb")
                with self.refused(error):
                    os.mkdir(top + b"/" + name)
                with self.refused(error):
                    os.symlink(b"a", top + b"/" + name)
        with self.refused(errno.EINVAL):
            os.symlink(b"a\nb", top + b"/l")
        with self.refused(errno.ENAMETOOLONG):
            os.symlink(b"a/" * 512 + b"a", top + b"/l")
        os.symlink((b"a/" * 512)[:1024], top + b"/l")
        self.assertEqual(self.fault(), "limit target")

    def test_deep_paths(self) -> None:
        top = str(self.mount())
        place = top
        for _ in range(63):
            place += "/d"
            os.mkdir(place)
        with open(place + "/f", "w") as file:
            file.write("deep")
        os.mkdir(place + "/d")
        with self.refused(errno.ENAMETOOLONG):
            open(place + "/d/f", "w")
        with self.refused(errno.ENAMETOOLONG):
            os.mkdir(place + "/d/d")
        os.mkdir(top + "/e")
        with self.refused(errno.ENAMETOOLONG):
            os.rename(top + "/d", top + "/e/d")
        with open(place + "/f") as file:
            self.assertEqual(file.read(), "deep")


class Changes(MountTest):
    def test_renames(self) -> None:
        top = self.mount()
        self.run_in("mkdir", "-p", "a/b", "c", "full")
        for name in ("a/b/f", "g", "full/h"):
            (top / name).write_text(name)
        os.symlink("g", top / "l")
        os.symlink("none", top / "k")
        os.rename(top / "a", top / "c")  # Over an empty directory.
        os.rename(top / "k", top / "l")  # A symbolic link over another one.
        self.assertEqual(os.readlink(top / "l"), "none")
        os.rename(top / "l", top / "g")  # Over a file.
        os.rename(top / "c/b/f", top / "g")  # And a file over the link.
        self.assertEqual((top / "g").read_text(), "a/b/f")
        for source, target, error in (
            ("c", "full", errno.ENOTEMPTY),
            ("c", "g", errno.ENOTDIR),
            ("g", "c", errno.EISDIR),
            ("c", "c/b/d", errno.EINVAL),
            ("none", "new", errno.ENOENT),
        ):
            with self.subTest(source=source, target=target), self.refused(error):
                os.rename(top / source, top / target)
        self.unmount()
        self.assertEqual(self.tree(), {"/c": "d", "/c/b": "d", "/full": "d", "/full/h": "full/h", "/g": "a/b/f"})

    def test_what_is_replaced_stays_the_same_file(self) -> None:
        """Temporary file and rename: the marks on the file stay, since hac still has it."""
        self.make_store(
            "smkdir /q apple", "write /note old", "write /other apple", "index", "sln /note /q", "srm /other /q"
        )
        top = self.mount()
        for name in ("note", "other"):
            (top / f".{name}.tmp").write_text("new apple")
            os.rename(top / f".{name}.tmp", top / name)
        self.soon(["note -> ../note"], lambda: self.links("q"))
        self.assertEqual((top / "q/note").read_text(), "new apple")
        self.unmount()
        self.assertEqual(self.ask("sls /q", "ls /"), ["p /note", "x /other", "ok", "f note", "f other", "s q", "ok"])

    def test_refusals(self) -> None:
        top = self.mount()
        (top / "d").mkdir()
        (top / "d/f").write_text("x")
        (top / "e").mkdir()
        for error, change in (
            (errno.ENOTDIR, lambda: os.rmdir(top / "d/f")),
            (errno.EISDIR, lambda: os.unlink(top / "e")),
            (errno.EEXIST, lambda: os.mkdir(top / "d")),
            (errno.EEXIST, lambda: os.symlink("x", top / "d/f")),
            (errno.ENOENT, lambda: os.unlink(top / "none")),
            (errno.EPERM, lambda: os.link(top / "d/f", top / "l")),
            (errno.EPERM, lambda: os.mkfifo(top / "p")),
            (errno.ENOTSUP, lambda: os.setxattr(top / "d/f", "user.x", b"1")),
            (errno.ENODATA, lambda: os.getxattr(top / "d", "user.hac.query")),
            (errno.ENODATA, lambda: os.removexattr(top / "d", "user.hac.query")),
        ):
            with self.subTest(error=errno.errorcode[error]), self.refused(error):
                change()
        self.unmount()
        self.assertEqual(self.tree(), {"/d": "d", "/d/f": "x", "/e": "d"})
        self.assertEqual(self.log.read_text(), "")

    def test_what_hac_refuses(self) -> None:
        top = self.mount()
        self.run_in("mkdir", "d", "d/e")
        for error, directory, fault, change in (
            (errno.ENOTEMPTY, "d", "not-empty /d", lambda: os.rmdir(top / "d")),
            (errno.EPERM, "", "root", lambda: self.set_query("", "a")),
            (errno.EINVAL, "d", "bad-query 3", lambda: self.set_query("d", "a b")),
            (errno.ENOENT, "d/e", "no-path /none", lambda: self.set_query("d/e", "{/none}")),
            (errno.EINVAL, "d", "bad-line", lambda: self.set_query("d", "a\nOR b")),
            (errno.E2BIG, "d", "limit query", lambda: self.set_query("d", "a OR " * 300 + "a")),
            (errno.E2BIG, "d", "limit terms", lambda: self.set_query("d", "a OR " * 64 + "a")),
            (errno.E2BIG, "d", "limit nesting", lambda: self.set_query("d", "(" * 33 + "a" + ")" * 33)),
        ):
            with self.subTest(fault=fault):
                with self.refused(error):
                    change()
                self.assertEqual(self.fault(directory), fault)
                self.assertIn(f" /{directory}: {fault} (", self.log.read_text().splitlines()[-1])
        os.removexattr(top / "d", "user.hac.fault")
        with self.refused(errno.ENODATA):
            self.fault("d")

    def test_modes_owners_and_times(self) -> None:
        top = self.mount()
        (top / "a").write_text("x")
        os.chmod(top / "a", 0o755)
        os.chown(top / "a", os.getuid(), os.getgid())
        os.utime(top / "a", ns=(5, 1_000_000_007))
        status = (top / "a").stat()
        self.assertEqual((status.st_mtime_ns, stat.filemode(status.st_mode)), (1_000_000_007, "-rw-r--r--"))
        (top / "a").write_text("y")
        self.assertGreater((top / "a").stat().st_mtime_ns, 1_600_000_000 * 10**9)
        self.assertEqual((status.st_uid, status.st_gid), (os.getuid(), os.getgid()))

    def test_what_is_taken(self) -> None:
        top = self.mount()
        before = os.statvfs(top)
        self.assertEqual((before.f_frsize * before.f_blocks, before.f_files, before.f_ffree), (67_108_864, 65_536, 65_536))
        for name in ("a", "b", "c"):
            (top / name).write_bytes(b"x" * 100_352)
        after = os.statvfs(top)
        self.assertEqual((before.f_bavail - after.f_bavail) * after.f_frsize, 3 * 100_352)
        self.assertEqual(before.f_ffree - after.f_ffree, 3)
        self.assertEqual(after.f_namemax, 255)
        self.unmount()
        self.mount()
        # Once each text was looked at, which goes on by itself.
        self.soon(after.f_bavail, lambda: os.statvfs(top).f_bavail)
        os.unlink(top / "a")
        (top / "b").write_text("")
        self.soon(before.f_bavail - 196, lambda: os.statvfs(top).f_bavail)


class Limits(MountTest):
    def test_a_text_that_is_too_long(self) -> None:
        top = self.mount()
        with open(top / "a", "wb", buffering=0) as file:
            for _ in range(16):
                file.write(b"x" * 65_536)
            with self.refused(errno.EFBIG):
                file.write(b"y")
        self.assertEqual((top / "a").stat().st_size, MIB)
        self.assertEqual(self.fault(), "limit text")
        with self.refused(errno.EFBIG):
            os.truncate(top / "a", MIB + 1)
        self.unmount()
        self.mount()
        self.assertEqual((top / "a").read_bytes(), b"x" * MIB)

    def test_all_texts_together(self) -> None:
        top = self.mount("--no-index")
        for count in range(64):
            (top / f"{count}").write_bytes(b"x" * MIB)
        self.assertEqual(os.statvfs(top).f_bavail, 0)
        file = open(top / "more", "wb")
        file.write(b"y")
        file.flush()
        with self.refused(errno.ENOSPC):
            os.fsync(file.fileno())
        with self.refused(errno.ENOSPC):
            file.close()
        self.assertEqual(self.fault(), "limit texts")
        self.soon(False, lambda: (top / "more").exists())
        # What couldn't be stored of a file is shown no longer, once it is closed.
        (top / "0").write_bytes(b"old")
        (top / "last").write_bytes(b"x" * (MIB - 3))
        with self.refused(errno.ENOSPC):
            (top / "0").write_bytes(b"newer")
        self.soon(b"old", lambda: (top / "0").read_bytes())
        self.unmount()
        self.assertEqual(self.numbers()["files"], 65)
