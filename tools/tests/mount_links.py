"""Semantic directories of a mounted store: their links, queries and marks, and mounts of documents."""

from __future__ import annotations

import errno
import os
import subprocess
import time

from tests.mount_support import MountTest
from tests.support import HAC


class Links(MountTest):
    def test_links_come_and_go_by_themselves(self) -> None:
        top = self.mount()
        self.run_in("mkdir", "-p", "notes/old", "fruit")
        self.set_query("fruit", "apple* OR pear*")
        self.assertEqual(self.links("fruit"), [])
        (top / "notes/monday").write_text("Apples")
        (top / "notes/old/tuesday").write_text("a pear")
        wanted = ["monday -> ../notes/monday", "tuesday -> ../notes/old/tuesday"]
        self.soon(wanted, lambda: self.links("fruit"))
        self.assertEqual((top / "fruit/monday").read_text(), "Apples")
        (top / "fruit/monday").write_text("Bread")  # Through the link.
        self.soon(wanted[1:], lambda: self.links("fruit"))
        self.assertEqual((top / "notes/monday").read_text(), "Bread")
        self.soon(False, lambda: (top / "fruit/monday").is_symlink())
        os.rename(top / "notes/old", top / "notes/older")
        self.soon(["tuesday -> ../notes/older/tuesday"], lambda: self.links("fruit"))
        self.assertEqual((top / "fruit/tuesday").read_text(), "a pear")
        os.rename(top / "notes/older/tuesday", top / "wednesday")
        self.soon(["wednesday -> ../wednesday"], lambda: self.links("fruit"))
        os.unlink(top / "wednesday")
        self.soon([], lambda: self.links("fruit"))

    def test_links_are_fresh_within_a_second(self) -> None:
        top = self.mount()
        (top / "q").mkdir()
        self.set_query("q", "apple")
        for count in range(5):
            (top / f"{count}").write_text("apple")
            began = time.monotonic()
            while not (top / f"q/{count}").is_symlink():
                self.assertLess(time.monotonic() - began, 10)
                time.sleep(0.01)
            took = time.monotonic() - began
        self.assertLess(took, 1 if os.getloadavg()[0] < 4 else 10)

    def test_without_indexing(self) -> None:
        self.make_store("write /old apple", "index", "smkdir /q apple", "write /new apple")
        self.mount("--no-index")
        (self.folder / "newer").write_text("apple")
        time.sleep(1)
        self.assertEqual(self.links("q"), ["old -> ../old"])
        self.unmount()
        self.assertEqual(self.numbers()["dirty"], 2)
        self.mount()
        self.soon(["new -> ../new", "newer -> ../newer", "old -> ../old"], lambda: self.links("q"))
        self.unmount()
        self.assertEqual(self.numbers()["dirty"], 0)

    def test_equal_names(self) -> None:
        self.make_store(
            "mkdir /a", "mkdir /b", "mkdir /c", "write /a/note apple", "write /b/note apple", "write /c/one apple",
            "smkdir /q apple", "write /q/one mine", "smkdir /c/q apple", "index",
        )  # fmt: skip
        self.mount()
        self.assertEqual(self.links("q"), ["a - note -> ../a/note", "b - note -> ../b/note", "c - one -> ../c/one"])
        self.assertEqual((self.folder / "q/one").read_text(), "mine")
        self.assertEqual(self.links("c/q"), ["one -> ../one"])
        os.unlink(self.folder / "a/note")
        self.soon(["c - one -> ../c/one", "note -> ../b/note"], lambda: self.links("q"))
        os.unlink(self.folder / "q/one")
        self.soon(["note -> ../b/note", "one -> ../c/one"], lambda: self.links("q"))

    def test_removing_links_of_equal_names(self) -> None:
        """As one goes the others get other names; `rm -r` has read the former ones."""
        self.make_store(
            "smkdir /q apple", *(f"mkdir /{place}" for place in "abc"), *(f"write /{place}/note apple" for place in "abc")
        )
        self.mount()
        self.soon(3, lambda: len(self.links("q")))
        self.run_in("rm", "-r", "q")
        self.assertEqual(sorted(os.listdir(self.folder)), ["a", "b", "c"])

    def test_what_is_stored_in_a_semantic_directory(self) -> None:
        self.make_store(
            "smkdir /q apple", "mkdir /q/d", "write /q/mine apple", "write /q/d/f apple", "write /x apple", "index"
        )
        top = self.mount()
        self.assertEqual(sorted(os.listdir(top / "q")), ["d", "f", "mine", "x"])
        self.assertEqual(self.links("q"), ["f -> d/f", "x -> ../x"])
        self.assertFalse((top / "q/mine").is_symlink())
        os.unlink(top / "q/mine")
        os.rename(top / "x", top / "q/x")  # Over the link that it had there.
        self.soon(["f -> d/f"], lambda: self.links("q"))
        self.assertEqual((top / "q/x").read_text(), "apple")
        self.unmount()
        self.assertEqual(self.tree(), {"/q": "s", "/q/d": "d", "/q/d/f": "apple", "/q/x": "apple"})

    def test_a_file_takes_the_name_of_a_link(self) -> None:
        """What was linked under this name stays as it is, and is linked under another one."""
        self.make_store("mkdir /n", "write /n/a apple", "smkdir /q apple", "index")
        top = self.mount()
        self.run_in("sed", "-i", "s/apple/pear/", "a", at="q")
        self.soon(["n - a -> ../n/a"], lambda: self.links("q"))
        self.assertEqual(((top / "q/a").read_text(), (top / "n/a").read_text()), ("pear", "apple"))


class Marks(MountTest):
    def setUp(self) -> None:
        super().setUp()
        self.make_store(
            "mkdir /n",
            "write /n/a apple",
            "write /n/b apple",
            "write /n/c pear",
            "smkdir /q apple",
            "smkdir /p pear",
            "index",
        )
        self.top = self.mount()

    def listed(self, directory: str) -> str:
        return os.getxattr(self.top / directory, "user.hac.links").decode()

    def test_removing_a_link_keeps_it_out(self) -> None:
        os.unlink(self.top / "q/a")
        self.assertEqual(self.links("q"), ["b -> ../n/b"])
        self.assertEqual(self.listed("q"), "x /n/a\nt /n/b\n")
        self.assertEqual((self.top / "n/a").read_text(), "apple")
        os.symlink("../n/a", self.top / "q/a")
        self.assertEqual(self.listed("q"), "p /n/a\nt /n/b\n")
        self.unmount()
        self.assertEqual(self.ask("sls /q"), ["p /n/a", "t /n/b", "ok"])

    def test_a_symbolic_link_to_an_item_adds_it(self) -> None:
        self.run_in("ln", "-s", "../n/c", "q")
        self.run_in("ln", "-s", str(self.top / "n/a"), str(self.top / "p/a"))
        self.run_in("ln", "-s", "../q/b", "p/b")  # To a link: what is behind it is added.
        self.assertEqual(self.listed("q"), "t /n/a\nt /n/b\np /n/c\n")
        self.assertEqual(self.listed("p"), "p /n/a\np /n/b\nt /n/c\n")
        self.assertEqual(self.links("p"), ["a -> ../n/a", "b -> ../n/b", "c -> ../n/c"])
        with self.refused(errno.EEXIST):
            os.symlink("../n/c", self.top / "q/c")
        # Any other is a symbolic link as anywhere.
        os.symlink("../n/c", self.top / "q/other")
        os.symlink("/etc/passwd", self.top / "q/passwd")
        os.symlink("../n/none", self.top / "q/none")
        self.assertEqual(os.readlink(self.top / "q/other"), "../n/c")
        self.unmount()
        self.assertEqual(self.ask("ls /q"), ["l none", "l other", "l passwd", "ok"])

    def test_a_directory_is_linked(self) -> None:
        os.symlink("../n", self.top / "p/n")
        self.assertEqual(self.links("p"), ["c -> ../n/c", "n -> ../n"])
        self.assertEqual(sorted(os.listdir(self.top / "p/n")), ["a", "b", "c"])
        self.assertEqual(self.mark("p/n"), b"p")
        (self.top / "empty").mkdir()
        os.symlink("../empty", self.top / "p/empty")
        with self.refused(errno.EBUSY):
            os.rmdir(self.top / "empty")
        self.assertEqual(self.fault("empty"), "referenced /p")
        os.unlink(self.top / "p/empty")
        os.rmdir(self.top / "empty")
        os.unlink(self.top / "p/n")
        self.assertEqual(self.listed("p"), "t /n/c\n")
        with self.refused(errno.ELOOP):
            self.set_query("q", "{/q}")
        self.assertEqual(self.fault("q"), "cycle /q")
        with self.refused(errno.ELOOP):
            os.symlink(".", self.top / "q/q")

    def test_moving_a_link(self) -> None:
        self.run_in("mv", "q/a", "p/")
        self.assertEqual(self.links("q"), ["b -> ../n/b"])
        self.assertEqual(self.links("p"), ["a -> ../n/a", "c -> ../n/c"])
        self.assertEqual((self.listed("q"), self.listed("p")), ("x /n/a\nt /n/b\n", "p /n/a\nt /n/c\n"))
        for target in ("q/other", "p/other", "n/other", "b"):
            with self.subTest(target=target), self.refused(errno.EPERM):
                os.rename(self.top / "q/b", self.top / target)
        with self.refused(errno.EEXIST):
            os.rename(self.top / "q/b", self.top / "p/a")
        self.assertEqual(self.links("q"), ["b -> ../n/b"])

    def test_marks(self) -> None:
        self.assertEqual(self.mark("q/a"), b"t")
        os.setxattr(self.top / "q/a", "system.hac.mark", b"p", follow_symlinks=False)
        self.assertEqual(self.listed("q"), "p /n/a\nt /n/b\n")
        (self.top / "n/a").write_text("pear")
        self.soon(["a -> ../n/a", "c -> ../n/c"], lambda: self.links("p"))
        self.assertEqual((self.mark("q/a"), self.mark("p/a")), (b"p", b"t"))
        os.removexattr(self.top / "q/a", "system.hac.mark", follow_symlinks=False)
        self.assertEqual(self.links("q"), ["b -> ../n/b"])
        with self.refused(errno.ENODATA):
            os.removexattr(self.top / "q/b", "system.hac.mark", follow_symlinks=False)
        os.setxattr(self.top / "q/b", "system.hac.mark", b"x", follow_symlinks=False)
        self.assertEqual(self.links("q"), [])
        self.unmount()
        self.assertEqual(self.ask("sls /q", "sls /p"), ["x /n/b", "ok", "t /n/a", "t /n/c", "ok"])

    def test_queries(self) -> None:
        self.assertEqual(os.getxattr(self.top / "q", "user.hac.query"), b"apple")
        self.assertEqual(os.listxattr(self.top / "q"), ["user.hac.query"])
        self.assertEqual(os.listxattr(self.top / "n"), [])
        self.set_query("q", "(pear) OR {/p}")
        self.assertEqual(os.getxattr(self.top / "q", "user.hac.query"), b"pear OR {/p}")
        self.assertEqual(self.links("q"), ["c -> ../n/c"])
        os.rename(self.top / "p", self.top / "pears")
        self.assertEqual(os.getxattr(self.top / "q", "user.hac.query"), b"pear OR {/pears}")
        with self.refused(errno.EBUSY):
            os.rmdir(self.top / "pears")
        self.assertEqual(self.fault("pears"), "referenced /q")
        os.removexattr(self.top / "q", "user.hac.query")
        self.assertEqual((self.links("q"), os.listxattr(self.top / "q")), ([], []))
        (self.top / "q/mine").write_text("x")
        self.set_query("q", "pear")  # A plain directory becomes semantic; what is in it stays.
        self.assertEqual(sorted(os.listdir(self.top / "q")), ["c", "mine"])
        self.unmount()
        self.assertEqual(self.ask("query /q", "ls /"), ["= pear", "ok", "d n", "s pears", "s q", "ok"])

    def test_copies_of_a_semantic_directory(self) -> None:
        """`cp -a` takes the query along."""
        self.run_in("cp", "-a", "q", "copy")
        self.assertEqual(os.getxattr(self.top / "copy", "user.hac.query"), b"apple")

    def test_removing_a_semantic_directory(self) -> None:
        self.run_in("rm", "-r", "q")
        self.assertEqual(sorted(os.listdir(self.top)), ["n", "p"])
        self.assertEqual(sorted(os.listdir(self.top / "n")), ["a", "b", "c"])


class Documents(MountTest):
    def test_documents_are_files_for_reading(self) -> None:
        catalogue = self.made / "mail.cat"
        catalogue.write_text("one\tapple\\npie\ntwo\tpear\n")
        script = b"smount /mail mail\nsmkdir /fruit apple\n"
        subprocess.run([HAC, "--new", self.store, f"mail={catalogue}"], input=script, check=True, stdout=subprocess.DEVNULL)
        top = self.mount(spaces=[f"mail={catalogue}"])
        self.assertEqual(sorted(os.listdir(top / "mail")), ["one", "two"])
        self.assertEqual((top / "mail/one").read_text(), "apple\npie")
        self.assertEqual((top / "mail/one").stat().st_size, 9)
        self.assertEqual(self.links("fruit"), ["one -> ../mail/one"])
        os.unlink(top / "fruit/one")
        self.assertEqual(os.getxattr(top / "fruit", "user.hac.links"), b"x /mail/one\n")
        for change in (
            lambda: (top / "mail/one").write_text("x"),
            lambda: (top / "mail/new").write_text("x"),
            lambda: os.unlink(top / "mail/one"),
            lambda: os.truncate(top / "mail/one", 0),
            lambda: os.mkdir(top / "mail/d"),
            lambda: os.rmdir(top / "mail"),
            lambda: os.symlink("x", top / "mail/l"),
            lambda: os.rename(top / "mail/one", top / "one"),
            lambda: os.rename(top / "fruit", top / "mail/fruit"),
            lambda: self.set_query("mail", "a"),
        ):
            with self.refused(errno.EROFS):
                change()
        self.assertEqual(self.fault("mail"), "in-mount /mail")
        os.rename(top / "mail", top / "post")
        self.unmount()
        # Where the space isn't attached, its documents are listed and can't be opened.
        self.mount()
        self.assertEqual((top / "post/one").stat().st_size, 0)
        with self.refused(errno.ENODEV):
            open(top / "post/one")
        self.assertEqual(self.fault("post"), "no-space mail")
