"""hac-sync: what comes, what doesn't and why, and that a run which was stopped anywhere is made good by the next."""

from __future__ import annotations

import json
import os
import random
import shutil
import signal
import subprocess
import sys
import time
import unittest
from pathlib import Path
from typing import Dict, List
from unittest.mock import patch

from tests.support import HAC, Run, ToolTest, load

from hac_client import Hac

sync = load("hac-sync")

MOMENTS = 50


def spelled(text: bytes) -> str:
    """A text as `cat` shows it, for texts of printable signs, line ends and tabs."""
    return text.replace(b"\\", b"\\\\").replace(b"\n", b"\\n").replace(b"\t", b"\\t").decode("utf-8", "surrogateescape")


class SyncTest(ToolTest):
    def setUp(self) -> None:
        super().setUp()
        self.folder = self.made / "notes"
        self.folder.mkdir()

    def write(self, path: str, text: bytes = b"an apple\n") -> Path:
        """A file that was written a while ago."""
        file = self.folder / path
        file.parent.mkdir(parents=True, exist_ok=True)
        file.write_bytes(text)
        then = time.time_ns() - 60_000_000_000
        os.utime(file, ns=(then, then))
        return file

    def sync(self, *options: object, status: int = 0) -> List[str]:
        """The lines that a sync writes."""
        ran = self.run_tool("hac-sync", self.folder, self.store, *options, status=status)
        lines = (ran.stdout + ran.stderr).decode().splitlines()
        return [line for line in lines if not line.startswith("new store ")]

    def wanted(self) -> Dict[str, str]:
        """The tree that the folder's text files make, where all of them can come."""
        found: Dict[str, str] = {}
        for file in self.folder.rglob("*"):
            if file.is_file():
                path = "/" + str(file.relative_to(self.folder))
                found[path] = spelled(file.read_bytes())
                for above in Path(path).parents:
                    found.setdefault(str(above), "d")
        found.pop("/", None)
        return found


class WhatComes(SyncTest):
    def test_first_and_changed_and_gone(self) -> None:
        self.write("a", b"one\n")
        self.write("sub/b", b"two\tthree\\n\n")
        self.write("sub/deep/c d", b"")
        told = "3 files in the store: 3 new, 0 changed, 0 renamed, 0 removed; 0 left out, 0 refused"
        self.assertEqual(self.sync()[-1], told)
        self.assertEqual(self.tree(), self.wanted())
        self.assertEqual(self.numbers()["dirty"], 0)

        self.write("a", b"other\n")
        (self.folder / "sub/b").unlink()
        self.write("new/e", b"five\n")
        told = "3 files in the store: 1 new, 1 changed, 0 renamed, 1 removed; 0 left out, 0 refused"
        self.assertEqual(self.sync()[-1], told)
        self.assertEqual(self.tree(), self.wanted())
        self.assertEqual(self.numbers()["dirty"], 0)

    def test_nothing_changed_writes_nothing(self) -> None:
        for count in range(20):
            self.write(f"d{count % 3}/f{count}", b"%d\n" % count)
        self.sync("/notes")
        before = {file: file.read_bytes() for file in self.made.iterdir() if file.is_file()}
        self.assertIn("0 new, 0 changed, 0 renamed, 0 removed", self.sync("/notes")[-1])
        (self.folder / "d0/f0").touch()  # Another time, the same text.
        self.assertIn("0 new, 0 changed, 0 renamed, 0 removed", self.sync("/notes")[-1])
        self.assertEqual(before[self.store], self.store.read_bytes())
        self.assertEqual(sorted(before), sorted(file for file in self.made.iterdir() if file.is_file()))

    def test_only_what_changed_is_written(self) -> None:
        """A record is 19 bytes and the text for a file that's written over, and 7 for one that's indexed."""
        for count in range(20):
            self.write(f"f{count}", b"%d\n" % count)
        self.sync()
        before = self.store.stat().st_size
        self.write("f3", b"12345")
        self.sync()
        self.assertEqual(self.store.stat().st_size, before + 19 + 5 + 7)

    def test_the_store_is_opened_only_where_something_changed(self) -> None:
        self.write("a")
        self.write("b\x01")
        self.write("c", b"\0")
        time.sleep(0.05)  # What was changed just now is read again.
        told = self.sync("/x")
        no_hac = self.script("no-hac", "exit 5")
        words = (self.folder, self.store, "/x")
        ran = self.run_tool("hac-sync", *words, hac=no_hac)
        self.assertEqual(ran.stdout.decode().splitlines()[:-1], told[:-1])
        self.assertIn(b"1 files in the store: 0 new, 0 changed, 0 renamed, 0 removed; 2 left out", ran.stdout)
        self.run_tool("hac-sync", *words, "--check", hac=no_hac, status=5)
        self.ask("rm /x/a")
        self.run_tool("hac-sync", *words, hac=no_hac, status=5)
        self.sync("/x")
        self.assertEqual(self.tree(), {"/x": "d", "/x/a": "an apple\\n"})

    def test_changed_within_the_same_time(self) -> None:
        file = self.folder / "a"
        file.write_bytes(b"one")
        self.sync()
        then = file.stat().st_mtime_ns
        file.write_bytes(b"two")
        os.utime(file, ns=(then, then))
        self.sync()
        self.assertEqual(self.tree(), {"/a": "two"})

    def test_replaced_by_another_of_the_same_size_and_time(self) -> None:
        then = (1_704_067_200_000_000_000, 1_704_067_200_000_000_000)
        for name, text in (("current", b"first 1 note"), ("old", b"other 2 text"), ("a", b"1"), ("b", b"2")):
            os.utime(self.write(name, text), ns=then)
        self.sync()
        (self.folder / "old").rename(self.folder / "current")
        (self.folder / "a").rename(self.folder / "c")
        (self.folder / "b").rename(self.folder / "a")
        (self.folder / "c").rename(self.folder / "b")
        self.assertIn("0 new, 3 changed, 0 renamed, 1 removed", self.sync()[-1])
        self.assertEqual(self.tree(), {"/current": "other 2 text", "/a": "2", "/b": "1"})
        self.assertIn("0 new, 0 changed, 0 renamed, 0 removed", self.sync("--check")[-1])

    def test_a_record_of_version_1(self) -> None:
        """It knows neither inodes nor when they changed, so each file is read once, and nothing is written."""
        self.write("a", b"one")
        self.write("b", b"\0")
        self.sync()
        record = json.loads((self.made / "store.sync").read_bytes())
        folder = record["folders"]["/"]
        folder["files"] = {path: known[:3] for path, known in folder["files"].items()}
        folder["left_out"] = {path: known[:3] for path, known in folder["left_out"].items()}
        del folder["removed"], folder["others"]
        (self.made / "store.sync").write_text(json.dumps({**record, "version": 1}))
        before = self.store.read_bytes()
        self.assertIn("1 files in the store: 0 new, 0 changed, 0 renamed, 0 removed; 1 left out", self.sync()[-1])
        self.assertEqual(self.store.read_bytes(), before)
        self.write("a", b"two")
        self.assertIn("1 changed", self.sync()[-1])

    def test_marks_of_an_encoding(self) -> None:
        """The first word of a text that begins with a byte order mark is found, and what is in UTF-16 is a text."""
        self.write("windows", b"\xef\xbb\xbfShopping list\n")
        self.write("little", "Shopping \u00e4pfel\n".encode("utf-16"))
        self.write("big", b"\xfe\xff" + "Shopping birnen\n".encode("utf-16-be"))
        self.write("broken", b"\xff\xfe\x00\xd8a\0")
        self.assertIn("3 new, 0 changed, 0 renamed, 0 removed; 1 left out", self.sync()[-1])
        self.assertEqual(self.ask("find shopping"), ["f /big", "f /little", "f /windows", "ok"])
        self.assertEqual(
            self.tree(),
            {"/windows": "Shopping list\\n", "/little": "Shopping \u00e4pfel\\n", "/big": "Shopping birnen\\n"},
        )
        for option in ((), ("--check",)):
            self.assertIn("0 new, 0 changed, 0 renamed, 0 removed; 1 left out", self.sync(*option)[-1])
        (self.folder / "little").rename(self.folder / "little2")
        self.assertIn("0 new, 0 changed, 1 renamed", self.sync()[-1])

    def test_the_room_of_a_store_is_told(self) -> None:
        self.write("a", b"12345")
        self.write("b", b"123")
        ran = self.run_tool("hac-sync", self.folder, self.store)
        self.assertEqual(
            ran.stdout.decode().splitlines()[0],
            "new store store: it takes 67,108,864 bytes of text and 65,536 files; the folder has 2 files of 8 bytes",
        )

    def test_what_finds_no_room_is_told_before(self) -> None:
        """Stand-ins for the limits, so that the folder needn't be large."""
        for name in ("a", "sub/b", "sub/c", "tall/d", "tall/e", "z"):
            self.write(name, b"12345")
        told = "A store takes 67,108,864 bytes of text and 65,536 files, so 3 would stay out: tall/ (2), z (1)."
        with patch.object(sync, "MAX_TEXTS", 17):
            lines = self.sync()
        self.assertIn(f"no room: 6 files are to be written, of 30 bytes. {told}", lines[0])
        self.write("z", b"123456")
        with patch.object(sync, "MAX_TEXTS", 31):
            self.assertNotIn("no room", self.sync()[0])
        (self.folder / "z").write_bytes(b"1234567")
        with patch.object(sync, "MAX_TEXTS", 31):
            self.assertIn("no room: 1 files are to be written, of 7 bytes", self.sync()[0])
        self.write("y", b"1")
        self.ask("write /mine x")
        with patch.object(sync, "MAX_ITEMS", 7):
            self.assertIn("so 1 would stay out: y (1)", self.sync()[0])

    def test_below_a_place(self) -> None:
        self.write("a")
        self.write("b c/d")
        self.sync("/x y//z/../n")
        self.assertEqual(self.tree("/x y/n"), {f"/x y/n{path}": text for path, text in self.wanted().items()})

    def test_names(self) -> None:
        names = [b'"', b'a "b" \\ c', b" ", b"  two  ", b"#", b"{x}", b"\xff\xfe", b"-", b"x" * 255, b"\\x41"]
        for count, name in enumerate(names):
            with open(bytes(self.folder) + b"/" + name, "wb") as file:
                file.write(b"%d" % count)
        self.sync()
        ran = subprocess.run([HAC, self.store], input=b"ls\n", capture_output=True)
        self.assertEqual(ran.stdout.splitlines(), [b"f " + name for name in sorted(names)] + [b"ok"])
        for count, name in enumerate(names):
            spelled_name = name.replace(b"\\", b"\\\\").replace(b'"', b'\\"')
            ran = subprocess.run([HAC, self.store], input=b'cat "/%s"' % spelled_name, capture_output=True)
            self.assertEqual(ran.stdout, b"= %d\nok\n" % count, name)

    def test_texts(self) -> None:
        texts = [b"", b"\n", b"\xff latin \xe9", "é\0".encode()[:-1], b"a\r\nb", b"\x1b[1m bold", b"x" * 1_048_576]
        for count, text in enumerate(texts):
            self.write(f"f{count}", text)
        self.assertIn("7 files in the store: 7 new", self.sync()[-1])
        self.assertEqual(self.tree()["/f6"], "x" * 1_048_576)
        self.assertEqual(self.tree()["/f4"], "a\\x0d\\nb")

    def test_semantic_directories_find_what_came(self) -> None:
        self.write("sub/a", b"Apple pie")
        self.make_store("smkdir /apples apple*")
        self.sync()
        self.assertEqual(self.ask("sls /apples"), ["t /sub/a", "ok"])

    def test_an_index_that_was_missed_is_made_good(self) -> None:
        self.write("a")
        self.sync()
        self.ask("write /mine apple")
        self.sync()
        self.assertEqual(self.numbers()["dirty"], 0)

    def test_two_folders(self) -> None:
        self.write("a")
        self.sync("/one")
        other = self.made / "other"
        other.mkdir()
        (other / "b").write_bytes(b"pear")
        self.run_tool("hac-sync", other, self.store, "/two")
        self.sync("/one")
        self.assertEqual(self.tree(), {"/one": "d", "/one/a": "an apple\\n", "/two": "d", "/two/b": "pear"})


class WhatCannotCome(SyncTest):
    def test_each_with_its_reason(self) -> None:
        self.write("good")
        self.write("large", b"x" * 1_048_577)
        self.write("zero", b"a\0b")
        self.write("picture", b"\x89PNG\x01\x02\xff")
        (self.folder / "link").symlink_to("good")
        (self.folder / "dir-link").symlink_to(".")
        os.mkfifo(self.folder / "pipe")
        self.write("bad\nname")
        self.write("sub\x7f/inner")
        time.sleep(0.05)  # What was changed just now is read again.
        self.assertEqual(
            self.sync(),
            [
                "left out: bad\\nname: its name has a byte that no name in a store may have",
                "left out: dir-link: it's a symbolic link",
                "left out: large: it has more than 1,048,576 bytes",
                "left out: link: it's a symbolic link",
                "left out: picture: it isn't text",
                "left out: pipe: it's no regular file",
                "left out: sub\\x7f: its name has a byte that no name in a store may have",
                "left out: zero: it isn't text",
                "1 files in the store: 1 new, 0 changed, 0 renamed, 0 removed; 8 left out, 0 refused",
            ],
        )
        self.assertEqual(self.tree(), {"/good": "an apple\\n"})
        before = (self.made / "store.sync").read_bytes()
        self.assertEqual(len(self.sync()), 9)
        self.assertEqual((self.made / "store.sync").read_bytes(), before)

    def test_many_are_told_by_their_reasons(self) -> None:
        for count in range(30):
            self.write(f"f{count:02}", b"\0")
        (self.folder / "link").symlink_to("f00")
        summary = "0 files in the store: 0 new, 0 changed, 0 renamed, 0 removed; 31 left out, 0 refused"
        told = [
            "left out: link: it's a symbolic link",
            "left out: 30 places, as f00: it isn't text (--list names all)",
            summary,
        ]
        self.assertEqual(self.sync(), told)
        self.assertEqual(self.sync(), told)
        self.assertEqual(self.sync("--quiet"), [])
        self.assertEqual(
            self.sync("--list"),
            [f"left out: f{count:02}: it isn't text" for count in range(30)] + [told[0], summary],
        )

    def test_what_was_refused_is_told_to_the_quiet(self) -> None:
        self.make_store("write /a other")
        self.write("a")
        lines = self.sync("--quiet", status=1)
        self.assertEqual(lines, ["refused: a: the store has another text there, which hac-sync didn't bring"])

    def test_what_cannot_come_any_more_stays(self) -> None:
        self.write("a")
        self.write("b")
        self.sync()
        self.write("a", b"x" * 1_048_577)
        self.write("b", b"\0")
        lines = self.sync()
        self.assertEqual(lines[0], "left out: a: it has more than 1,048,576 bytes (the store keeps its earlier text)")
        self.assertEqual(lines[1], "left out: b: it isn't text (the store keeps its earlier text)")
        self.assertEqual(self.tree(), {"/a": "an apple\\n", "/b": "an apple\\n"})
        self.write("a", b"short again")
        self.write("b", b"text again")
        self.sync()
        self.assertEqual(self.tree(), {"/a": "short again", "/b": "text again"})

    def test_a_file_that_became_a_link_is_gone(self) -> None:
        self.write("a")
        self.write("b")
        self.sync()
        (self.folder / "a").unlink()
        (self.folder / "a").symlink_to("b")
        self.sync()
        self.assertEqual(self.tree(), {"/b": "an apple\\n"})

    def test_limits_are_told_for_each_file(self) -> None:
        deep = "/".join(["d"] * 64)
        self.write(f"{deep}/f")
        self.write("good")
        lines = self.sync(status=1)
        self.assertEqual(lines[0], f"refused: {deep}/f: limit path (a path has at most 64 names)")
        self.assertEqual(self.tree()["/good"], "an apple\\n")

    def test_more_texts_than_a_store_may_have(self) -> None:
        """A stand-in for hac has room for texts of ten bytes alone. What is as long as a refused one isn't sent."""
        for count, length in enumerate((5, 20, 30, 15, 10)):
            self.write(f"f{count}", b"x" * length)
        self.store.touch()
        hac = self.made / "small-hac"
        hac.write_text(_SMALL.format(python=sys.executable, sent=str(self.made / "sent")))
        hac.chmod(0o755)
        ran = self.run_tool("hac-sync", self.folder, self.store, status=1, hac=hac)
        reason = "limit texts (all texts of the store together have at most 67,108,864 bytes)"
        self.assertEqual(
            ran.stdout.decode().splitlines(),
            [f"refused: f{count}: {reason}" for count in (1, 2, 3)]
            + ["2 files in the store: 2 new, 0 changed, 0 renamed, 0 removed; 0 left out, 3 refused"],
        )
        self.assertEqual((self.made / "sent").read_text(), "5\n20\n15\n10\n")

    def test_what_cannot_be_read_stays(self) -> None:
        self.write("a", b"one")
        self.write("sub/b", b"two")
        self.sync()
        (self.folder / "new").write_bytes(b"three")
        read_text, scandir = sync.read_text, os.scandir

        def fails(path: bytes) -> object:
            if path.endswith((b"/a", b"/new")):
                raise sync.CannotCome("it can't be read: Permission denied")
            return read_text(path)

        def no_list(path: bytes) -> object:
            if path.endswith(b"/sub"):
                raise PermissionError(13, "Permission denied", path)
            return scandir(path)

        os.utime(self.folder / "a")
        words = ["hac-sync", str(self.folder), str(self.store)]
        with patch.object(sync, "read_text", fails), patch("os.scandir", no_list), patch("builtins.print") as told:
            with patch.object(sys, "argv", words), patch.dict(os.environ, HAC=str(HAC)):
                self.assertEqual(sync.main(), 1)
        self.assertEqual(
            [call.args[0] for call in told.mock_calls][:3],
            [
                "left out: sub: it can't be read: Permission denied",
                "refused: a: it can't be read: Permission denied (the store keeps its earlier text)",
                "refused: new: it can't be read: Permission denied",
            ],
        )
        self.assertEqual(self.tree(), {"/a": "one", "/sub": "d", "/sub/b": "two"})
        self.assertIn("3 files in the store: 1 new, 0 changed, 0 renamed, 0 removed", self.sync()[-1])

    @unittest.skipIf(os.geteuid() == 0, "root reads every file")
    def test_permissions(self) -> None:
        self.write("a").chmod(0)
        self.assertIn("refused: a: it can't be read: Permission denied", self.sync(status=1))

    def test_what_is_skipped(self) -> None:
        for path in ("a.txt", "b.log", ".git/config", "sub/c.log", "sub/d"):
            self.write(path)
        self.sync("--skip", "*.log", "--skip", ".git")
        self.assertEqual(sorted(self.tree()), ["/a.txt", "/sub", "/sub/d"])
        self.sync("--skip", "sub")
        self.assertEqual(sorted(self.tree()), ["/.git", "/.git/config", "/a.txt", "/b.log"])

    def test_the_store_itself_and_views(self) -> None:
        self.store = self.folder / "store"
        self.write("a", b"apple")
        self.sync()
        self.ask("smkdir /apples apple")
        self.run_tool("hac-view", self.store, self.folder / "view")
        self.assertEqual(self.sync()[0], "left out: view: it was made by hac-view")
        self.assertEqual(self.tree(), {"/a": "apple", "/apples": "s"})
        ran = self.run_tool("hac-sync", self.folder / "view", self.made / "other", status=1)
        self.assertIn(b"hac-view made this folder", ran.stderr)


class Renames(SyncTest):
    def marks(self) -> List[str]:
        return self.ask("sls /s")

    def test_files(self) -> None:
        self.write("a", b"an apple")
        self.write("b", b"a pear")
        self.sync()
        self.ask("smkdir /s plum", "sln /a /s", "sln /b /s")
        (self.folder / "sub").mkdir()
        (self.folder / "a").rename(self.folder / "sub/c")
        (self.folder / "b").rename(self.folder / "d")
        self.write("b", b"a plum")
        self.assertIn("1 new, 1 changed, 1 renamed, 0 removed", self.sync()[-1])
        self.assertEqual(self.tree(), {**self.wanted(), "/s": "s"})
        # The mark moves with the file that was renamed.
        self.assertEqual(self.marks()[0], "p /sub/c")

    def test_a_file_becomes_a_directory_and_back(self) -> None:
        self.write("a", b"an apple")
        self.sync()
        (self.folder / "a").rename(self.folder / "b")
        (self.folder / "a").mkdir()
        (self.folder / "b").rename(self.folder / "a/c")
        self.sync()
        self.assertEqual(self.tree(), {"/a": "d", "/a/c": "an apple"})
        (self.folder / "a/c").rename(self.folder / "b")
        (self.folder / "a").rmdir()
        (self.folder / "b").rename(self.folder / "a")
        self.sync()
        self.assertEqual(self.tree(), {"/a": "an apple"})

    def test_a_file_that_was_renamed_and_changed_keeps_its_marks(self) -> None:
        self.write("a.txt", b"apple pie\n")
        self.write("sub/c.txt", b"apple\n")
        if not sync.birth_of(bytes(self.folder / "a.txt")):
            self.skipTest("this file system doesn't say when a file was made")
        self.sync()
        self.ask("smkdir /ap apple", "srm /a.txt /ap")
        (self.folder / "a.txt").rename(self.folder / "b.txt")
        with open(self.folder / "b.txt", "ab") as file:
            file.write(b"more apple\n")
        self.assertIn("0 new, 1 changed, 1 renamed, 0 removed", self.sync()[-1])
        self.assertEqual(self.ask("sls /ap"), ["x /b.txt", "t /sub/c.txt", "ok"])
        self.assertEqual(self.tree(), {**self.wanted(), "/ap": "s"})

    def test_another_file_with_the_same_inode_has_no_marks(self) -> None:
        self.write("a.txt", b"apple pie\n")
        self.sync()
        self.ask("smkdir /ap apple", "srm /a.txt /ap")
        inode = (self.folder / "a.txt").stat().st_ino
        (self.folder / "a.txt").unlink()
        self.write("b.txt", b"another apple\n")
        with patch.object(sync, "birth_of", lambda path: 12345):
            self.assertIn("1 new, 0 changed, 0 renamed, 1 removed", self.sync()[-1])
        self.assertEqual(self.ask("sls /ap"), ["t /b.txt", "ok"], inode)

    def test_directories_move_with_what_is_theirs(self) -> None:
        for count in range(5):
            self.write(f"old/sub/f{count}", b"apple %d" % count)
        self.write("old/x", b"apple")
        self.sync()
        self.ask("smkdir /s {/old/sub} AND apple", "smkdir /old/mine apple", "index")
        (self.folder / "new").mkdir()
        (self.folder / "old").rename(self.folder / "new/name")
        self.write("new/name/x", b"changed")
        self.assertIn("0 new, 1 changed, 1 renamed, 0 removed", self.sync()[-1])
        self.assertEqual(self.ask("query /s")[0], "= {/new/name/sub} AND apple")
        self.assertEqual(self.tree(), {**self.wanted(), "/s": "s", "/new/name/mine": "s"})

    def test_a_directory_that_cannot_move(self) -> None:
        """The new place is taken in the store, so files move one by one."""
        self.write("old/a", b"apple")
        self.sync()
        self.ask("mkdir /new")
        (self.folder / "old").rename(self.folder / "new")
        self.sync()
        self.assertEqual(self.tree(), {"/new": "d", "/new/a": "apple"})


class OtherHands(SyncTest):
    def test_what_hac_sync_did_not_bring_stays(self) -> None:
        self.make_store("write /mine x", "mkdir /sub", "write /sub/mine y", "write /a not the file's")
        self.ask("write /same an apple\\n")
        self.write("a")
        self.write("same")
        self.write("sub/b")
        self.assertEqual(
            self.sync(status=1)[0], "refused: a: the store has another text there, which hac-sync didn't bring"
        )
        self.assertEqual(self.tree()["/a"], "not the file's")
        shutil.rmtree(self.folder / "sub")
        (self.folder / "same").unlink()
        self.sync("--replace")
        self.assertEqual(self.tree(), {"/a": "an apple\\n", "/mine": "x", "/sub": "d", "/sub/mine": "y"})

    def test_nothing_comes_through_a_link_of_the_store(self) -> None:
        self.write("a", b"one")
        self.write("sub/b", b"two")
        self.write("c", b"three")
        self.sync()
        self.ask("mv /a /mine", "ln mine /a", "mkdir /dir", "mv /sub/b /dir/b", "rmdir /sub", "ln dir /sub", "ln /new /d")
        self.write("a", b"other")
        self.write("sub/b", b"other")
        self.write("sub/e", b"new")
        self.write("d", b"new")
        tree = {"/a": "-> mine", "/mine": "one", "/sub": "-> dir", "/dir": "d", "/dir/b": "two", "/c": "three"}
        tree["/d"] = "-> /new"
        for options in ((), ("--check",), ("--replace",)):
            self.assertEqual(
                self.sync(*options, status=1)[:4],
                [
                    f"refused: {path}: the store has a symbolic link there, or on the way to it"
                    for path in ("a", "d", "sub/b", "sub/e")
                ],
            )
            self.assertEqual(self.tree(), tree)
        shutil.rmtree(self.folder / "sub")
        (self.folder / "a").unlink()
        (self.folder / "d").unlink()
        self.sync()
        self.assertEqual(self.tree(), tree)

    def test_the_place_may_be_a_link(self) -> None:
        self.make_store("mkdir /dir", "ln dir /notes")
        self.write("a", b"one")
        self.sync("/notes")
        self.assertEqual(self.tree(), {"/dir": "d", "/dir/a": "one", "/notes": "-> dir"})

    def test_what_was_removed_or_moved_by_hand_comes_again(self) -> None:
        self.write("a", b"one")
        self.write("sub/b", b"two")
        self.sync()
        self.ask("rm /a", "mv /sub /moved")
        self.sync()
        self.assertEqual(self.tree(), {"/a": "one", "/sub": "d", "/sub/b": "two", "/moved": "d", "/moved/b": "two"})

    def test_a_text_that_was_changed_by_hand(self) -> None:
        self.write("a", b"one")
        self.sync()
        self.ask("write /a mine")
        self.sync()
        self.assertEqual(self.tree(), {"/a": "mine"})
        self.assertIn("1 changed", self.sync("--check")[-1])
        self.assertEqual(self.tree(), {"/a": "one"})

    def test_a_directory_with_other_things_stays(self) -> None:
        self.write("sub/a")
        self.write("ref/b")
        self.write("query/c")
        self.sync()
        self.ask("write /sub/mine x", "smkdir /s {/ref}", "setq /query x")
        for name in ("sub", "ref", "query"):
            shutil.rmtree(self.folder / name)
        self.sync("--emptied")
        self.assertEqual(self.tree(), {"/sub": "d", "/sub/mine": "x", "/ref": "d", "/s": "s", "/query": "s"})
        self.ask("rm /sub/mine", "rmdir /s")
        self.sync("--emptied")
        self.assertEqual(self.tree(), {"/query": "s"})

    def test_an_older_store_put_back(self) -> None:
        self.write("a", b"one")
        self.write("b", b"one")
        self.sync()
        older = self.store.read_bytes()
        self.write("a", b"two")
        self.sync()
        self.store.write_bytes(older)
        self.assertIn("1 changed", self.sync()[-1])
        self.assertEqual(self.tree(), {"/a": "two", "/b": "one"})

    def test_what_went_does_not_come_back_with_an_older_store(self) -> None:
        for name in ("1", "2", "3", "sub/4", "sub/deep/5"):
            self.write(name, b"note %s orph" % name.encode())
        self.make_store("write /mine x")
        self.sync()
        older = self.store.read_bytes()
        (self.folder / "1").unlink()
        (self.folder / "3").rename(self.folder / "3b")
        shutil.rmtree(self.folder / "sub")
        self.sync()
        self.store.write_bytes(older)
        self.ask("sln /3 /s", "write /2 by hand")
        self.assertIn("2 files in the store: 0 new, 1 changed, 1 renamed, 3 removed", self.sync()[-1])
        self.assertEqual(self.tree(), {**self.wanted(), "/mine": "x"})
        # A text that was changed in the older store is no longer what came.
        self.store.write_bytes(older)
        self.ask("write /1 mine now")
        self.sync()
        self.assertEqual(self.tree(), {**self.wanted(), "/mine": "x", "/1": "mine now"})

    def test_check_removes_what_came_once(self) -> None:
        self.write("a", b"one")
        self.write("b", b"two")
        self.sync()
        (self.folder / "a").unlink()
        self.sync()
        self.ask("write /a one")
        self.assertIn("only in the store: a: ", self.sync()[0])
        self.sync("--check")
        self.assertEqual(self.tree(), {"/b": "two"})

    def test_what_the_store_alone_has_is_told(self) -> None:
        self.write("a", b"one")
        self.write("gone/b", b"two")
        self.run_tool("hac-sync", self.folder, self.store, "/notes")
        box = self.made / "box"
        box.write_bytes(b"From a Mon Jan  1 00:00:00 2024\nSubject: s\n\nmail\n")
        self.run_tool("hac-mail", box, self.store, "/notes/mail")
        (self.made / "store.sync").unlink()
        shutil.rmtree(self.folder / "gone")
        told = self.sync("/notes")
        self.assertIn("only in the store: gone/b: ", told[0])
        self.assertEqual(self.sync("/notes"), [told[0], told[1].replace("1 files", "1 files")])
        self.sync("/notes", "--check")
        self.assertEqual(self.tree()["/notes/gone/b"], "two")
        told = self.sync("/notes", "--delete")
        self.assertEqual(told[0], "removed: gone/b: the folder hasn't it, and hac-sync didn't bring it")
        self.assertEqual(self.ask("ls /notes", "ls /notes/gone"), ["f a", "d gone", "d mail", "ok", "ok"])
        self.assertEqual(len(self.sync("/notes")), 1)

    def test_the_record_is_lost_or_damaged(self) -> None:
        self.write("a", b"one")
        self.write("b", b"two")
        self.sync()
        for damage in (None, b"{", b'{"version": 2}', b"[]", b'{"version":1,"mark":[1],"folders":{}}'):
            with self.subTest(damage=damage):
                if damage is None:
                    (self.made / "store.sync").unlink()
                else:
                    (self.made / "store.sync").write_bytes(damage)
                self.assertIn("2 files in the store: 0 new, 0 changed", self.sync()[-1 if damage is None else -2])
        (self.folder / "a").unlink()
        self.sync()
        self.assertEqual(self.tree(), {"/b": "two"})

    def test_another_folder_at_the_place(self) -> None:
        self.write("a")
        self.sync()
        moved = self.made / "moved"
        self.folder.rename(moved)
        self.folder = moved
        self.assertIn("has the files of", self.sync(status=1)[0])
        self.assertIn("1 files in the store: 0 new, 0 changed", self.sync("--moved")[-1])

    def test_an_empty_folder(self) -> None:
        self.write("a")
        self.sync()
        (self.folder / "a").unlink()
        self.assertIn("nothing was removed", self.sync(status=1)[0])
        self.assertEqual(self.tree(), {"/a": "an apple\\n"})
        self.sync("--emptied")
        self.assertEqual(self.tree(), {})


class Stops(SyncTest):
    def change(self, chance: random.Random, texts: int) -> None:
        """Makes, changes, renames and removes files."""
        files = sorted(file for file in self.folder.rglob("*") if file.is_file())
        for file in files:
            choice = chance.random()
            if choice < 0.1:
                file.unlink()
            elif choice < 0.2:
                self.write(str(file.relative_to(self.folder)), b"changed %d apple\n" % chance.randrange(texts))
            elif choice < 0.3:
                to = self.folder / f"d{chance.randrange(4)}/r{chance.randrange(1000)}"
                to.parent.mkdir(exist_ok=True)
                file.rename(to)
        for _ in range(30 - len(files)):
            self.write(f"d{chance.randrange(4)}/n{chance.randrange(1000)}", b"new %d pear\n" % chance.randrange(texts))
        for directory in list(self.folder.iterdir()):
            if not any(directory.iterdir()):
                directory.rmdir()
            elif chance.random() < 0.2 and not (self.folder / f"x{directory.name}").exists():
                directory.rename(self.folder / f"x{directory.name}")

    def test_killed_at_50_moments(self) -> None:
        chance = random.Random(31)
        self.change(chance, 10)
        began = time.monotonic()
        self.sync()
        took = time.monotonic() - began
        self.ask("write /mine x")
        cut_short = 0
        for moment in range(MOMENTS):
            before = self.wanted()
            self.change(chance, 10)
            after = self.wanted()
            started = Run("hac-sync", self.folder, self.store)
            time.sleep(took * (0.1 + moment / MOMENTS))
            started.kill()
            cut_short += started.ended().returncode != 0
            self.sync()
            tree = self.tree()
            self.assertEqual(tree.pop("/mine"), "x")
            self.assertEqual(tree, after, f"moment {moment}, from {before}")
            self.assertEqual(self.numbers()["dirty"], 0)
        self.assertGreater(cut_short, MOMENTS // 4)

    def test_stopped_behind_each_reply(self) -> None:
        """hac ends by itself, in each of the ways in which it does, behind each of its replies."""
        chance = random.Random(7)
        endings = ((5, "hac: disk fault"), (7, "hac: out of memory"), (3, "hac: read fault"))
        for replies in range(0, 60, 3):
            status, said = endings[replies // 3 % 3]
            self.change(chance, 10)
            ran = Run("hac-sync", self.folder, self.store, hac=self.ends_after(replies, status, said)).ended()
            if ran.returncode != 0:
                self.assertEqual(ran.returncode, status)
                self.assertIn(f"hac ended with status {status} ({said}): ".encode(), ran.stderr)
            self.sync()
            self.assertEqual(self.tree(), self.wanted(), f"{replies} replies")

    def test_no_room_for_the_record(self) -> None:
        """Where the record can't be written nothing else is."""
        self.make_store()
        self.write("a")
        (self.made / "store.sync.new").mkdir()
        self.assertIn("store.sync.new", self.sync(status=1)[0])
        self.assertEqual(self.tree(), {})
        (self.made / "store.sync.new").rmdir()
        self.sync()
        self.assertEqual(self.tree(), {"/a": "an apple\\n"})

    def test_a_store_that_is_none(self) -> None:
        self.write("a")
        self.store.write_bytes(b"my letters")
        self.assertIn("not a store at byte 0", self.sync(status=6)[0])
        self.assertEqual(self.store.read_bytes(), b"my letters")

    def test_wrong_words(self) -> None:
        self.run_tool("hac-sync", status=2)
        self.run_tool("hac-sync", self.folder, self.store, "/a", "b", status=2)
        self.run_tool("hac-sync", self.made / "none", self.store, status=1)
        self.assertFalse(self.store.exists())


class Watched(SyncTest):
    def test_it_goes_on_until_a_signal(self) -> None:
        self.write("a", b"apple")
        for number in (signal.SIGTERM, signal.SIGINT, signal.SIGHUP):
            run = Run("hac-sync", self.folder, self.store, "--watch")
            try:
                self.write("b", b"pear %d" % number)
                self.until({"/a": "apple", "/b": f"pear {number:d}"})
                (self.folder / "b").rename(self.folder / "c")
                self.until({"/a": "apple", "/c": f"pear {number:d}"})
                (self.folder / "c").unlink()
                self.until({"/a": "apple"})
            finally:
                os.kill(run.process, number)
                ran = run.ended()
            self.assertEqual(ran.returncode, 0)
            self.assertIn("1 files in the store: 0 new, 0 changed, 0 renamed, 1 removed", ran.stdout.decode().splitlines()[-1])

    def until(self, wanted: Dict[str, str]) -> None:
        """Waits until the store has these files."""
        end = time.monotonic() + 60
        found = None
        while found != wanted:
            self.assertLess(time.monotonic(), end, found)
            time.sleep(0.3)
            if self.store.exists():
                with Hac(self.store) as hac:
                    paths = [line[1:].replace(b" ", b"/", 1) for line in hac.ls(b"/").lines]
                    found = {path.decode(): hac.cat(path).text.decode() for path in paths}


class TheRecord(SyncTest):
    def test_a_path_stands_there_before_the_store_has_it(self) -> None:
        """Else a run that is killed would leave a file that none takes for its own."""
        self.write("a")
        self.run_tool("hac-sync", self.folder, self.store, status=7, hac=self.ends_after(1, 7, "hac: out of memory"))
        self.assertEqual(self.tree(), {})
        self.run_tool("hac-sync", self.folder, self.store, status=7, hac=self.ends_after(4, 7, "hac: out of memory"))
        self.assertEqual(self.tree(), {"/a": "an apple\\n"})
        record = json.loads((self.made / "store.sync").read_bytes())
        self.assertEqual(record["folders"]["/"]["files"], {"a": [None, -1, -1, -1, "", 0]})
        (self.folder / "a").unlink()
        self.write("b", b"pear")
        self.sync()
        self.assertEqual(self.tree(), {"/b": "pear"})


_SMALL = """\
#!{python}
import sys

for line in sys.stdin.buffer:
    words = line.split()
    if words[0] == b"put":
        sys.stdin.buffer.read(int(words[2]))
        with open({sent!r}, "a") as sent:
            print(int(words[2]), file=sent)
        print("ok" if int(words[2]) <= 10 else "no limit texts", flush=True)
    else:
        print("ok", flush=True)
"""
