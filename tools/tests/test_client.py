"""The module that speaks with hac: spelling, replies, and each way in which hac ends, told in words."""

from __future__ import annotations

import os
import subprocess
import unittest
from pathlib import Path
from unittest.mock import patch

from tests.support import HAC, ToolTest

from hac_client import (
    Hac,
    InUse,
    Stopped,
    ToolError,
    cut,
    find_program,
    is_silent,
    meaning,
    name_fault,
    names_of,
    shown,
    spelled,
    unspelled,
    word,
)


class Spelling(unittest.TestCase):
    def test_words_are_in_quotes(self) -> None:
        self.assertEqual(word(b'/a "b" \\c'), b'"/a \\"b\\" \\\\c"')

    def test_texts(self) -> None:
        self.assertEqual(unspelled(b"a\\nb\\tc"), b"a\nb\tc")
        self.assertEqual(unspelled(b"\\\\n\\x00\\x7f\xff\\n"), b"\\n\0\x7f\xff\n")
        self.assertEqual(spelled(b"\\n\0\x1f\x7f\x80\xff\n\t\r a"), b"\\\\n\\x00\\x1f\\x7f\x80\xff\\n\\t\\x0d a")
        every = bytes(range(256))
        self.assertEqual(unspelled(spelled(every)), every)

    def test_lines_without_a_reply(self) -> None:
        for line in (b"", b"   ", b"#", b"# x"):
            self.assertTrue(is_silent(line), line)
        for line in (b" # x", b"\t", b"ls"):
            self.assertFalse(is_silent(line), line)

    def test_paths(self) -> None:
        self.assertEqual(names_of(b"//a/./b/../c/"), [b"a", b"c"])
        self.assertEqual(names_of(b"/.."), [])

    def test_names(self) -> None:
        for name in (b"a", b" ", b'"', b"\xff", b"...", b"x" * 255):
            self.assertIsNone(name_fault(name), name)
        for name in (b"", b".", b"..", b"a/b", b"a\nb", b"\x7f", b"x" * 256):
            self.assertIsNotNone(name_fault(name), name)

    def test_names_are_cut_between_signs(self) -> None:
        self.assertEqual(cut("aäb".encode(), 2), b"a")
        self.assertEqual(cut("aäb".encode(), 3), "aä".encode())
        self.assertEqual(cut(b"\x80" * 9, 4), b"")
        self.assertEqual(cut(b"ab", 2), b"ab")

    def test_shown_names_obey_nothing(self) -> None:
        self.assertEqual(shown(b"a\x1b[31m\xff\n"), "a\\x1b[31m\\xff\\n")
        self.assertEqual(shown("ä\u202eb".encode()), "ä\\u202eb")

    def test_every_cause_of_the_manual_has_a_meaning(self) -> None:
        manual = (Path(__file__).parents[2] / "docs/manual.md").read_text()
        table = manual.partition("## Refusals")[2].partition("## Limits")[0]
        causes = [line.split("`")[1][len("no ") :] for line in table.splitlines() if line.startswith("| `no ")]
        limits = manual.partition("## Limits")[2].partition("## How it ends")[0]
        causes += ["limit " + line.split("`")[1] for line in limits.splitlines() if line.startswith("| `")]
        self.assertGreater(len(causes), 30)
        unknown = meaning(b"what")
        for cause in causes:
            if cause != "limit WORD":
                self.assertNotEqual(meaning(cause.encode()), unknown, cause)


class Replies(ToolTest):
    def test_replies(self) -> None:
        with Hac(self.store, make=True) as hac:
            self.assertEqual(hac.put(b"/a\xff b", b"x\n\0y\\").refusal, None)
            self.assertEqual(hac.cat(b"/a\xff b").text, b"x\n\0y\\")
            self.assertEqual(hac.ls(b"/").lines, (b"f a\xff b",))
            self.assertEqual(hac.cat(b"/none").refusal, b"no-path /none")
            self.assertEqual(hac.mkdir(b"/a\xff b").reason.split(" (")[1], "something is already at this path)")
            self.assertTrue(hac.put(b"/empty", b"").ok)
            self.assertEqual(hac.cat(b"/empty").text, b"")

    def test_directories_are_made_where_they_miss(self) -> None:
        with Hac(self.store, make=True) as hac:
            self.assertTrue(hac.mkdir(b"/a").ok)
            self.assertTrue(hac.make_directories(b"/a/b/c d").ok)
            self.assertTrue(hac.make_directories(b"/a/b/c d").ok)
            self.assertTrue(hac.make_directories(b"/").ok)
            hac.put(b"/f", b"")
            self.assertEqual(hac.make_directories(b"/f/g").refusal, b"not-dir /f")
        self.assertEqual(self.ask("ls /a/b"), ["d c d", "ok"])

    def test_a_line_is_a_command(self) -> None:
        with Hac(self.store, make=True) as hac:
            for line in (b"", b"# x", b"ls\nls"):
                self.assertRaises(ValueError, hac.ask, line)

    def test_more_than_a_script_may_have(self) -> None:
        hac = self.script("hac-counted", f"echo run >>{self.made}/runs", f'exec "{HAC}" "$@"')
        self.make_store("mkdir /d")
        with patch.dict(os.environ, HAC=str(hac)), patch("hac_client.MAX_SCRIPT", 1000):
            with Hac(self.store) as run:
                for count in range(9):
                    self.assertTrue(run.put(b"/d/%d" % count, b"x" * 300).ok)
                self.assertEqual(len(run.ls(b"/d").lines), 9)
        # Three puts of 300 bytes and their lines are a script of less than 1,000, four are more.
        self.assertEqual((self.made / "runs").read_text(), "run\n" * 3)

    def test_a_new_run_goes_on_where_sessions_stand(self) -> None:
        self.make_store("mkdir /d", "mkdir /e", "mkdir /f")
        with patch("hac_client.MAX_SCRIPT", 1000), Hac(self.store) as run:
            for line in (b"cd /d", b"@bob cd /e", b"@amy cd /f", b'mv /f "/g h"'):
                self.assertTrue(run.ask(line).ok)
            for count in range(9):
                self.assertTrue(run.ask(b"put %d 300" % count, b"x" * 300).ok)
                self.assertTrue(run.ask(b" @bob  put %d 300" % count, b"x" * 300).ok)
            self.assertEqual(len(run.ls(b"/d").lines), 9)
            self.assertEqual(len(run.ls(b"/e").lines), 9)
            self.assertEqual(run.ask(b"@amy pwd").lines, (b"= /g h",))

    def test_a_store_is_made_whole(self) -> None:
        with Hac(self.store, make=True):
            pass
        self.assertEqual(sorted(path.name for path in self.made.iterdir()), ["store", "store.lock"])

    def test_no_store_is_made_over_a_file(self) -> None:
        self.store.write_bytes(b"mine")
        with self.assertRaises(Stopped):
            with Hac(self.store, make=True) as hac:
                hac.ls(b"/")
        self.assertEqual(self.store.read_bytes(), b"mine")

    def test_one_tool_at_a_time(self) -> None:
        with Hac(self.store, make=True):
            self.assertRaises(InUse, Hac, self.store, wait=0.1)
        with Hac(self.store, wait=0.1) as hac:
            self.assertTrue(hac.ls(b"/").ok)


class WhatCannotBeOpened(ToolTest):
    """Each is told for what it is, with hac's status for it, and nothing is left behind."""

    def told(self, *words: object) -> str:
        self.made.chmod(0o755)
        before = sorted(self.made.rglob("*"))
        ran = self.run_tool(*map(str, words), status=5, as_nobody=True)
        self.assertEqual(sorted(self.made.rglob("*")), before)
        self.assertEqual(ran.stdout, b"")
        return ran.stderr.decode()

    def test_a_mistyped_name(self) -> None:
        for words in (("hac-view", self.store, self.made / "view"), ("hac-sync", self.made, self.made / "no/store")):
            with self.subTest(words=words):
                self.assertRegex(self.told(*words), "there is no (such file; `hac-shell --new`|folder)")

    def test_a_folder(self) -> None:
        self.store.mkdir()
        self.assertIn(f"{self.store}: it is a folder, and no store", self.told("hac-view", self.store, self.made / "v"))

    def test_a_pipe(self) -> None:
        os.mkfifo(self.store)
        self.assertIn("it is no regular file", self.told("hac-view", self.store, self.made / "v"))

    def test_rights(self) -> None:
        self.make_store("mkdir /a")
        self.store.chmod(0o444)
        if os.geteuid() != 0:
            self.addCleanup(self.store.chmod, 0o600)
        self.assertIn("you may only read it", self.told("hac-view", self.store, self.made / "v"))
        self.store.chmod(0)
        self.assertIn("you have no permission to read it", self.told("hac-view", self.store, self.made / "v"))

    def test_a_folder_of_others(self) -> None:
        (self.made / "notes").mkdir()
        (self.made / "theirs").mkdir()
        (self.made / "theirs").chmod(0o555)
        told = self.told("hac-sync", self.made / "notes", self.made / "theirs/store")
        self.assertIn(f"you have no permission to write in the folder {self.made / 'theirs'}", told)

    def test_a_run_of_hac(self) -> None:
        self.make_store("mkdir /a")
        with subprocess.Popen([HAC, self.store], stdin=subprocess.PIPE, stdout=subprocess.PIPE) as other:
            assert other.stdin is not None and other.stdout is not None
            other.stdin.write(b"ls\n")
            other.stdin.flush()
            self.assertEqual(other.stdout.readline(), b"d a\n")
            ran = self.run_tool("hac-view", self.store, self.made / "v", status=5)
            self.assertIn(b"another run of hac has it open", ran.stderr)
            other.stdin.close()

    def test_a_full_disk(self) -> None:
        """The disk is said to be full where it is: the system's word is taken, here in its place."""
        self.make_store("mkdir /a")
        with patch("os.statvfs", lambda path: type("Full", (), {"f_bavail": 0})):
            self.assertIn("the disk is full", str(Stopped(self.store, 5, "hac: disk fault")))


class Endings(ToolTest):
    def ending(self, hac: Path) -> Stopped:
        """How this program ends that is asked again and again."""
        if not self.store.exists():
            self.make_store("mkdir /a")
        with patch.dict(os.environ, HAC=str(hac)), self.assertRaises(Stopped) as caught:
            with Hac(self.store) as run:
                while True:
                    run.mkdir(b"/b")
        return caught.exception

    def test_no_store(self) -> None:
        with self.assertRaises(Stopped) as caught:
            with Hac(self.store) as hac:
                hac.ls(b"/")
        self.assertEqual(caught.exception.status, 5)
        self.assertIn("there is no such file", str(caught.exception))

    def test_another_file(self) -> None:
        self.store.write_bytes(b"\1HACSTORE")
        with self.assertRaises(Stopped) as caught:
            with Hac(self.store) as hac:
                hac.ls(b"/")
        self.assertEqual(caught.exception.status, 6)
        self.assertIn("not a store at byte 8", str(caught.exception))
        self.assertIn("Nothing was written", str(caught.exception))

    def test_a_disk_that_fails(self) -> None:
        """A real one: the store may not become longer."""
        hac = self.script("hac-full", "trap '' XFSZ", "ulimit -f 4", f'exec "{HAC}" "$@"')
        self.make_store()
        with patch.dict(os.environ, HAC=str(hac)), self.assertRaises(Stopped) as caught:
            with Hac(self.store) as run:
                for count in range(9):
                    self.assertTrue(run.put(b"/%d" % count, b"x" * 1000).ok)
                    answered = count + 1
        self.assertEqual(caught.exception.status, 5)
        self.assertIn("disk may be full", str(caught.exception))
        self.assertIn(self.numbers()["files"], (answered, answered + 1))

    def test_memory(self) -> None:
        stopped = self.ending(self.ends_after(1, 7, "hac: out of memory"))
        self.assertEqual(stopped.status, 7)
        self.assertIn("memory ran out", str(stopped))
        self.assertIn("Every command that was answered is in the store", str(stopped))

    def test_other_endings(self) -> None:
        endings = {3: "couldn't be read", 4: "couldn't be written", 9: "more than a script", 77: "why"}
        for status, words in endings.items():
            with self.subTest(status=status):
                self.assertIn(words, str(self.ending(self.ends_after(2, status, "hac: said"))))

    def test_a_signal(self) -> None:
        stopped = self.ending(self.script("hac-killed", "kill -KILL $$"))
        self.assertEqual(stopped.status, 128 + 9)
        self.assertIn("SIGKILL", str(stopped))

    def test_a_store_that_cannot_be_named(self) -> None:
        path = Path(os.fsdecode(bytes(self.made) + b"/\xff"))
        subprocess.run([HAC, "--new", self.store], stdin=subprocess.DEVNULL, check=True)
        os.link(self.store, path)
        with self.assertRaises(Stopped) as caught:
            with Hac(path) as hac:
                hac.ls(b"/")
        self.assertIn("must be UTF-8", str(caught.exception))

    def test_a_store_that_hac_itself_has_open(self) -> None:
        self.make_store("mkdir /a")
        with subprocess.Popen([HAC, self.store], stdin=subprocess.PIPE, stdout=subprocess.PIPE) as other:
            assert other.stdin is not None and other.stdout is not None
            other.stdin.write(b"mkdir /b\n")
            other.stdin.flush()
            self.assertEqual(other.stdout.readline(), b"ok\n")
            if subprocess.run([HAC, self.store], stdin=subprocess.DEVNULL, capture_output=True).returncode != 5:
                self.skipTest("this hac doesn't notice another one")
            with self.assertRaises(Stopped) as caught:
                with Hac(self.store) as hac:
                    hac.ls(b"/")
            self.assertEqual(caught.exception.status, 5)
            self.assertIn("another run of hac has it open", str(caught.exception))
        self.assertEqual(self.ask("ls"), ["d a", "d b", "ok"])

    def test_no_program(self) -> None:
        for path in (self.made, self.made / "none", Path("/etc/passwd")):
            with patch.dict(os.environ, HAC=str(path)):
                self.assertRaises(ToolError, find_program)
