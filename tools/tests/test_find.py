"""hac-find: what is found, how it is shown at a terminal and into a pipe, and how it ends."""

from __future__ import annotations

import json
import os
import pty
import re
import subprocess
import sys
import unittest
from typing import List

from tests.support import HAC, TOOLS, ToolTest, load

find = load("hac-find")


class FindTest(ToolTest):
    def setUp(self) -> None:
        super().setUp()
        self.notes = self.made / "notes"
        (self.notes / "sub").mkdir(parents=True)
        (self.notes / "a").write_text("one\nAn Apple here\napples and pears\n")
        (self.notes / "sub/b").write_text("pear cake apple")
        self.run_tool("hac-sync", self.notes, self.store, "/notes")

    def found(self, *words: str, status: int = 0) -> List[str]:
        return self.run_tool("hac-find", self.store, *words, status=status).stdout.decode().splitlines()


class Answers(FindTest):
    def test_paths_into_a_pipe(self) -> None:
        self.ask("write /mine an apple", "index")
        paths = [f"{self.notes}/a", f"{self.notes}/sub/b", "/mine"]
        self.assertEqual(self.found("apple"), paths)
        self.assertEqual(self.found("--newest", "apple"), paths[::-1])
        self.assertEqual(self.found("apple", "AND", "NOT", "cake"), [paths[0], paths[2]])
        self.assertEqual(self.found("apple*", "--below", "/notes/sub"), paths[1:2])
        self.assertEqual(self.found("--count", "apple"), ["3"])
        self.assertEqual(self.found("nosuchword", status=1), [])
        self.assertEqual(self.found("--count", "nosuchword", status=1), ["0"])
        (self.notes / "a").unlink()
        self.assertEqual(self.found("apple")[0], "/notes/a")

    def test_lines(self) -> None:
        wanted = [f"{self.notes}/a:2:An Apple here", f"{self.notes}/sub/b:1:pear cake apple"]
        self.assertEqual(self.found("--lines", "apple"), wanted)
        self.assertEqual(self.found("--lines", "apples", "AND", "{/notes}"), [f"{self.notes}/a:3:apples and pears"])

    def test_json(self) -> None:
        self.ask("write /mine caf\\xe9 apple", "index")
        found = [json.loads(line) for line in self.found("--json", "appl*")]
        self.assertEqual(
            found[0],
            {
                "path": "/notes/a",
                "file": f"{self.notes}/a",
                "lines": [{"line": 2, "text": "An Apple here"}, {"line": 3, "text": "apples and pears"}],
            },
        )
        self.assertEqual(found[2], {"path": "/mine", "file": None, "lines": [{"line": 1, "text": "caf\udce9 apple"}]})

    def test_a_query_that_is_none(self) -> None:
        for query, place in (("apple AND", 10), ("a )", 3), ("ä b", 4)):
            ran = self.run_tool("hac-find", self.store, query, status=2)
            lines = ran.stderr.decode().splitlines()
            self.assertEqual(lines[1], f"  {query}")
            self.assertEqual(lines[2], " " * (2 + len(query.encode()[: place - 1].decode())) + "^")
            self.assertEqual(ran.stdout, b"")
        ran = self.run_tool("hac-find", self.store, "apple", "--below", "/none", status=2)
        self.assertIn(b"no-path /none (nothing is at this path)", ran.stderr)
        self.run_tool("hac-find", self.made / "none", "apple", status=5)

    def test_what_waits_is_told(self) -> None:
        self.ask("write /new an apple")
        ran = self.run_tool("hac-find", self.store, "apple")
        self.assertEqual(len(ran.stdout.splitlines()), 2)
        self.assertIn(b"1 files are to be indexed", ran.stderr)

    def test_a_mail_at_a_terminal(self) -> None:
        box = self.made / "box"
        head = b"From a Mon Jan  1 00:00:00 2024\nFrom: Ada <ada@x>\nDate: 5 Mar 2024 10:00\nSubject: pie\n\n"
        box.write_bytes(head + b"an apple \x1b[31m\n" + b"apple\n" * 9)
        self.run_tool("hac-mail", box, self.store, "/mail")
        lines = self.at_terminal("apple", "--below", "/mail")
        self.assertEqual(lines[0], "<35>/mail/2024-03-05 pie<0>  Ada <ada@x>, 5 Mar 2024 10:00, pie")
        self.assertEqual(lines[1], "  5: an <1;31>apple<0> [31m")
        self.assertEqual(lines[-1], "  and 5 more lines")
        self.assertEqual(self.at_terminal("nosuchword"), [])

    def at_terminal(self, *words: str) -> List[str]:
        """What is shown, with colours as their numbers."""
        keys, screen = pty.openpty()
        given = {**os.environ, "HAC": str(HAC)}
        ran = [sys.executable, str(TOOLS / "hac-find"), str(self.store), *words]
        with subprocess.Popen(ran, stdin=subprocess.DEVNULL, stdout=screen, env=given):
            os.close(screen)
            seen = b""
            while True:
                try:
                    piece = os.read(keys, 65536)
                except OSError:
                    break
                if not piece:
                    break
                seen += piece
        os.close(keys)
        return re.sub(r"\x1b\[([0-9;]*)m", r"<\1>", seen.decode()).splitlines()


class Lines(unittest.TestCase):
    def words(self, query: str, text: str) -> List[str]:
        words = find.words_of(query.encode())
        return [] if words is None else [found[0].decode() for found in words.finditer(text.encode())]

    def test_words_of_a_query(self) -> None:
        self.assertEqual(self.words("apple", "Apple apples APPLE, pineapple"), ["Apple", "APPLE"])
        self.assertEqual(self.words("app*", "Apple happy app"), ["Apple", "app"])
        self.assertEqual(self.words("(a OR b*) AND NOT {/and c}", "a and c bb"), ["a", "bb"])
        self.assertEqual(self.words("{/a\\}b} AND x", "a b x"), ["x"])
        self.assertEqual(self.words("{/a}", "a"), [])
        self.assertEqual(self.words("and", "and AND"), ["and", "AND"])
        self.assertEqual(self.words("é", "é café É"), ["é"])

    def test_long_lines_are_shown_around_a_word(self) -> None:
        words = find.words_of(b"apple")
        line = "ä".encode() * 500 + b" apple " + b"x" * 500
        shown = find.shown_line(line, words)
        self.assertTrue(shown.startswith("…ä") and shown.endswith("x…"))
        self.assertIn("\x1b[1;31mapple\x1b[0m", shown)


if __name__ == "__main__":
    unittest.main()
