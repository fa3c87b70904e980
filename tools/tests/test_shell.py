"""hac-shell at a terminal: typed keys, completed lines, and the caret under the byte of a bad query."""

from __future__ import annotations

import fcntl
import os
import pty
import re
import select
import signal
import struct
import subprocess
import sys
import termios
import time
import unittest
from pathlib import Path
from typing import Dict, List, Optional

from tests.support import HAC, TOOLS, ToolTest, load

from hac_client import Hac, Reply

shell = load("hac-shell")

PROMPT = "store:/> "
COLUMNS = 80


class Terminal:
    """A session at a terminal, whose keys are typed here."""

    def __init__(self, words: List[str], environment: Dict[str, str]) -> None:
        self.process, self.keys = pty.fork()
        if self.process == 0:
            os.execve(sys.executable, [sys.executable, str(TOOLS / "hac-shell"), *words], environment)
        fcntl.ioctl(self.keys, termios.TIOCSWINSZ, struct.pack("HHHH", 24, COLUMNS, 0, 0))

    def until(self, ending: str, seconds: float = 30) -> str:
        """What is shown up to this ending, which is not at the beginning of a line that is shown anew."""
        seen = b""
        until = time.monotonic() + seconds
        while not seen.endswith(ending.encode()) or seen.endswith(b"\r" + ending.encode()):
            if not select.select([self.keys], [], [], max(0, until - time.monotonic()))[0]:
                raise AssertionError(f"{ending!r} doesn't come, but {seen!r}")
            try:
                piece = os.read(self.keys, 65536)
            except OSError:
                piece = b""
            if not piece:
                raise AssertionError(f"the session ended with {seen!r}")
            seen += piece
        return seen.decode("utf-8", "replace").replace("\r\n", "\n")

    def typed(self, keys: str, prompt: str = PROMPT) -> str:
        """What is shown when a line was typed, from its echo to the next prompt."""
        os.write(self.keys, keys.encode("utf-8", "surrogateescape") + b"\n")
        return self.until(prompt)[: -len(prompt)]

    def close(self) -> None:
        """Ends a session that a test left."""
        if self.process:
            os.kill(self.process, signal.SIGKILL)
            self.end("")

    def end(self, keys: str = "\x04") -> int:
        """The status with which the session ends behind these keys."""
        os.write(self.keys, keys.encode())
        while True:
            try:
                if not os.read(self.keys, 65536):
                    break
            except OSError:
                break
        _, ended = os.waitpid(self.process, 0)
        os.close(self.keys)
        self.process = 0
        return os.WEXITSTATUS(ended)


class Session(ToolTest):
    def begin(self, *words: str, hac: Optional[Path] = None, **environment: str) -> Terminal:
        home = self.made / "home"
        home.mkdir(exist_ok=True)
        unwanted = ("VISUAL", "EDITOR", "PAGER", "COLUMNS")
        given = {
            **{name: value for name, value in os.environ.items() if name not in unwanted},
            "HAC": str(hac or HAC),
            "HOME": str(home),
            "TERM": "dumb",
            "INPUTRC": "/dev/null",
            "PYTHONIOENCODING": "utf-8",
            "LC_ALL": "C.UTF-8",
            **environment,
        }
        terminal = Terminal([*words, str(self.store)], given)
        self.addCleanup(terminal.close)
        return terminal

    def begun(self, *lines: str, **environment: str) -> Terminal:
        """A session on a new store, in which these commands were done."""
        self.make_store(*lines)
        terminal = self.begin(**environment)
        terminal.until(PROMPT)
        return terminal

    def test_commands(self) -> None:
        terminal = self.begun("mkdir /a", "write /a/x apple\\nx\\x1b[31m")
        self.assertEqual(terminal.typed("ls /a"), "ls /a\nf x\nok\n")
        self.assertEqual(terminal.typed("cat /a/x"), "cat /a/x\n= apple\\nx\\x1b[31m\nok\n")
        self.assertEqual(terminal.typed("rm /a"), "rm /a\nno not-file /a\n")
        self.assertEqual(terminal.typed("fly").split("\n")[:2], ["fly", "no bad-line"])
        self.assertEqual(terminal.typed(""), "\n")
        self.assertEqual(terminal.typed("# note"), "# note\n")
        self.assertEqual(terminal.typed("index"), "index\nok\n")
        self.assertIn("use `edit PATH`", terminal.typed('"put" /x 3'))
        self.assertEqual(terminal.typed("ls"), "ls\nd a\nok\n")
        self.assertEqual(terminal.end(), 0)

    def test_the_prompt_shows_where_the_session_stands(self) -> None:
        terminal = self.begun("mkdir /a", 'mkdir "/a/to do"', "write /a/x apple")
        self.assertEqual(terminal.typed("cd /a", "store:/a> "), "cd /a\nok\n")
        self.assertEqual(terminal.typed("ls", "store:/a> "), "ls\nd to do\nf x\nok\n")
        self.assertEqual(terminal.typed("cd none", "store:/a> "), "cd none\nno no-path /a/none\n")
        self.assertEqual(terminal.typed('cd "to do"', "store:/a/to do> "), 'cd "to do"\nok\n')
        self.assertEqual(terminal.typed("mv /a /ä", "store:/ä/to do> "), "mv /a /ä\nok\n")
        self.assertEqual(terminal.typed("cat ../x", "store:/ä/to do> "), "cat ../x\n= apple\nok\n")
        self.assertEqual(terminal.typed("cd"), "cd\nok\n")

    def test_another_session(self) -> None:
        terminal = self.begun("mkdir /a", "write /a/x apple")
        self.assertEqual(terminal.typed("@bob cd /a"), "@bob cd /a\nok\n")
        self.assertEqual(terminal.typed(" @bob  cat x"), " @bob  cat x\n= apple\nok\n")
        self.assertEqual(terminal.typed("@bob find a b"), f"@bob find a b\n{' ' * (len(PROMPT) + 12)}^ no bad-query 3\n")
        self.assertIn("use `edit PATH`", terminal.typed("@bob put x 3"))
        for line in ("@bob exit", "@bob edit x", "@bob help", "@bob", "@b! ls"):
            self.assertEqual(terminal.typed(line).split("\n")[:2], [line, "no bad-line"])

    def test_line_editing_and_history(self) -> None:
        terminal = self.begun("mkdir /a")
        self.assertTrue(terminal.typed("l /\x01\x06s").endswith("\nd a\nok\n"))
        self.assertTrue(terminal.typed("lx\x7fs /a").endswith("\nok\n"))
        self.assertTrue(terminal.typed("write /h apple").endswith("\nok\n"))
        self.assertEqual(terminal.end("exit\n"), 0)
        terminal = self.begin()
        terminal.until(PROMPT)
        terminal.typed("rm /h")
        self.assertEqual(terminal.typed("\x10\x10\x10").splitlines()[-1], "ok")  # exit, write: two above `rm /h`
        self.assertEqual(self.home_history()[-1], "write /h apple")
        self.assertEqual(terminal.end("quit\n"), 0)
        self.assertEqual(self.ask("cat /h"), ["= apple", "ok"])

    def home_history(self) -> List[str]:
        return (self.made / "home/.hac_history").read_text().splitlines()[:-1]

    def test_completion(self) -> None:
        terminal = self.begun(
            "mkdir /notes", 'mkdir "/notes/to do"', 'write "/notes/to do/x" apple', "write /notes/monday pear"
        )
        self.assertTrue(terminal.typed("sforg\t/a /b").splitlines()[0].startswith("sforget /a /b"))
        self.assertTrue(terminal.typed("cat /no\tmo\t").endswith("= pear\nok\n"))
        self.assertTrue(terminal.typed('ls "/notes/t\t"').endswith("f x\nok\n"))
        self.assertTrue(terminal.typed("ls /notes/t\t\"").endswith("f x\nok\n"))
        self.assertTrue(terminal.typed('cat "/no\tto\tx\t').endswith("= apple\nok\n"))
        self.assertIn("\nok\n", terminal.typed("find {/no\t} AND pear"))
        self.assertTrue(terminal.typed("cd no\t", "store:/notes> ").endswith("\nok\n"))
        self.assertTrue(terminal.typed("cat mo\t", "store:/notes> ").endswith("= pear\nok\n"))

    def test_the_caret(self) -> None:
        """Each mistake of the page on queries, and the same line with a caret under the byte that is named."""
        terminal = self.begun()
        page = (Path(__file__).parents[2] / "docs/queries.md").read_text().partition("## When a query is refused")[2]
        examples = re.findall(r"^    (\w.*)\n    ( *\^ no bad-query \d+)$", page, re.MULTILINE)
        self.assertGreater(len(examples), 10)
        for line, marked in examples:
            with self.subTest(line=line):
                self.assertEqual(terminal.typed(line), f"{line}\n{' ' * len(PROMPT)}{marked}\n")

    def test_the_caret_under_wide_signs(self) -> None:
        terminal = self.begun()
        self.assertEqual(terminal.typed("find äö中 !"), f"find äö中 !\n{' ' * (len(PROMPT) + 10)}^ no bad-query 9\n")
        line = '  setq  "/a \\" b"  a b'
        self.assertEqual(terminal.typed(line), f"{line}\n{' ' * (len(PROMPT) + 21)}^ no bad-query 4\n")

    def test_help(self) -> None:
        terminal = self.begun()
        self.assertEqual(terminal.typed("help no-path"), "help no-path\nno-path: nothing is at this path\n")
        self.assertEqual(terminal.typed("help mv"), "help mv\nmv PATH PATH: move an entry to a path where nothing is\n")
        self.assertIn("limit texts: all texts", terminal.typed("help limit"))
        self.assertIn("no such command or cause", terminal.typed("help fly"))
        self.assertIn("\nsmkdir PATH QUERY", terminal.typed("help"))

    def test_what_to_say_instead(self) -> None:
        terminal = self.begun("write /a apple")
        for line, said in {
            "rm -r /a": "(`rm` takes one file and no options; a tree goes file by file, and each empty directory by `rmdir`)",
            "cp /a /b": "(nothing copies a file; `edit` a new path, or `write` it)",
            "grep apple": "(`find QUERY` lists the files that have a word, as in `find apple*`; hac-find shows their lines)",
            "apple": "(`help` lists the commands; `find WORD` looks for a word)",
            "mv /a": "(it is said as `mv PATH PATH`; a path with spaces stands in quotes)",
        }.items():
            self.assertEqual(terminal.typed(line).replace("\n", ""), f"{line}no bad-line{said}")
        waits = "(1 files are to be indexed: `find` looks at texts as they were indexed; say `index`)"
        self.assertEqual(terminal.typed("find apple"), f"find apple\nok\n{waits}\n")
        terminal.typed("index")
        self.assertEqual(terminal.typed("find apple"), "find apple\nf /a\nok\n")

    def test_edit(self) -> None:
        editor = self.script("editor", 'cat "$1" >>"$SEEN"', 'printf "more\\n" >>"$1"')
        seen = self.made / "seen"
        terminal = self.begun("write /a one\\n", EDITOR=str(editor), SEEN=str(seen), TMPDIR=str(self.made))
        self.assertEqual(terminal.typed("edit /a"), "edit /a\nok\n")
        self.assertEqual(terminal.typed("edit /new"), "edit /new\nok\n")
        self.assertEqual(terminal.typed("edit /x/y"), "edit /x/y\nno no-path /x\n")
        self.assertEqual(terminal.typed("edit /"), "edit /\nno not-file /\n")
        self.assertIn("one path is wanted", terminal.typed("edit"))
        terminal.end()
        self.assertEqual(self.tree(), {"/a": "one\\nmore\\n", "/new": "more\\n"})
        self.assertEqual(seen.read_text(), "one\n")
        self.assertEqual(list(self.made.glob("hac-*")), [])

    def test_edit_by_a_relative_path(self) -> None:
        editor = self.script("editor", 'echo more >>"$1"')
        terminal = self.begun("mkdir /a", "mkdir /b", "write /a/x one\\n", EDITOR=str(editor), TMPDIR=str(self.made))
        terminal.typed("cd /a", "store:/a> ")
        for line, answer in {
            "edit x": "ok",
            "edit new": "ok",
            "edit ../b/new": "ok",
            "edit none/x": "no no-path /a/none",
            "edit ..": "no not-file /",
        }.items():
            self.assertEqual(terminal.typed(line, "store:/a> "), f"{line}\n{answer}\n")
        terminal.end()
        self.assertEqual(
            self.tree(), {"/a": "d", "/b": "d", "/a/new": "more\\n", "/a/x": "one\\nmore\\n", "/b/new": "more\\n"}
        )

    def test_edit_through_a_link(self) -> None:
        editor = self.script("editor", 'echo more >>"$1"')
        made = ("mkdir /a", "write /a/x one\\n", "ln a/x /l", "ln /a/new /n", "ln /none/x /m", "ln /a /d")
        terminal = self.begun(*made, EDITOR=str(editor), TMPDIR=str(self.made))
        for line, answer in {
            "edit /l": "ok",
            "edit /n": "ok",
            "edit /d/y": "ok",
            "edit /d": "no not-file /a",
            "edit /d/none/x": "no no-path /a/none",
        }.items():
            self.assertEqual(terminal.typed(line), f"{line}\n{answer}\n")
        self.assertIn("no no-path /none\nyour text is kept in ", terminal.typed("edit /m"))
        terminal.end()
        tree = self.tree()
        self.assertEqual([tree[f"/a/{name}"] for name in ("x", "new", "y")], ["one\\nmore\\n", "more\\n", "more\\n"])
        self.assertEqual([tree[path] for path in ("/l", "/n", "/m")], ["-> a/x", "-> /a/new", "-> /none/x"])

    def test_files_are_indexed_by_themselves(self) -> None:
        self.make_store("write /a apple", "write /b apple", "write /c apple")
        terminal = self.begin("--tick", "1")
        terminal.until(PROMPT)
        # The shell has asked once, and behind each command it asks where it stands.
        self.assertEqual(terminal.typed("find apple"), "find apple\nf /a\nok\n")
        self.assertEqual(terminal.typed("find apple"), "find apple\nf /a\nf /b\nf /c\nok\n")
        self.assertEqual(terminal.end(), 0)
        terminal = self.begin("--tick=0")
        terminal.until(PROMPT)
        terminal.typed("write /d apple")
        self.assertIn("find apple\nf /a\nf /b\nf /c\nok\n(1 files are to be indexed", terminal.typed("find apple"))
        self.assertEqual(terminal.end(), 0)

    def test_an_edited_text_is_not_lost(self) -> None:
        large = self.script("large", 'head -c 1048577 /dev/zero | tr "\\0" x >"$1"')
        terminal = self.begun("write /a one", EDITOR=str(large), TMPDIR=str(self.made))
        said = terminal.typed("edit /a")
        self.assertIn("no limit text\nyour text is kept in ", said)
        self.assertEqual(Path(said.split(" ")[-1].strip()).stat().st_size, 1_048_577)
        terminal.end()
        self.assertEqual(self.tree(), {"/a": "one"})

    def test_an_edited_text_is_not_lost_where_hac_ends(self) -> None:
        self.make_store("write /a one")
        editor = self.script("editor", 'echo two >"$1"')
        terminal = self.begin(hac=self.ends_after(2, 5, "hac: disk fault"), EDITOR=str(editor), TMPDIR=str(self.made))
        terminal.until(PROMPT)
        os.write(terminal.keys, b"edit /a\n")
        said = terminal.until("Every command that was answered is in the store, and at most one more.\r\n")
        kept = re.search(r"your text is kept in (\S+)", said)
        assert kept is not None
        self.assertEqual(Path(kept[1]).read_text(), "two\n")
        self.assertEqual(terminal.end(""), 5)

    def test_an_editor_that_fails(self) -> None:
        terminal = self.begun("write /a one", EDITOR="false", VISUAL="", TMPDIR=str(self.made))
        self.assertIn("the editor ended with status 1", terminal.typed("edit /a"))
        terminal.end()
        terminal = self.begin(EDITOR="/no/editor")
        terminal.until(PROMPT)
        self.assertIn("can't be run", terminal.typed("edit /a"))

    def test_open(self) -> None:
        terminal = self.begun("write /a one\\ntwo", PAGER="sed s/^/>/")
        self.assertEqual(terminal.typed("open /a"), "open /a\n>one\n>two")
        self.assertEqual(terminal.typed("open /"), "open /\nno not-file /\n")
        terminal.end()
        terminal = self.begin(PAGER="/no/pager")
        terminal.until(PROMPT)
        self.assertEqual(terminal.typed("open /a"), "open /a\n= one\\ntwo\n")

    def test_control_c_ends_a_line_alone(self) -> None:
        terminal = self.begun()
        os.write(terminal.keys, b"ls /none")
        terminal.until("ls /none")
        time.sleep(0.3)  # A signal that comes before Python waits for a key again is noticed at the next key.
        os.write(terminal.keys, b"\x03")
        terminal.until(PROMPT)
        self.assertEqual(terminal.typed("ls"), "ls\nok\n")

    def test_control_c_drops_an_answer_alone(self) -> None:
        """A hac that thinks for long about `ls /slow`: the prompt is back at once, and later answers are their own."""
        slow = self.made / "slow-hac"
        slow.write_text(_SLOW.format(python=sys.executable, hac=str(HAC)))
        slow.chmod(0o755)
        self.make_store("mkdir /slow", "write /slow/a x", "mkdir /b")
        terminal = self.begin(hac=slow)
        terminal.until(PROMPT)
        os.write(terminal.keys, b"ls /slow\n")
        terminal.until("ls /slow\r\n")
        time.sleep(0.3)
        began = time.monotonic()
        os.write(terminal.keys, b"\x03")
        self.assertIn("the answer is dropped", terminal.until(PROMPT))
        self.assertLess(time.monotonic() - began, 1.5)
        self.assertEqual(terminal.typed("ls"), "ls\nd b\nd slow\nok\n")
        self.assertEqual(terminal.typed("ls /none"), "ls /none\nno no-path /none\n")
        self.assertEqual(terminal.end(), 0)

    def test_control_c_is_the_editors(self) -> None:
        editor = self.script("editor", "trap 'echo heard' INT", "echo ready", "sleep 1", 'echo apple > "$1"')
        terminal = self.begun(EDITOR=str(editor))
        os.write(terminal.keys, b"edit /a\n")
        terminal.until("ready\r\n")
        os.write(terminal.keys, b"\x03")
        self.assertIn("heard", terminal.until(PROMPT))
        self.assertEqual(terminal.typed("cat /a"), "cat /a\n= apple\\n\nok\n")

    def test_stores_that_cannot_be_opened(self) -> None:
        terminal = self.begin()
        self.assertIn("there is no such file; `hac-shell --new` makes a new store", terminal.until("new store\r\n"))
        self.assertEqual(terminal.end(""), 5)
        self.assertEqual(list(self.made.iterdir()), [self.made / "home"])
        self.store.write_bytes(b"x")
        terminal = self.begin()
        self.assertIn("not a store at byte 0", terminal.until("to it.\r\n"))
        self.assertEqual(terminal.end(""), 6)
        terminal = self.begin("--new")
        self.assertIn("there is a file already", terminal.until("to it\r\n"))
        self.assertEqual(terminal.end(""), 1)
        self.store.unlink()
        terminal = self.begin("--new")
        terminal.until(PROMPT)
        self.assertEqual(terminal.typed("ls"), "ls\nok\n")

    def test_without_a_terminal_it_is_hac(self) -> None:
        words = [sys.executable, str(TOOLS / "hac-shell")]
        given = {**os.environ, "HAC": str(HAC)}
        script = b"mkdir /a\nput /b 3\nx\nyls\nfind a AND\n"
        ran = subprocess.run([*words, "--new", self.store], input=script, capture_output=True, env=given)
        self.assertEqual((ran.returncode, ran.stdout), (1, b"ok\nok\nd a\nf b\nok\nno bad-query 6\n"))
        ran = subprocess.run([*words, self.store], stdin=subprocess.DEVNULL, capture_output=True, env=given)
        self.assertEqual((ran.returncode, ran.stdout, ran.stderr), (0, b"", b""))
        ran = subprocess.run([*words, "--new", self.store], stdin=subprocess.DEVNULL, capture_output=True, env=given)
        self.assertEqual((ran.returncode, ran.stderr), (10, b"hac: already a store\n"))
        script = b"find x*\nfind x*\n"
        ran = subprocess.run([*words, "--tick", "1", self.store], input=script, capture_output=True, env=given)
        self.assertEqual((ran.returncode, ran.stdout), (0, b"ok\nf /b\nok\n"))
        for number in ("x", "01", "65537", "-1", "", "1 ", "١"):
            faulty = [*words, "--tick", number, self.store]
            ran = subprocess.run(faulty, stdin=subprocess.DEVNULL, capture_output=True, env=given)
            self.assertEqual((ran.returncode, ran.stdout), (2, b""), number)


_SLOW = """\
#!{python}
import os, subprocess, sys, time

if "--new" in sys.argv:
    os.execv({hac!r}, [{hac!r}, *sys.argv[1:]])
run = subprocess.Popen([{hac!r}, *sys.argv[1:]], stdin=subprocess.PIPE)
for line in sys.stdin.buffer:
    if b"/slow" in line:
        time.sleep(3)
    run.stdin.write(line)
    run.stdin.flush()
run.stdin.close()
sys.exit(run.wait())
"""


class Lines(unittest.TestCase):
    def test_a_folded_line_is_shown_around_the_byte(self) -> None:
        line = b"find " + b"a OR " * 30 + b"! OR b"
        lines = shell.marked(PROMPT, line, Reply(refusal=b"bad-query 151"), COLUMNS).splitlines()
        self.assertEqual(lines[0][lines[1].index("^")], "!")
        self.assertEqual(lines[1].strip(), "^ no bad-query 151")
        self.assertTrue(all(len(shown) < COLUMNS for shown in lines))

    def test_words(self) -> None:
        self.assertEqual(shell.next_word(b'  "a \\" b" c', 0), (b'a " b', 10))
        self.assertEqual(shell.next_word(b'a"b c', 0), (b'a"b', 3))
        self.assertEqual(shell.next_word(b'"open', 0), (None, 5))
        self.assertEqual(shell.next_word(b"  ", 0), (None, 2))


class Completion(ToolTest):
    def test_lines(self) -> None:
        self.make_store(
            "mkdir /notes",
            'mkdir "/notes/to do"',
            'write "/notes/to do/x" a',
            "write /notes/mon a",
            "smkdir /notes/s}\\ a",
            'write "/q\\"" a',
        )
        for typed, wanted in {
            b"sm": [b"smkdir "],
            b"coun": [b"counts"],
            b"s": [b"setq ", b"sforget ", b"sln ", b"sls ", b"smkdir ", b"srm "],
            b"fly ": [],
            b"cat /n": [b"cat /notes/"],
            b"cat n": [b"cat notes/"],
            b"cat /notes/m": [b"cat /notes/mon "],
            b"cat /notes/t": [b'cat "/notes/to do/'],
            b'cat "/notes/t': [b'cat "/notes/to do/'],
            b'cat "/notes/to do/': [b'cat "/notes/to do/x" '],
            b"cat /q": [b'cat /q" '],
            b'cat "/q': [b'cat "/q\\"" '],
            b"cat /notes/mon /": [],
            b"mv /notes/mon /n": [b"mv /notes/mon /notes/"],
            b"ls /none/": [],
            b"find {/n": [b"find {/notes/"],
            b"find a AND {/notes/s": [b"find a AND {/notes/s\\}\\\\/"],
            b"find {/notes} AND ": [],
            b"smkdir /x {/notes/t": [b"smkdir /x {/notes/to do/"],
            b"write /x {/n": [],
            b"help no-p": [b"help no-path"],
            b"@b": [],
            b"@bob": [],
            b" @bob  cou": [b" @bob  counts"],
        }.items():
            with self.subTest(typed=typed), Hac(self.store) as hac:
                self.assertEqual(shell.Completer(hac).lines(typed), wanted)

    def test_links_are_completed_as_what_they_lead_to(self) -> None:
        self.make_store("mkdir /notes", "write /notes/mon a")
        self.ask("ln notes /to-notes", "ln notes/mon /to-mon", "ln /none /to-none", 'ln . "/to self"')
        with Hac(self.store) as hac:
            for typed, wanted in {
                b"cat /to-n": [b"cat /to-none ", b"cat /to-notes/"],
                b"cat /to-m": [b"cat /to-mon "],
                b"cat /to-notes/": [b"cat /to-notes/mon "],
                b'ls "/to ': [b'ls "/to self/'],
                b"ln not": [b"ln notes/"],
                b"readl": [b"readlink "],
                b"find {/to-": [b"find {/to-notes/"],
            }.items():
                with self.subTest(typed=typed):
                    self.assertEqual(shell.Completer(hac).lines(typed), wanted)

    def test_lines_where_the_session_stands(self) -> None:
        self.make_store("mkdir /notes", 'mkdir "/notes/to do"', "write /notes/mon a", "mkdir /old", "write /old/mon a")
        with Hac(self.store) as hac:
            self.assertTrue(hac.ask(b"cd /notes").ok)
            self.assertTrue(hac.ask(b"@bob cd /old").ok)
            for typed, wanted in {
                b"cat m": [b"cat mon "],
                b"cat t": [b'cat "to do/'],
                b"cat ../o": [b"cat ../old/"],
                b"cat /o": [b"cat /old/"],
                b"@bob cat m": [b"@bob cat mon "],
                b"@bob cat t": [],
                b"@bob mv mon /n": [b"@bob mv mon /notes/"],
                b"@amy cat n": [b"@amy cat notes/"],
                b"@b! cat n": [],
                b"find {m": [],
                b"find {/o": [b"find {/old/"],
            }.items():
                with self.subTest(typed=typed):
                    self.assertEqual(shell.Completer(hac).lines(typed), wanted)
