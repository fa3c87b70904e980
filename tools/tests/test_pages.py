"""Each tool's --help is its page in docs/tools.md, and each tool runs as it stands in the folder."""

from __future__ import annotations

import ast
import os
import re
import signal
import subprocess
import sys
import tempfile
import textwrap
import unittest

from tests.support import HAC, TOOLS, ToolTest

from hac_client import VERSION

NAMES = ("hac-shell", "hac-sync", "hac-mail", "hac-find", "hac-view", "hac-mount", "hac-web", "hac-catalogue")

# What a module of ours uses besides the standard library.
LIBRARIES = {"hac_mount_kernel.py": {"pyfuse3", "trio"}}


class Pages(unittest.TestCase):
    def test_help_is_the_page(self) -> None:
        pages = (TOOLS.parent / "docs/tools.md").read_text()
        for tool in NAMES:
            with self.subTest(tool=tool):
                ran = subprocess.run([TOOLS / tool, "--help"], stdin=subprocess.DEVNULL, capture_output=True)
                self.assertEqual((ran.returncode, ran.stderr), (0, b""))
                page = textwrap.indent(ran.stdout.decode(), "    ", lambda line: line.strip() != "")
                self.assertIn(f"## {tool}: ", pages)
                self.assertIn(f"\n\n{page}\n", pages)

    def test_wrong_words(self) -> None:
        for tool in NAMES:
            with self.subTest(tool=tool):
                ran = subprocess.run([TOOLS / tool, "--nonsense"], stdin=subprocess.DEVNULL, capture_output=True)
                self.assertEqual((ran.returncode, ran.stdout), (2, b""))
                self.assertTrue(ran.stderr.startswith(f"usage: {tool} ".encode()))

    def test_an_option_that_there_is_not_is_told_first(self) -> None:
        for tool in NAMES:
            for option in ("--nonsense", "--nonsense=3", "-z"):
                ran = subprocess.run([TOOLS / tool, option], stdin=subprocess.DEVNULL, capture_output=True)
                self.assertIn(f"there is no option {option.partition('=')[0]}".encode(), ran.stderr)
            ran = subprocess.run([TOOLS / tool, "--version"], stdin=subprocess.DEVNULL, capture_output=True)
            self.assertEqual((ran.returncode, ran.stdout), (0, f"{tool} {VERSION}\n".encode()))

    def test_control_c_while_a_tool_begins(self) -> None:
        """Another argparse, which the tools take in before they run, sends them the signal."""
        with tempfile.TemporaryDirectory() as made:
            with open(f"{made}/argparse.py", "w") as stand_in:
                stand_in.write("import os, signal\nos.kill(os.getpid(), signal.SIGINT)\n")
            for tool in NAMES:
                with self.subTest(tool=tool):
                    ran = subprocess.run(
                        [sys.executable, TOOLS / tool, "--help"],
                        stdin=subprocess.DEVNULL,
                        capture_output=True,
                        env={**os.environ, "PYTHONPATH": made},
                    )
                    self.assertEqual((ran.returncode, ran.stdout, ran.stderr), (-signal.SIGINT, b"", b""))

    def test_python_3_8_reads_them(self) -> None:
        files = [TOOLS / tool for tool in NAMES] + sorted(TOOLS.glob("*.py")) + sorted((TOOLS / "tests").glob("*.py"))
        for file in files:
            with self.subTest(file=file.name):
                ast.parse(file.read_text(), feature_version=(3, 8))

    def test_nothing_but_the_standard_library(self) -> None:
        if sys.version_info < (3, 10):
            self.skipTest("this Python doesn't list its library")
        own = {path.stem for path in TOOLS.glob("*.py")}
        for file in [TOOLS / tool for tool in NAMES] + sorted(TOOLS.glob("*.py")):
            for node in ast.walk(ast.parse(file.read_text())):
                names = []
                if isinstance(node, ast.Import):
                    names = [alias.name for alias in node.names]
                elif isinstance(node, ast.ImportFrom):
                    names = [node.module or ""]
                known = own | set(sys.stdlib_module_names) | LIBRARIES.get(file.name, set())
                for name in names:
                    self.assertIn(name.partition(".")[0], known, f"{file.name}: {name}")


class FirstFolder(ToolTest):
    def test_the_first_session(self) -> None:
        """The commands of docs/first_folder.md, one after the other, do what the page says."""
        page = (TOOLS.parent / "docs/first_folder.md").read_text()
        commands = re.findall(r"^    ((?:tools/|echo |ls ).*)$", page, re.MULTILINE)
        self.assertEqual(len(commands), 7)
        notes = self.made / "notes"
        (notes / "garden").mkdir(parents=True)
        (notes / "garden/monday.txt").write_text("Call about apple trees\n")
        (notes / "shopping.txt").write_text("Bread, Apples\n")
        (notes / "cake.txt").write_text("Apple cake\n")
        (self.made / "tools").symlink_to(TOOLS)
        (self.made / "hac").symlink_to(HAC)
        said = {}
        for command in commands:
            ran = subprocess.run(
                ["sh", "-c", command],
                cwd=self.made,
                stdin=subprocess.DEVNULL,
                capture_output=True,
                env={**os.environ, "HOME": str(self.made), "HAC": str(HAC)},
            )
            self.assertEqual((ran.returncode, ran.stderr), (0, b""), command)
            said[command] = ran.stdout.decode()
        self.assertEqual(said["ls ~/by-content/apples"], "monday.txt\nshopping.txt\n")
        self.assertEqual(os.readlink(self.made / "by-content/apples/monday.txt"), f"{notes}/garden/monday.txt")
        self.store = self.made / "notes.hac"
        self.assertEqual(
            self.ask("find apple* AND NOT cake"), ["f /notes/garden/monday.txt", "f /notes/shopping.txt", "ok"]
        )
