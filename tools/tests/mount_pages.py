"""What the pages say of mounts is so: the table of errors, and the first session."""

from __future__ import annotations

import errno
import os
import re
import shutil
import subprocess
import time
import unittest

from tests.mount_support import MountTest
from tests.support import HAC, TOOLS

from hac_client import CAUSES
from hac_mount_faults import ERRORS, error_of

DOCS = TOOLS.parent / "docs"


class Errors(unittest.TestCase):
    def test_the_table(self) -> None:
        table = (DOCS / "mount.md").read_text().partition("## Errors")[2].partition("\n\nBesides")[0]
        told = {}
        for error, causes in re.findall(r"^\| (E[A-Z0-9]+) \| (.*) \|$", table, re.MULTILINE):
            for cause in re.findall("`([^`]+)`", causes):
                told[cause] = error
        self.assertEqual(told, {cause: errno.errorcode[error] for cause, error in ERRORS.items()})
        self.assertEqual(set(told), set(CAUSES))

    def test_refusals(self) -> None:
        for refusal, error in (
            (b"no-path /a/limit text", errno.ENOENT),
            (b"limit text", errno.EFBIG),
            (b"bad-query 3", errno.EINVAL),
            (b"unheard of", errno.EIO),
        ):
            self.assertEqual(error_of(refusal), error)


class FirstMount(MountTest):
    @unittest.skipUnless(shutil.which("setfattr"), "setfattr isn't here (Debian's package attr)")
    def test_the_first_session(self) -> None:
        """The commands of docs/first_mount.md, one after the other, do what the page says."""
        commands = re.findall(r"^    (.*)$", (DOCS / "first_mount.md").read_text(), re.MULTILINE)
        self.assertEqual(len(commands), 14)
        notes = self.made / "notes"
        notes.mkdir()
        (notes / "monday.txt").write_text("Call about apple trees\n")
        (notes / "shopping.txt").write_text("Bread\n")
        (notes / "cake.txt").write_text("Apple cake\n")
        (self.made / "tools").symlink_to(TOOLS)
        home = {**os.environ, "HOME": str(self.made), "HAC": str(HAC), "EDITOR": "sed -i s/Bread/Apples/"}
        self.folder = self.made / "store"
        self.addCleanup(subprocess.run, ["fusermount3", "-u", "-q", "-z", self.folder], stderr=subprocess.DEVNULL)
        said = []
        for command in commands:
            if command.startswith("ls ~/store/apples"):
                time.sleep(1 if os.getloadavg()[0] < 4 else 5)
            ran = subprocess.run(
                ["sh", "-c", command],
                cwd=self.made,
                stdin=subprocess.DEVNULL,
                capture_output=True,
                encoding="utf-8",
                env=home,
            )
            self.assertEqual((ran.returncode, ran.stderr), (0, ""), command)
            said.append(ran.stdout)
        said[-2] = "".join(sorted(said[-2].splitlines(True)))  # `cp` copies in any order.
        self.assertEqual(
            [text for text in said if text],
            [
                "cake.txt\nmonday.txt\nshopping.txt\n",
                "monday.txt\n",
                "Call about apple trees\n",
                "monday.txt\nshopping.txt\n",
                "p /notes/cake.txt\nt /notes/shopping.txt\nx /notes/monday.txt\n",
            ],
        )
        self.store = self.made / "notes.hac"
        self.soon(True, lambda: subprocess.run([HAC, self.store], input=b"", capture_output=True).returncode == 0)
        self.assertEqual(self.ask("query /apples"), ["= apple* AND NOT cake", "ok"])
