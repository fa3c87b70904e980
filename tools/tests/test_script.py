"""./hac: which program runs, when it is built, and what is said of it. A stand-in for the toolchain proves and builds."""

from __future__ import annotations

import os
import shutil
import subprocess
import time
import unittest
from pathlib import Path
from typing import List, Optional, Tuple

from tests.support import TOOLS, ToolTest

UNPROVED = "hac: this build isn't proved; ./hac --prove proves it, in half an hour to an hour"
BUILDING = "hac: building without the proofs, for a first reply; this takes two minutes or so"
PROVING = "hac: proving and building; from nothing this takes half an hour to an hour on four processors"


class Script(ToolTest):
    def setUp(self) -> None:
        super().setUp()
        self.top = self.made / "a clone"
        for crate, file in (("hac", "main.rt"), ("low", "lib.rt"), ("other", "lib.rt")):
            (self.top / "crates" / crate / "src").mkdir(parents=True)
            (self.top / "crates" / crate / "src" / file).write_text("// a source\n")
        (self.top / "crates.txt").write_text("hac: low\nlow:\nother: low\n")
        (self.top / "HANDLES").write_text("Handles allowed: none.\n")
        shutil.copy(TOOLS.parent / "hac", self.top / "hac")
        self.kit = self.made / "kit"
        (self.kit / "bin").mkdir(parents=True)
        (self.kit / "bin/rattle").touch()
        self.stand_in("rt", _RT)
        # The script waits by it for signs that proofs are kept.
        self.stand_in("sleep", "exec /bin/sleep 0.02")
        time.sleep(0.02)  # A source that is as old as what tells of a build isn't newer.

    def stand_in(self, name: str, lines: str) -> None:
        path = self.kit / "bin" / name
        path.write_text(f"#!/bin/sh\nKIT='{self.kit}'\n{lines}\n")
        path.chmod(0o755)

    def begin(self, *words: str, folder: Optional[Path] = None) -> "subprocess.Popen[str]":
        return subprocess.Popen(
            [self.top / "hac", *words],
            stdin=subprocess.DEVNULL,
            stdout=subprocess.PIPE,
            stderr=subprocess.PIPE,
            text=True,
            cwd=folder or self.top,
            env={
                **os.environ,
                "PATH": f"{self.kit / 'bin'}:{os.environ['PATH']}",
                "PROVING": "yes" if words[0] in ("--prove", "--proved") else "",
            },
        )

    def ran(self, *words: str, status: int = 0, folder: Optional[Path] = None) -> Tuple[str, List[str]]:
        """What is written, and the lines that are said besides."""
        with self.begin(*words, folder=folder) as run:
            out, said = run.communicate(timeout=60)
        self.assertEqual(run.returncode, status, said)
        return out.rstrip("\n"), said.splitlines()

    def calls(self, verb: str) -> int:
        log = self.kit / "log"
        return log.read_text().split().count(verb) if log.exists() else 0

    def test_the_first_reply_is_not_proved(self) -> None:
        self.assertEqual(self.ran("--new", "x"), ("unproved --new x", [BUILDING, UNPROVED]))
        self.assertEqual(self.ran("x y"), ("unproved x y", [UNPROVED]))
        self.assertEqual(self.ran("x", folder=Path("/")), ("unproved x", [UNPROVED]))
        self.assertEqual(self.calls("try"), 1)
        self.assertEqual(self.ran("--program")[0], f"{self.top}/out/unproved/hac")
        self.assertEqual(list(self.top.glob("**/*.rt")), list((self.top / "crates").glob("**/*.rt")))

    def test_proved_before_on_this_machine(self) -> None:
        (self.kit / "kept").touch()
        self.assertEqual(self.ran("x"), ("proved x", []))
        self.assertEqual(self.ran("x"), ("proved x", []))
        self.assertEqual((self.calls("try"), self.calls("ci")), (0, 1))
        self.assertEqual(self.ran("--program"), (f"{self.top}/crates/hac/out/hac", []))

    def test_prove_puts_the_proved_one_in_its_place(self) -> None:
        self.ran("x")
        told = ["hac: low is proved, 1 of 2", "hac: hac is proved, 2 of 2"]
        done = f"hac: proved: {self.top}/crates/hac/out/hac"
        self.assertEqual(self.ran("--prove"), ("", [PROVING, *told, done]))
        self.assertEqual(self.ran("x", folder=Path("/")), ("proved x", []))
        self.assertEqual(self.ran("--prove"), ("", [done]))

    def test_proved_alone(self) -> None:
        self.ran("x")
        self.assertEqual(self.ran("--proved", "x")[0], "proved x")
        self.assertEqual(self.ran("x"), ("proved x", []))

    def test_what_is_not_proved_is_never_taken_for_it(self) -> None:
        self.ran("x")
        (self.kit / "refuses").touch()
        out, said = self.ran("--proved", "x", status=1)
        self.assertEqual((out, said[-1]), ("", "rt: low NOT PROVED"))
        self.assertEqual(self.ran("--prove", status=1)[0], "")
        self.assertEqual(self.ran("x"), ("unproved x", [UNPROVED]))

    def test_a_source_that_changes(self) -> None:
        self.ran("x")
        time.sleep(0.02)
        (self.top / "crates/low/src/lib.rt").write_text("// another\n")
        self.assertEqual(self.ran("x"), ("unproved x", [BUILDING, UNPROVED]))
        self.ran("--prove")
        time.sleep(0.02)
        (self.top / "crates/low/src/lib.rt").write_text("// a third\n")
        self.assertEqual(self.ran("x"), ("unproved x", [BUILDING, UNPROVED]))

    def test_how_far_it_is(self) -> None:
        self.ran("x")
        slow = self.kit / "slow"
        slow.touch()
        with self.begin("--prove") as proving:
            try:
                assert proving.stderr is not None
                said = [proving.stderr.readline().rstrip("\n") for _ in range(2)]
                answered = self.ran("x")
            finally:
                slow.unlink()
                proving.communicate(timeout=60)
        self.assertEqual(said, [PROVING, "hac: low is proved, 1 of 2"])
        self.assertEqual(answered, ("unproved x", [f"{UNPROVED} (1 of 2 crates are proved)"]))
        self.assertEqual(proving.returncode, 0)
        self.assertEqual(self.ran("x"), ("proved x", []))

    def test_what_cannot_be_built(self) -> None:
        (self.kit / "fails").touch()
        out, said = self.ran("x", status=1)
        self.assertEqual((out, said[1]), ("", "error: no such name"))
        self.assertIn("./hac --prove proves and builds it", said[-1])

    def test_help_proves_nothing(self) -> None:
        (self.kit / "bin/rt").unlink()
        for word in ("--help", "-h"):
            out, said = self.ran(word)
            self.assertIn("--install [PREFIX]", out)
            self.assertEqual(said, [])
        usage = "usage: hac [--new] [--tick N] [--make NUMBER] STORE [NAME=FILE]..."
        self.assertEqual(out.splitlines()[0], usage)
        self.assertIn(usage, (TOOLS.parent / "docs/manual.md").read_text())


# It proves two crates, or says that they are kept, and builds a program that says what it is. As the real one it builds
# what it tries in a folder that goes behind that.
_RT = r"""
program() {
    mkdir -p "$(dirname "$2")"
    {
        echo '#!/bin/sh'
        echo 'for word; do case "$word" in kept=*) cat "${word#kept=}" ;; esac; done'
        echo "echo $1"' "$@"'
        head -c 200000 /dev/zero | tr '\0' '#'
    } >"$2"
    chmod 700 "$2"
}
echo "$1" >>"$KIT/log"
case "$1" in
    doc) echo "$KIT/START-HERE.md" ;;
    ci)
        if [ -e "$KIT/refuses" ]; then echo "rt: low NOT PROVED"; exit 1; fi
        for name in low hac; do
            if [ -e "$KIT/kept" ]; then
                echo "rt: $name is kept: an earlier run proved it"
            else
                # Where ./hac only looks whether all is kept, a proof takes as long as it is let.
                if [ -z "$PROVING" ]; then exec /bin/sleep 600; fi
                echo "rt: $name proved"
            fi
            while [ -e "$KIT/slow" ]; do /bin/sleep 0.05; done
        done
        program proved crates/hac/out/hac
        ;;
    try)
        if [ -e "$KIT/fails" ]; then echo "error: no such name"; exit 2; fi
        made="$(mktemp -d)"
        program unproved "$made/native/program"
        shift 2
        "$made/native/program" "$@"
        rm -rf "$made"
        ;;
esac
"""

if __name__ == "__main__":
    unittest.main()
