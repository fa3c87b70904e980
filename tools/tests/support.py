"""What the tests share: a folder of their own, runs of tools and of hac, and a hac that ends too early."""

from __future__ import annotations

import importlib.machinery
import importlib.util
import os
import signal
import subprocess
import sys
import tempfile
import traceback
import unittest
from pathlib import Path
from types import ModuleType
from typing import Dict, List, NoReturn, Optional

TOOLS = Path(__file__).resolve().parent.parent
sys.path.insert(0, str(TOOLS))

from hac_client import find_program, run_tool  # noqa: E402

HAC = find_program()

# A user without rights of its own, which root's tests become where rights are tested.
NOBODY = 65534

# A shell has what it runs in the background ignore this signal. The tools that the tests start are to hear it.
signal.signal(signal.SIGINT, signal.default_int_handler)


def load(tool: str) -> ModuleType:
    """A tool's own functions."""
    name = tool.replace("-", "_") + "_tool"
    if name not in sys.modules:
        loader = importlib.machinery.SourceFileLoader(name, str(TOOLS / tool))
        spec = importlib.util.spec_from_loader(name, loader)
        assert spec is not None
        module = importlib.util.module_from_spec(spec)
        sys.modules[name] = module
        loader.exec_module(module)
    return sys.modules[name]


class Run:
    """A run of a tool in a process of its own, which is forked: to start Python takes longer than most runs."""

    def __init__(self, tool: str, *words: object, hac: Optional[Path] = None, as_nobody: bool = False) -> None:
        module = load(tool)
        self._words = [tool, *map(str, words)]
        self._out, self._said = tempfile.TemporaryFile(), tempfile.TemporaryFile()
        sys.stdout.flush()
        sys.stderr.flush()
        self.process = os.fork()
        if self.process == 0:
            if as_nobody and os.geteuid() == 0:
                os.setgroups([])
                os.setgid(NOBODY)
                os.setuid(NOBODY)
            self._become(module, hac or HAC)

    def kill(self) -> None:
        os.kill(self.process, signal.SIGKILL)

    def ended(self) -> "subprocess.CompletedProcess[bytes]":
        """Waits for its end."""
        _, ended = os.waitpid(self.process, 0)
        status = -os.WTERMSIG(ended) if os.WIFSIGNALED(ended) else os.WEXITSTATUS(ended)
        with self._out, self._said:
            self._out.seek(0)
            self._said.seek(0)
            return subprocess.CompletedProcess(self._words, status, self._out.read(), self._said.read())

    def _become(self, module: ModuleType, hac: Path) -> NoReturn:
        status = 1
        try:
            with open(os.devnull) as nothing:
                os.dup2(nothing.fileno(), 0)
            os.dup2(self._out.fileno(), 1)
            os.dup2(self._said.fileno(), 2)
            sys.stdout, sys.stderr = open(1, "w", encoding="utf-8"), open(2, "w", encoding="utf-8")
            os.environ["HAC"] = str(hac)
            sys.argv = self._words
            run_tool(self._words[0], module.main)
        except SystemExit as ended:
            status = ended.code if isinstance(ended.code, int) else 1
        except BaseException:
            traceback.print_exc()
        finally:
            sys.stdout.flush()
            sys.stderr.flush()
            os._exit(status)


class ToolTest(unittest.TestCase):
    """A test with an empty folder, in which its store lies."""

    def setUp(self) -> None:
        # Each command is two syncs, so the stores lie in memory where the machine has a folder there.
        memory = "/dev/shm" if os.access("/dev/shm", os.W_OK) else None
        made = tempfile.TemporaryDirectory(prefix="hac-tools-", dir=memory)
        self.addCleanup(made.cleanup)
        self.made = Path(made.name)
        self.store = self.made / "store"

    def run_tool(
        self, tool: str, *words: object, status: int = 0, hac: Optional[Path] = None, as_nobody: bool = False
    ) -> "subprocess.CompletedProcess[bytes]":
        ran = Run(tool, *words, hac=hac, as_nobody=as_nobody).ended()
        self.assertEqual(ran.returncode, status, (words, ran.stdout, ran.stderr))
        return ran

    def ask(self, *lines: str) -> List[str]:
        """The replies of hac to a script."""
        ran = subprocess.run([HAC, self.store], input="\n".join(lines).encode(), capture_output=True)
        self.assertIn(ran.returncode, (0, 1), ran.stderr)
        return ran.stdout.decode("utf-8", "surrogateescape").splitlines()

    def make_store(self, *lines: str) -> None:
        ran = subprocess.run([HAC, "--new", self.store], input="\n".join(lines).encode(), capture_output=True)
        self.assertEqual(ran.returncode, 0, (ran.stdout, ran.stderr))

    def tree(self, place: str = "/") -> Dict[str, str]:
        """What is below a place of the store, by path: a directory's letter, a file's text as `cat` shows it, or an arrow
        and where a symbolic link leads."""
        found: Dict[str, str] = {}
        with subprocess.Popen([HAC, self.store], stdin=subprocess.PIPE, stdout=subprocess.PIPE) as run:
            assert run.stdin is not None and run.stdout is not None

            def ask(line: str) -> List[str]:
                run.stdin.write(line.encode("utf-8", "surrogateescape") + b"\n")
                run.stdin.flush()
                lines = []
                while lines[-1:] != ["ok"]:
                    line = run.stdout.readline().decode("utf-8", "surrogateescape")
                    self.assertFalse(line == "" or line.startswith("no "), line)
                    lines.append(line.rstrip("\n"))
                return lines[:-1]

            directories = [place]
            for directory in directories:
                for line in ask(f'ls "{directory}"'):
                    path = f"{directory.rstrip('/')}/{line[2:]}"
                    found[path] = line[0]
                    if line[0] == "f":
                        found[path] = ask(f'cat "{path}"')[0][2:]
                    elif line[0] == "l":
                        found[path] = "-> " + ask(f'readlink "{path}"')[0][2:]
                    else:
                        directories.append(path)
        return found

    def numbers(self) -> Dict[str, int]:
        """What `counts` counts."""
        words = self.ask("counts")[0].split(" ")[1:]
        return {word: int(number) for word, number in zip(words[::2], words[1::2])}

    def script(self, name: str, *lines: str) -> Path:
        """A program of a few lines of the shell."""
        path = self.made / name
        path.write_text("\n".join(["#!/bin/sh", *lines, ""]))
        path.chmod(0o755)
        return path

    def ends_after(self, replies: int, status: int, said: str) -> Path:
        """A hac that does what hac does, and ends so behind so many replies: they came, and what they say is done."""
        path = self.made / f"hac-{status}-{replies}"
        values = {"python": sys.executable, "hac": str(HAC), "replies": replies, "status": status, "said": said}
        path.write_text(_ENDS_AFTER.format(**values))
        path.chmod(0o755)
        return path


_ENDS_AFTER = """\
#!{python}
import os, subprocess, sys

if "--new" in sys.argv:
    os.execv({hac!r}, [{hac!r}, *sys.argv[1:]])
run = subprocess.Popen([{hac!r}, *sys.argv[1:]], stdout=subprocess.PIPE)
for _ in range({replies}):
    line = b""
    while line != b"ok\\n" and not line.startswith(b"no "):
        line = run.stdout.readline()
        if not line:
            sys.exit(run.wait())
        os.write(1, line)
run.kill()
run.wait()
print({said!r}, file=sys.stderr)
sys.exit({status})
"""
