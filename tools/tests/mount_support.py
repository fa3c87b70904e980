"""What the tests of mounts share: a store that is shown in a folder, while a test works in it."""

from __future__ import annotations

import errno
import os
import subprocess
import time
from contextlib import contextmanager
from pathlib import Path
from typing import Callable, Iterator, List, Optional

from tests.support import HAC, TOOLS, ToolTest


class MountTest(ToolTest):
    """A test with a folder at which its store is shown, once it is mounted."""

    def setUp(self) -> None:
        super().setUp()
        self.folder = self.made / "mnt"
        self.folder.mkdir()
        self.log = self.made / "log"
        self.process: Optional["subprocess.Popen[bytes]"] = None
        self.addCleanup(self._end)

    def mount(self, *words: str, spaces: List[str] = [], hac: Path = HAC) -> Path:
        """Shows the store, a new one where there is none."""
        new = [] if self.store.exists() else ["--new"]
        self.process = subprocess.Popen(
            [TOOLS / "hac-mount", *new, "--log", self.log, *words, self.store, self.folder, *spaces],
            stdin=subprocess.DEVNULL,
            stdout=subprocess.PIPE,
            stderr=subprocess.PIPE,
            env={**os.environ, "HAC": str(hac)},
        )
        assert self.process.stdout is not None
        said = self.process.stdout.readline()
        if said != f"{self.store} is shown at {self.folder}\n".encode():
            assert self.process.stderr is not None
            self.fail((said, self.process.stderr.read()))
        return self.folder

    def unmount(self, status: int = 0) -> bytes:
        """Unmounts the folder, and gives what was said on standard error."""
        subprocess.run(["fusermount3", "-u", self.folder], check=True)
        return self.ended(status)

    def ended(self, status: int = 0) -> bytes:
        """Waits until the mount has ended."""
        assert self.process is not None
        out, said = self.process.communicate(timeout=60)
        self.assertEqual((self.process.returncode, out), (status, b""), said)
        self.assertFalse(os.path.ismount(self.folder))
        return said

    def _end(self) -> None:
        if self.process is None:
            return
        if self.process.poll() is None:
            self.process.kill()
        self.process.communicate()
        subprocess.run(["fusermount3", "-u", "-q", "-z", self.folder], stderr=subprocess.DEVNULL)

    @contextmanager
    def refused(self, error: int) -> Iterator[None]:
        """What is done here ends with this error of the system."""
        with self.assertRaises(OSError) as raised:
            yield
        self.assertEqual(errno.errorcode[raised.exception.errno or 0], errno.errorcode[error])

    def soon(self, wanted: object, seen: Callable[[], object]) -> None:
        """What is seen is as it is wanted within a second, or ten where the machine has much else to do."""
        until = time.monotonic() + 10
        while seen() != wanted and time.monotonic() < until:
            time.sleep(0.02)
        self.assertEqual(seen(), wanted)

    def links(self, directory: str) -> List[str]:
        """The symbolic links in a folder of the mount, each as `NAME -> TARGET`."""
        place = self.folder / directory
        return [f"{path.name} -> {os.readlink(path)}" for path in sorted(place.iterdir()) if path.is_symlink()]

    def mark(self, link: str) -> bytes:
        return os.getxattr(self.folder / link, "system.hac.mark", follow_symlinks=False)

    def set_query(self, directory: str, query: str) -> None:
        os.setxattr(self.folder / directory, "user.hac.query", query.encode())

    def fault(self, directory: str = "") -> str:
        """What hac said when it last refused something in a directory."""
        return os.getxattr(self.folder / directory, "user.hac.fault").decode().partition(" (")[0]

    def run_in(self, *words: str, at: str = "") -> str:
        """What a program says that runs in the mount."""
        ran = subprocess.run(
            words, cwd=self.folder / at, stdin=subprocess.DEVNULL, capture_output=True, encoding="utf-8", timeout=300
        )
        self.assertEqual(ran.returncode, 0, (words, ran.stdout, ran.stderr))
        return ran.stdout
