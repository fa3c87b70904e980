"""How a mount begins and ends: well, or with words that say why; and what was synced is in the store."""

from __future__ import annotations

import errno
import os
import signal
import subprocess
import time
from pathlib import Path
from typing import Dict
from unittest.mock import patch

from tests.mount_support import MountTest
from tests.support import HAC, TOOLS, load

from hac_client import ToolError


class Beginnings(MountTest):
    def refuses(self, *words: object, status: int = 1, said: str) -> None:
        """hac-mount doesn't mount, and says why."""
        ran = subprocess.run(
            [TOOLS / "hac-mount", *words], stdin=subprocess.DEVNULL, capture_output=True, encoding="utf-8", timeout=60
        )
        self.assertEqual((ran.returncode, ran.stdout), (status, ""), ran.stderr)
        self.assertIn(said, ran.stderr)
        self.assertNotIn("Traceback", ran.stderr)

    def test_slips(self) -> None:
        self.refuses(self.store, self.folder, said="there is no such file; --new makes a store")
        self.assertFalse(self.store.exists())
        self.make_store("write /a x")
        text = self.made / "text"
        text.write_text("no store")
        full = self.made / "full"
        full.mkdir()
        (full / "a").touch()
        for words, status, said in (
            ([self.store], 2, "usage: hac-mount"),
            ([self.store, self.folder, "x"], 2, "not NAME=FILE: x"),
            ([self.store, self.folder, "x=y", "x=z"], 2, "a NAME of its own"),
            ([self.store, self.folder, "x=" + str(self.made / "none")], 8, "a catalogue has a bad line, or can't be read"),
            (["--new", self.store, self.folder], 1, "something is there already"),
            ([self.store, self.made / "none"], 1, "there is no such folder"),
            ([self.store, text], 1, "not a folder"),
            ([self.store, full], 1, "the folder isn't empty"),
            ([self.store, self.made], 1, "the folder isn't empty"),
            ([text, self.folder], 6, "the file isn't a store"),
            ([full, self.folder], 1, "a folder, and no store"),
            (["--log", self.made / "none/log", self.store, self.folder], 1, "No such file or directory"),
            (["--log", self.folder / "log", self.store, self.folder], 1, "the log can't lie in the folder"),
        ):
            with self.subTest(said=said):
                self.refuses(*words, status=status, said=said)
        self.assertEqual(text.read_text(), "no store")

    def test_a_store_that_another_has(self) -> None:
        self.make_store("write /a x")
        with subprocess.Popen([HAC, self.store], stdin=subprocess.PIPE, stdout=subprocess.PIPE) as other:
            assert other.stdin is not None and other.stdout is not None
            other.stdin.write(b"ls\n")
            other.stdin.flush()
            other.stdout.readline()
            self.refuses(self.store, self.folder, status=5, said="another run")
        self.mount()
        (self.made / "view").mkdir()
        ran = self.run_tool("hac-view", self.store, self.made / "view", status=5)
        self.assertIn(b"another tool has this store open", ran.stderr)
        self.unmount()

    def test_without_pyfuse3(self) -> None:
        tool = load("hac-mount")
        with patch("importlib.util.find_spec", lambda name: None), patch.object(tool, "_SYSTEM_PYTHON", "/none"):
            with self.assertRaises(ToolError) as raised:
                tool.find_python()
        self.assertIn("python3-pyfuse3 and fuse3", str(raised.exception))

    def test_in_the_background(self) -> None:
        subprocess.run(
            [TOOLS / "hac-mount", "--new", "--background", self.store, self.folder],
            stdin=subprocess.DEVNULL,
            check=True,
            timeout=60,
        )
        (self.folder / "a").write_text("x")
        with self.refused(errno.EPERM):
            self.set_query("", "a")
        subprocess.run(["fusermount3", "-u", self.folder], check=True)
        self.soon(True, lambda: self._is_free())
        self.assertEqual(self.tree(), {"/a": "x"})
        self.assertIn(" /: root (", (self.made / "store.mount").read_text())
        self.refuses("--background", "--new", self.store, self.folder, said="something is there already")

    def _is_free(self) -> bool:
        return subprocess.run([HAC, self.store], input=b"", capture_output=True).returncode == 0

    def test_for_reading(self) -> None:
        self.make_store("write /a apple", "smkdir /q apple")
        before = self.store.read_bytes()
        top = self.mount("--read-only")
        self.assertEqual((top / "a").read_text(), "apple")
        for change in (
            lambda: (top / "a").write_text("x"),
            lambda: os.unlink(top / "a"),
            lambda: os.mkdir(top / "d"),
            lambda: self.set_query("q", "pear"),
        ):
            with self.refused(errno.EROFS):
                change()
        time.sleep(0.5)
        self.unmount()
        self.assertEqual(self.store.read_bytes(), before)


class Ends(MountTest):
    def told(self) -> Path:
        """A hac that writes down its process."""
        return self.script("hac-told", f"echo $$ >>{self.made}/pids", f'exec "{HAC}" "$@"')

    def kill_hac(self) -> None:
        os.kill(int((self.made / "pids").read_text().split()[-1]), signal.SIGKILL)

    def test_signals(self) -> None:
        for count, number in enumerate((signal.SIGINT, signal.SIGTERM, signal.SIGHUP)):
            top = self.mount()
            file = os.open(top / f"{count}", os.O_WRONLY | os.O_CREAT)
            os.write(file, b"open still")
            assert self.process is not None
            self.process.send_signal(number)
            self.assertEqual(self.ended(), b"")
            with self.refused(errno.ENOTCONN):
                os.write(file, b"more")
            with self.refused(errno.ENOTCONN):
                os.close(file)
            self.assertEqual(self.ask(f"cat /{count}"), ["= open still", "ok"])

    def test_hac_is_killed(self) -> None:
        top = self.mount(hac=self.told())
        (top / "closed").write_text("one")
        file = open(top / "synced", "wb", buffering=0)
        file.write(b"two")
        os.fsync(file.fileno())
        file.write(b" and what isn't synced")
        self.kill_hac()
        with self.refused(errno.EIO):
            os.fsync(file.fileno())
        with self.refused(errno.EIO):
            file.close()
        for change in (
            lambda: (top / "closed").read_text(),
            lambda: os.listdir(top),
            lambda: (top / "new").write_text("x"),
            lambda: os.mkdir(top / "d"),
            lambda: os.statvfs(top),
        ):
            with self.refused(errno.EIO):
                change()
        said = self.unmount(status=128 + signal.SIGKILL)
        self.assertIn(b"hac was ended by the signal SIGKILL", said)
        self.assertIn("hac was ended by the signal SIGKILL", self.log.read_text())
        self.mount()
        self.assertEqual({name: (top / name).read_text() for name in os.listdir(top)}, {"closed": "one", "synced": "two"})

    def test_killed_while_files_are_written(self) -> None:
        for victim in ("hac", "mount"):
            with self.subTest(victim=victim):
                self.store = self.made / f"store-{victim}"
                self._write_until_killed(victim)

    def _write_until_killed(self, victim: str) -> None:
        top = self.mount(hac=self.told())
        writer = subprocess.Popen(
            ["sh", "-c", "n=0; while echo $n >$n.tmp && mv $n.tmp $n; do echo $n; n=$((n+1)); done"],
            cwd=top,
            stdout=subprocess.PIPE,
            stderr=subprocess.DEVNULL,
        )
        time.sleep(1)
        if victim == "hac":
            self.kill_hac()
        else:
            assert self.process is not None
            self.process.kill()
        assert writer.stdout is not None
        done = writer.stdout.read().split()
        writer.wait()
        writer.stdout.close()
        if victim == "hac":
            self.unmount(status=128 + signal.SIGKILL)
        else:
            assert self.process is not None
            self.process.communicate()
            subprocess.run(["fusermount3", "-u", "-q", self.folder], stderr=subprocess.DEVNULL)
        self.assertGreater(len(done), 3)
        self.mount()
        found: Dict[str, str] = {name: (top / name).read_text() for name in os.listdir(top)}
        self.unmount()
        for name in map(bytes.decode, done):
            self.assertEqual(found.pop(name), f"{name}\n")
        # Besides there is at most what was under way, whole.
        last = str(len(done))
        self.assertLessEqual(set(found), {last, f"{last}.tmp"})

    def test_a_disk_that_fails(self) -> None:
        self.make_store("write /a x")
        top = self.mount("--no-index", hac=self.ends_after(4, 5, "hac: disk fault"))
        with self.refused(errno.EIO):
            for count in range(5):
                (top / f"{count}").write_text("x")
        with self.refused(errno.EIO):
            os.listdir(top)
        self.assertIn(b"the disk may be full or failing", self.unmount(status=5))

    def test_a_full_disk(self) -> None:
        disk = self.made / "disk"
        disk.mkdir()
        ran = subprocess.run(["mount", "-t", "tmpfs", "-o", "size=256k", "none", disk], capture_output=True)
        if ran.returncode != 0:
            self.skipTest("a small disk can't be mounted here")
        self.addCleanup(subprocess.run, ["umount", "-l", disk], check=True)
        self.store = disk / "store"
        top = self.mount("--no-index")
        (top / "a").write_text("kept")
        with self.assertRaises(OSError) as raised:
            for count in range(30):
                (top / f"{count}").write_bytes(b"x" * 20_000)
        self.assertIn(raised.exception.errno, (errno.ENOSPC, errno.EIO))
        self.assertIn(b"the disk is full", self.unmount(status=5))
        subprocess.run(["mount", "-o", "remount,size=4m", disk], check=True)
        self.mount()
        self.assertEqual((top / "a").read_text(), "kept")
        self.unmount()

    def test_a_busy_folder(self) -> None:
        top = self.mount()
        with open(top / "a", "w"):
            ran = subprocess.run(["fusermount3", "-u", self.folder], capture_output=True)
            self.assertNotEqual(ran.returncode, 0)
            self.assertTrue((top / "a").exists())
        self.unmount()
