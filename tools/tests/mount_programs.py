"""What people and programs do in a folder, done in a mounted store; what comes out is compared with a folder beside it."""

from __future__ import annotations

import os
import random
import shutil
import subprocess
import unittest
from pathlib import Path

from tests.mount_support import MountTest


def has(*programs: str) -> bool:
    return all(shutil.which(program) for program in programs)


def make_files(folder: Path, count: int) -> None:
    """A folder of files whose names and texts are drawn."""
    draw = random.Random(count)
    for number in range(count):
        place = folder / f"{number % 10}" / f"{number % 7}"
        place.mkdir(parents=True, exist_ok=True)
        size = draw.choice((0, 1, 100, 3_000, 20_000))
        (place / f"note {number}.txt").write_bytes(draw.randbytes(size))


class Programs(MountTest):
    def setUp(self) -> None:
        super().setUp()
        self.top = self.mount()
        self.beside = self.made / "beside"
        self.beside.mkdir()

    def same(self, one: Path, other: Path) -> None:
        """Both folders have the same files, directories and symbolic links."""
        ran = subprocess.run(["diff", "-r", "--no-dereference", one, other], capture_output=True)
        self.assertEqual((ran.returncode, ran.stdout, ran.stderr), (0, b"", b""))

    def again(self) -> None:
        self.unmount()
        self.mount()

    def test_copies(self) -> None:
        make_files(self.beside, 60)
        os.symlink("0/0", self.beside / "link")
        self.run_in("cp", "-r", str(self.beside), "copied")
        self.run_in("cp", "-a", str(self.beside), "archived")
        self.again()
        self.same(self.beside, self.top / "copied")
        self.same(self.beside, self.top / "archived")
        self.run_in("mv", "copied/0", "archived/1/moved")
        self.run_in("mv", "copied", "renamed")
        self.same(self.beside / "0", self.top / "archived/1/moved")
        self.run_in("cp", "-r", "renamed", str(self.made / "back"))
        shutil.rmtree(self.beside / "0")
        self.same(self.beside, self.made / "back")
        self.run_in("rm", "-r", "renamed", "archived")
        self.again()
        self.assertEqual(os.listdir(self.top), [])

    @unittest.skipUnless(has("rsync"), "rsync isn't here")
    def test_rsync(self) -> None:
        make_files(self.beside, 1_000)
        self.run_in("rsync", "-a", f"{self.beside}/", "notes/")
        said = self.run_in("rsync", "-a", "--itemize-changes", f"{self.beside}/", "notes/")
        self.assertEqual(said, "")  # The times are kept while it is mounted, so nothing comes twice.
        self.again()
        self.assertEqual(self.run_in("rsync", "-rlc", "--itemize-changes", f"{self.beside}/", "notes/"), "")
        self.run_in("rsync", "-a", "notes/", f"{self.made}/back/")
        self.same(self.beside, self.made / "back")
        shutil.rmtree(self.beside / "3")
        self.run_in("rsync", "-rlc", "--delete", f"{self.beside}/", "notes/")
        self.same(self.beside, self.top / "notes")

    def test_tar(self) -> None:
        make_files(self.beside, 60)
        subprocess.run(["tar", "-C", self.beside, "-cf", self.made / "a.tar", "."], check=True)
        self.run_in("tar", "-xf", str(self.made / "a.tar"))
        self.again()
        self.same(self.beside, self.top)
        self.run_in("tar", "-cf", str(self.made / "b.tar"), ".")
        (self.made / "back").mkdir()
        subprocess.run(["tar", "-C", self.made / "back", "-xf", self.made / "b.tar"], check=True)
        self.same(self.beside, self.made / "back")

    def test_ways_to_save(self) -> None:
        note = self.top / "note"
        note.write_text("one\n")
        self.run_in("sed", "-i", "s/one/two/", "note")
        self.assertEqual(note.read_text(), "two\n")
        self.run_in("sh", "-c", "echo three >note")  # Truncate and write.
        self.assertEqual(note.read_text(), "three\n")
        self.run_in("sh", "-c", "cp note note~ && echo four >note && rm note~")
        # A backup by renaming, a new file, and the backup goes: so vim may save.
        os.rename(note, self.top / "note~")
        with open(note, "x") as file:
            file.write("five\n")
            os.fsync(file.fileno())
        os.unlink(self.top / "note~")
        # A temporary file that is synced, and takes the place: so do most.
        with open(self.top / ".note.swp", "x") as file:
            file.write("six\n")
            os.fsync(file.fileno())
        os.chmod(self.top / ".note.swp", 0o644)
        os.replace(self.top / ".note.swp", note)
        folder = os.open(self.top, os.O_RDONLY)
        os.fsync(folder)
        os.close(folder)
        self.assertEqual(os.listdir(self.top), ["note"])
        self.again()
        self.assertEqual(note.read_text(), "six\n")

    @unittest.skipUnless(has("vi"), "vi isn't here")
    def test_vi(self) -> None:
        (self.top / "note").write_text("one\n")
        subprocess.run(
            ["vi", "-es", "-u", "NONE", "note"], cwd=self.top, input=b"%s/one/two/\nwq\n", timeout=60, check=True
        )
        self.assertEqual((self.top / "note").read_text(), "two\n")

    def test_find_and_grep(self) -> None:
        make_files(self.beside, 40)
        for name in ("a", "b"):
            (self.beside / name).write_text("apple\npear\n")
        self.run_in("cp", "-r", f"{self.beside}/.", ".")
        for words in (["find", "."], ["find", ".", "-size", "+1k", "-type", "f"], ["grep", "-rl", "pear", "."]):
            wanted = subprocess.run(words, cwd=self.beside, capture_output=True, check=True, encoding="utf-8").stdout
            self.assertEqual(sorted(self.run_in(*words).splitlines()), sorted(wanted.splitlines()))
        self.again()
        self.assertEqual(sorted(self.run_in("grep", "-rl", "pear", ".").splitlines()), ["./a", "./b"])

    @unittest.skipUnless(has("git"), "git isn't here")
    def test_git(self) -> None:
        make_files(self.top / "work", 30)
        self.run_in("git", "init", "-q", at="work")
        self.run_in("git", "add", ".", at="work")
        by = ("-c", "user.name=Anna", "-c", "user.email=anna@example.org")
        self.run_in("git", *by, "commit", "-qm", "first", at="work")
        self.again()
        self.assertEqual(self.run_in("git", "status", "--short", at="work"), "")
        self.assertEqual(self.run_in("git", "fsck", "--no-progress", at="work"), "")
        (self.top / "work/new").write_text("x")
        os.rename(self.top / "work/1", self.top / "work/moved")
        self.run_in("git", "add", "-A", at="work")
        self.run_in("git", *by, "commit", "-qm", "second", at="work")
        self.run_in("git", "gc", "-q", at="work")
        self.run_in("git", "checkout", "-q", "HEAD~1", at="work")
        self.assertFalse((self.top / "work/new").exists())
        self.run_in("git", "clone", "-q", "work", "cloned")
        self.run_in("git", "clone", "-q", "work", str(self.made / "cloned"))
        self.same(self.made / "cloned/1", self.top / "cloned/1")

    @unittest.skipUnless(has("fio"), "fio isn't here")
    def test_fio(self) -> None:
        """Small files written at drawn places, synced, and read back and verified."""
        self.run_in(
            "fio", "--name=small", "--nrfiles=20", "--filesize=64k", "--size=1280k", "--rw=randrw", "--bs=1k-8k",
            "--ioengine=psync", "--verify=crc32c", "--fsync=50", "--file_service_type=random", "--allow_file_create=1",
            "--output-format=terse",
        )  # fmt: skip
