#!/usr/bin/env python3
"""Times what people do in a mounted store, beside the same in a folder: a line for each, with both times in seconds.

usage: demo/mount_speed.py [FILES]

The store has FILES files (20,000 where it isn't said) of about 900 bytes in 100 directories, and a semantic directory
with links to half of them. It runs the program that HAC names, or the one that ./hac builds.
"""

from __future__ import annotations

import os
import random
import shutil
import subprocess
import sys
import tempfile
import time
from pathlib import Path
from typing import Dict, List

TOP = Path(__file__).resolve().parent.parent
sys.path.insert(0, str(TOP / "tools"))

from hac_client import Hac, find_program  # noqa: E402

WORDS = [word for word in (TOP / "docs/manual.md").read_text().split() if word.isalpha() and word != "apple"]


def make(store: Path, folder: Path, files: int) -> None:
    """A store, and a folder that has the same."""
    draw = random.Random(1)
    with Hac(store, make=True) as hac:
        hac.mkdir(b"/n")
        for number in range(100):
            hac.mkdir(b"/n/%d" % number)
            (folder / f"n/{number}").mkdir(parents=True)
        for number in range(files):
            text = " ".join(draw.choices(WORDS, k=150)) + (" apple\n" if number % 2 == 0 else "\n")
            hac.put(b"/n/%d/f%d" % (number % 100, number), text.encode())
            (folder / f"n/{number % 100}/f{number}").write_text(text)
        hac.ask(b"smkdir /q apple")
        hac.index()
        hac.ask(b"checkpoint")
    (folder / "q").mkdir()
    for number in range(0, files, 2):
        (folder / f"q/f{number}").symlink_to(f"../n/{number % 100}/f{number}")


def timed(folder: Path, notes: Path) -> Dict[str, float]:
    times = {}
    for name, words in (
        ("`ls -l` of the links, the first time", ["ls", "-l", "q"]),
        ("again", ["ls", "-l", "q"]),
        ("`ls` of the links", ["ls", "q"]),
        ("`grep -r` over all files, the first time", ["grep", "-r", "zebra", "n"]),
        ("again", ["grep", "-r", "zebra", "n"]),
        ("`ls -lR` of all files", ["ls", "-lR", "n"]),
        ("`rsync -a` of 1,000 notes into it", ["rsync", "-a", f"{notes}/", "in/"]),
        ("`cp -r` of 1,000 notes into it", ["cp", "-r", str(notes), "copied"]),
    ):
        began = time.monotonic()
        subprocess.run(words, cwd=folder, stdout=subprocess.DEVNULL, stdin=subprocess.DEVNULL)
        times[name if name != "again" else f"{last}, again"] = time.monotonic() - began
        last = name.partition(",")[0]
    return times


def until_shown(folder: Path) -> float:
    """The longest of ten times from a change until a directory shows it."""
    took: List[float] = []
    for number in range(10):
        began = time.monotonic()
        (folder / f"n/0/new{number}").write_text("an apple")
        while not (folder / f"q/new{number}").is_symlink():
            time.sleep(0.005)
        took.append(time.monotonic() - began)
    return max(took)


def main() -> int:
    files = int(sys.argv[1]) if len(sys.argv) > 1 else 20_000
    os.environ["HAC"] = str(find_program())
    with tempfile.TemporaryDirectory() as name:
        made = Path(name)
        store, beside, mount, notes = made / "s.hac", made / "beside", made / "mnt", made / "notes"
        for folder in (beside, mount, notes):
            folder.mkdir()
        make(store, beside, files)
        for number in range(1_000):
            (notes / f"note {number}").write_text(" ".join(WORDS[number % 300 : number % 300 + 150]))
        began = time.monotonic()
        subprocess.run([TOP / "tools/hac-mount", "--background", store, mount], check=True)
        print(f"mounted\t{time.monotonic() - began:.2f}")
        try:
            here, there = timed(mount, notes), timed(beside, notes)
            for what, took in here.items():
                print(f"{what}\t{took:.2f}\t{there[what]:.2f}", flush=True)
            print(f"a change until a directory shows it\t{until_shown(mount):.2f}")
        finally:
            subprocess.run(["fusermount3", "-u", "-z", mount], check=True)
            shutil.rmtree(beside)
    return 0


if __name__ == "__main__":
    sys.exit(main())
