"""The names of links: how what a semantic directory has is called where it is shown as a folder."""

from __future__ import annotations

from collections import Counter
from typing import Iterator, List, Set, Tuple

from hac_client import MAX_NAME, cut


def names_for(files: List[bytes], taken: Set[bytes]) -> Iterator[Tuple[bytes, bytes]]:
    """A name for each file: its own where no other has it, else those of its path, cut and numbered if need be."""
    used = set(taken)
    often = Counter(file.rpartition(b"/")[2] for file in files)
    for file in files:
        name = file.rpartition(b"/")[2]
        if often[name] == 1 and name not in taken:
            used.add(name)
            yield name, file
    for file in files:
        name = file.rpartition(b"/")[2]
        if often[name] > 1 or name in taken:
            name = unused(b" - ".join(file[1:].split(b"/")), used)
            used.add(name)
            yield name, file


def unused(name: bytes, used: Set[bytes]) -> bytes:
    """The name, or its beginning with the first number behind it that makes another name."""
    if len(name) <= MAX_NAME and name not in used:
        return name
    count = 2
    while True:
        ending = b" (%d)" % count
        candidate = cut(name, MAX_NAME - len(ending)) + ending
        if candidate not in used:
            return candidate
        count += 1
