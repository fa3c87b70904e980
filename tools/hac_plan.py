"""What a sync is to do, what it did, and how it goes on by itself. It knows no store and no folder."""

from __future__ import annotations

import signal
import time
from dataclasses import dataclass, field
from types import FrameType
from typing import Callable, Dict, Iterator, List, Optional, Tuple


@dataclass
class Plan:
    remove: List[bytes] = field(default_factory=list)
    rename: List[Tuple[bytes, bytes]] = field(default_factory=list)
    remove_directories: List[bytes] = field(default_factory=list)
    write: List[bytes] = field(default_factory=list)

    def __len__(self) -> int:
        return len(self.remove) + len(self.rename) + len(self.remove_directories) + len(self.write)

    def paths(self) -> Iterator[bytes]:
        """The files that it touches."""
        yield from self.remove
        for renamed in self.rename:
            yield from renamed
        yield from self.write


@dataclass
class Done:
    """What was done, and what wasn't."""

    new: int = 0
    changed: int = 0
    renamed: int = 0
    removed: int = 0
    left_out: Dict[bytes, str] = field(default_factory=dict)
    refused: Dict[bytes, str] = field(default_factory=dict)
    deleted: List[bytes] = field(default_factory=list)

    def is_something(self) -> bool:
        """The store isn't what it was."""
        return bool(self.new or self.changed or self.renamed or self.removed or self.deleted)


@dataclass(frozen=True)
class Options:
    check: bool = False
    replace: bool = False
    delete: bool = False
    # The store isn't the one of last time, or nothing is known of the last time.
    is_other: bool = False
    quiet: bool = False


# Going on.

SECONDS = 2.0
# Where something was refused.
LATER = 30.0
_STEP = 0.1
_SIGNALS = (signal.SIGINT, signal.SIGTERM, signal.SIGHUP)


def watch(once: Callable[[bool], float]) -> int:
    """Does this again and again, as many seconds behind the last time as that says. A signal that ends programs ends it between two times, so nothing is cut
    off. `once` is told whether it is the first time."""
    ended: List[int] = []

    def end(number: int, frame: Optional[FrameType]) -> None:
        ended.append(number)

    before = {number: signal.signal(number, end) for number in _SIGNALS}
    try:
        is_first = True
        while not ended:
            until = time.monotonic() + once(is_first)
            is_first = False
            while not ended and time.monotonic() < until:
                time.sleep(_STEP)
    finally:
        for number, handler in before.items():
            signal.signal(number, handler)
    return 0
