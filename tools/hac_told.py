"""How much is told of many places, each with a reason: all of few, and of many how many there are for each reason."""

from __future__ import annotations

from typing import Dict, Iterator, List

from hac_client import shown

# So many of one reason are named one by one, and so many lines there are at most without --list.
FEW = 10
MOST = 40


def told_lines(kind: str, reasons: Dict[bytes, str], every: bool = False) -> Iterator[str]:
    """A line for each place. Unless `every` is asked for, places of one reason share a line where there are many."""
    alike: Dict[str, List[bytes]] = {}
    for place in sorted(reasons):
        alike.setdefault(reasons[place], []).append(place)
    many = {} if every else {reason: places for reason, places in alike.items() if len(places) > FEW}
    alone = [place for place in sorted(reasons) if reasons[place] not in many]
    named = alone if every else alone[:MOST]
    for place in named:
        yield f"{kind}: {shown(place)}: {reasons[place]}"
    for reason, places in sorted(many.items(), key=lambda item: -len(item[1])):
        yield f"{kind}: {len(places):,} places, as {shown(places[0])}: {reason} (--list names all)"
    if len(named) < len(alone):
        yield f"{kind}: {len(alone) - len(named):,} more (--list names all)"


def no_room(out: List[bytes], count: int, size: int) -> str:
    """What is told of files that would find no room, of so many to be written with so many bytes."""
    tops: Dict[bytes, int] = {}
    for path in out:
        top = path.partition(b"/")[0] + (b"/" if b"/" in path else b"")
        tops[top] = tops.get(top, 0) + 1
    most = sorted(tops.items(), key=lambda item: (-item[1], item[0]))
    named = ", ".join(f"{shown(top)} ({often:,})" for top, often in most[:5])
    more = f" and {len(most) - 5:,} more places" if len(most) > 5 else ""
    return (
        f"no room: {count:,} files are to be written, of {size:,} bytes. A store takes 67,108,864 bytes of text and"
        f" 65,536 files, so {len(out):,} would stay out: {named}{more}."
        " --skip leaves out what isn't needed, and several stores may take a part of the folder each"
    )
