#!/usr/bin/env python3
"""How fast the store is on a real file. Prints a line for each run of these two:

1. 10,000 `write` of new files in 100 directories and one `index`, against demo/appends.c, which writes and syncs as
   many records of that size by itself. The two take turns, so many times as the first word says (5).
2. Opening a store of so many events as the further words say (125,000, 250,000, 500,000 and 1,000,000), of which as
   many files stand as may: the time, and the memory that the process takes. The store is written here by the rules of
   docs/store.md; its last events write files over. Each is opened three times, and the quickest is told.

The files lie in the folder that TMPDIR names. ./hac proves and builds the program first, where it must.

  demo/speed.py 5 1000000
"""
import os
import statistics
import subprocess
import sys
import tempfile
import time

TOP = os.path.dirname(os.path.dirname(os.path.abspath(__file__)))
PROGRAM = f"{TOP}/crates/hac/out/hac"
FILES, DIRS = 65536, 1000


def seconds(words, script):
    """How long a program runs."""
    with tempfile.TemporaryFile() as given:
        given.write(script)
        given.seek(0)
        began = time.monotonic()
        subprocess.run(words, stdin=given, stdout=subprocess.DEVNULL, check=True)
        return time.monotonic() - began


def opened(words):
    """How long it takes until a first command is answered, and the most memory that the process has had by then, in MB."""
    began = time.monotonic()
    with subprocess.Popen(words, stdin=subprocess.PIPE, stdout=subprocess.PIPE) as started:
        started.stdin.write(b"ls\n")
        started.stdin.flush()
        for line in started.stdout:
            if line == b"ok\n":
                break
        else:
            sys.exit(f"speed: {words} ended with no reply")
        took = time.monotonic() - began
        with open(f"/proc/{started.pid}/status") as status:
            most = [line.split()[1] for line in status if line.startswith("VmHWM:")]
        started.stdin.close()
    return took, int(most[0]) / 1000


def appends(folder, turns):
    """A file's record has a payload of 104 bytes: 15, a name of 5 and a text of 84. The index adds 10,000 of 2."""
    count = 10000
    lines = [f"mkdir /{n}" for n in range(100)]
    lines += [f"write /{n % 100}/{10000 + n} " + "apple pie " * 8 + "pear" for n in range(count)]
    script = "\n".join([*lines, "index"]).encode()
    raw = f"{folder}/appends"
    subprocess.run(["cc", "-O2", "-o", raw, f"{TOP}/demo/appends.c"], check=True)
    pairs = []
    for turn in range(turns):
        ours = seconds([PROGRAM, "--new", f"{folder}/store{turn}"], script)
        theirs = seconds([raw, str(len(lines)), f"{folder}/raw{turn}"], b"")
        pairs.append((ours, theirs))
        print(f"{count} writes and one index: {ours:.3f} s; {len(lines)} appends alone: {theirs:.3f} s; ratio {ours / theirs:.3f}")
    print(f"median of {turns} ratios: {statistics.median(ours / theirs for ours, theirs in pairs):.3f}")


def number(value):
    return value.to_bytes(4, "little")


def record(kind, *fields):
    payload = bytes([1, kind]) + b"".join(fields)
    return b"\1" + number(len(payload)) + payload


def name(text):
    return bytes([len(text)]) + text.encode()


def text(words):
    return number(len(words)) + words.encode()


def many_events(path, events):
    """Writes a store: the directories, the files in them, and then files that are written over."""
    head = b"\1HACSTOR1\1" + (1).to_bytes(8, "little") + (64).to_bytes(8, "little") + bytes(38)
    with open(path, "wb") as out:
        out.write(head)
        for n in range(DIRS):
            out.write(record(1, number(0), name(f"d{n}")))
        for n in range(FILES):
            out.write(record(2, number(1 + n % DIRS), name(f"f{n}"), text(f"note {n}")))
        for n in range(events - DIRS - FILES):
            out.write(record(3, number(1 + DIRS + n % FILES), text(f"note {n}, again")))
        out.write(b"\0")
        return out.tell()


def openings(folder, counts):
    took, most = opened([PROGRAM, "--new", f"{folder}/empty"])
    print(f"a new store: {took:.3f} s, {most:.1f} MB")
    for events in counts:
        path = f"{folder}/events{events}"
        size = many_events(path, events)
        took, most = min(opened([PROGRAM, path]) for _ in range(3))
        print(
            f"{events} events, {FILES} files, {size / 1e6:.1f} MB: {took:.3f} s, {most:.1f} MB;"
            f" {took / events * 1e9:.0f} ns an event"
        )
        os.remove(path)


def main():
    words = [int(word) for word in sys.argv[1:]]
    subprocess.run([f"{TOP}/hac"], stdin=subprocess.DEVNULL, stdout=subprocess.DEVNULL)
    with tempfile.TemporaryDirectory() as folder:
        appends(folder, words[0] if words else 5)
        openings(folder, words[1:] or [125000, 250000, 500000, 1000000])


main()
