#!/usr/bin/env python3
"""How long reading a source, an object and an image takes, and how much memory.

    bench/files.py [--runs N]

Makes each in three sizes, up to a source of 4 MiB and an image of 4,194,304 cells (about 70 MiB), reads each N times (3) by
the small program `read_files`, and prints the size, the least time, the time per MiB, and the peak of memory and how often
the size goes into it. The largest source and image are meant to be read in less than 10 seconds and within 16 times their
size; a source of short lines alone takes more, and is measured beside them. The last line says whether each was; the status
is 0 where all were, else 1."""

import argparse
import os
import subprocess
import sys
import tempfile
import time
from pathlib import Path

TOP = Path(__file__).resolve().parent.parent
PROGRAM = TOP / "crates" / "read_files" / "out" / "read_files"
MIB = 1 << 20
SECONDS, TIMES = 10.0, 16
DIGEST = "0123456789abcdef" * 4


def image(cells):
    """An image of memories of 2 ^ 20 cells of 64 bits, and what is left in one more."""
    out = [f"image 1 {DIGEST}"]
    for number, first in enumerate(range(0, cells, MIB)):
        count = min(MIB, cells - first)
        out.append(f"memory m{number} 64 {MIB} {count}")
        out += [f"{(first + i) * 0x9E3779B97F4A7C15 % (1 << 64):x}" for i in range(count)]
    return "\n".join([*out, "end"]) + "\n"


def grown(size, head, part):
    """A text of about this many bytes: the head, and parts by their numbers."""
    out, length, number = [head], len(head), 0
    while length < size:
        out.append(part(number))
        length += len(out[-1])
        number += 1
    return "".join(out)


def source(size):
    """A source as people write it, with comments and blanks."""
    part = lambda i: (f"; part {i}: adds to a register, and goes back\nname_{i}:\n        ADDI R{i % 2},{i % 32}            ; the next value of the sum\n"
                      f"        BR @(name_{i // 2}-$-2)       ; to the head of the loop\n        .word 0x{i % 256:x}, -{i % 128}\n\n")
    return grown(size, ".section prog\n", part)


def dense(size):
    """A source of short lines without blanks or comments: a line is a value of its own size, however short it is."""
    return grown(size, ".section prog\n", lambda i: f"name_{i}: ADDI R{i % 2},{i % 32}\nBR @(name_{i // 2}-$-2)\n.word 0x{i % 256:x}, -{i % 128}\n")


def objects(size):
    part = lambda i: f"label name_{i}\ncell 80\nfix 0 6 s -2 +name_{i // 2} -$\nequ n_{i} -{i + 1}\nspace {i % 7}\n"
    return grown(size, f"object 1 {DIGEST}\nsection prog 8\n", part) + "end\n"


# What is printed, how it is read, how it is made, and its sizes: bytes, or cells of an image.
SHAPES = (
    ("source", "source", source, (MIB // 4, MIB, 4 * MIB)),
    ("dense", "source", dense, (MIB // 4, MIB, 4 * MIB)),
    ("object", "object", objects, (MIB // 4, MIB, 4 * MIB)),
    ("image", "image", image, (MIB // 16, MIB // 2, 4 * MIB)),
)


def run(kind, path):
    """One run: its seconds, and its peak of memory in bytes."""
    begin = time.monotonic()
    process = subprocess.Popen([str(PROGRAM), kind, str(path)], stdout=subprocess.DEVNULL)
    _, status, used = os.wait4(process.pid, 0)
    process.returncode = os.waitstatus_to_exitcode(status)
    if process.returncode:
        sys.exit(f"read_files {kind} {path}: status {process.returncode}")
    return time.monotonic() - begin, used.ru_maxrss * 1024


def measure(name, kind, path, runs):
    found = [run(kind, path) for _ in range(runs)]
    seconds, peak, size = min(one for one, _ in found), max(one for _, one in found), path.stat().st_size
    print(f"{name:<8} {size / MIB:8.2f} MiB {seconds:8.3f} s {seconds * MIB / size:8.3f} s/MiB {peak / MIB:8.1f} MiB {peak / size:6.1f} x", flush=True)
    return seconds < SECONDS and peak <= TIMES * size


def main():
    parser = argparse.ArgumentParser(description=__doc__.splitlines()[0])
    parser.add_argument("--runs", type=int, default=3)
    words = parser.parse_args()
    if not PROGRAM.exists():
        subprocess.run([os.environ.get("RT", "rt"), "run", "--", "source", "data/source.s"], cwd=PROGRAM.parent.parent, check=True, stdout=subprocess.DEVNULL)
    good = True
    with tempfile.TemporaryDirectory() as folder:
        path = Path(folder) / "file"
        for name, kind, make, sizes in SHAPES:
            for size in sizes:
                path.write_text(make(size), encoding="ascii")
                fits = measure(name, kind, path, words.runs)
                good = good and (fits or size < 4 * MIB or name == "dense")
    print(f"the largest in less than {SECONDS:g} s and within {TIMES} times its size: {'yes' if good else 'NO'}")
    return 0 if good else 1


if __name__ == "__main__":
    sys.exit(main())
