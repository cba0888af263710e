#!/usr/bin/env python3
"""How long it takes to make a step program's module and its text, and how much memory.

    bench/netlist.py [--runs N]

The small program `write_module` makes a program of steps, builds its module and writes the text. Two shapes are tried, up
to about 50,000 nodes of expressions: `chain`, the same sum again and again, each behind the one before, and `mixed`, steps
of many operators on eight items. Each is made N times (3); its nodes, the size of the text, the least time and the peak of
memory are printed. The largest ones are meant to take less than 10 seconds and 2 GiB. The first line is a small program
that reads a cell which it wrote. The last line says whether each large one kept to it; the status is 0 where all did,
else 1."""

import argparse
import os
import subprocess
import sys
import tempfile
import time
from pathlib import Path

TOP = Path(__file__).resolve().parent.parent
PROGRAM = TOP / "crates" / "write_module" / "out" / "write_module"
MIB = 1 << 20
SECONDS, BYTES = 10.0, 2 << 30
LARGE = 50_000

# What a program is called, how many nodes a step of it has, and its numbers of steps.
SHAPES = (
    ("chain", 4, (125, 1_250, 12_500)),
    ("mixed", 13, (40, 400, 3_847)),
)


def run(shape, steps, path):
    """One run: its seconds, and its peak of memory in bytes."""
    begin = time.monotonic()
    with path.open("wb") as out:
        process = subprocess.Popen([str(PROGRAM), shape, str(steps)], stdout=out)
        _, status, used = os.wait4(process.pid, 0)
    process.returncode = os.waitstatus_to_exitcode(status)
    if process.returncode:
        sys.exit(f"write_module {shape} {steps}: status {process.returncode}")
    return time.monotonic() - begin, used.ru_maxrss * 1024


def measure(shape, nodes, steps, path, runs):
    found = [run(shape, steps, path) for _ in range(runs)]
    seconds, peak, size = min(one for one, _ in found), max(one for _, one in found), path.stat().st_size
    print(f"{shape:<6} {nodes:>7} nodes {size:>9} bytes {seconds:8.3f} s {peak / MIB:8.1f} MiB", flush=True)
    return seconds < SECONDS and peak < BYTES


def main():
    parser = argparse.ArgumentParser(description=__doc__.splitlines()[0])
    parser.add_argument("--runs", type=int, default=3)
    words = parser.parse_args()
    if not PROGRAM.exists():
        subprocess.run([os.environ.get("RT", "rt"), "run", "--", "chain", "1"], cwd=PROGRAM.parent.parent, check=True, stdout=subprocess.DEVNULL)
    good = True
    with tempfile.TemporaryDirectory() as folder:
        path = Path(folder) / "module.v"
        measure("cell", 12, 1, path, words.runs)
        for shape, each, counts in SHAPES:
            for steps in counts:
                fits = measure(shape, each * steps, steps, path, words.runs)
                good = good and (fits or each * steps < LARGE)
    print(f"{LARGE} nodes in less than {SECONDS:g} s and {BYTES / (1 << 30):g} GiB: {'yes' if good else 'NO'}")
    return 0 if good else 1


if __name__ == "__main__":
    sys.exit(main())
