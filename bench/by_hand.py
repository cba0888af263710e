#!/usr/bin/env python3
"""How many edges a second `lisa run` makes of a pipeline, beside the same pipeline written by hand in C: the limit of what can be had.

    bench/by_hand.py [--runs N] [--edges N]

examples/five.lisa runs over a program of seven words, for so many edges (200,000) and for a tenth of them, and five.c, built with a C
compiler, for 1,000 times as many; each N times (3). The figures are those of the edges between the two, with the least times. After some few
edges both must have the same state."""

import argparse
import hashlib
import shutil
import subprocess
import sys
import tempfile
import time
from pathlib import Path

TOP = Path(__file__).resolve().parent.parent
PROGRAM = TOP / "crates/lisa/out/lisa"
FIVE = TOP / "examples/five.lisa"
# two sums, a branch, three sums that are dropped, and a sum
CELLS = ["5", "23", "86", "41", "42", "43", "1"]
MORE = 1000


def output(*words):
    return subprocess.run(words, capture_output=True, check=True).stdout


def least(words, runs):
    """The least seconds of some runs."""
    best = None
    for _ in range(runs):
        began = time.monotonic()
        output(*words)
        took = time.monotonic() - began
        best = took if best is None else min(best, took)
    return best


def rate(words_for, edges, runs):
    few, many = edges // 10, edges
    return (many - few) / max(least(words_for(many), runs) - least(words_for(few), runs), 1e-9)


def main():
    parser = argparse.ArgumentParser(description=__doc__, formatter_class=argparse.RawDescriptionHelpFormatter)
    parser.add_argument("--runs", type=int, default=3)
    parser.add_argument("--edges", type=int, default=200_000)
    given = parser.parse_args()
    compiler = next((it for it in map(shutil.which, ("cc", "gcc", "clang")) if it), None)
    if compiler is None:
        sys.exit("no C compiler is there (cc, gcc or clang)")
    with tempfile.TemporaryDirectory() as folder:
        program, image = Path(folder) / "five", Path(folder) / "image"
        subprocess.run([compiler, "-O2", "-o", program, TOP / "bench/five.c"], check=True)
        digest = hashlib.sha256(output(PROGRAM, "fmt", FIVE)).hexdigest()
        image.write_text("\n".join([f"image 1 {digest}", f"memory prog 8 16 {len(CELLS)}", *CELLS, "end"]) + "\n", encoding="ascii")

        def ours(edges):
            return [PROGRAM, "run", FIVE, image, "-", str(edges)]

        def by_hand(edges):
            return [program, str(edges), *CELLS]

        for edges in (0, 5, 100):
            if output(*ours(edges)) != output(*by_hand(edges)):
                sys.exit(f"after {edges} edges examples/five.lisa and five.c have other states")
        found = rate(ours, given.edges, given.runs)
        limit = rate(by_hand, given.edges * MORE, given.runs)
    print(f"lisa run       {found:14,.0f} edges a second")
    print(f"by hand in C   {limit:14,.0f} edges a second, {limit / found:,.0f} times as many")
    return 0


if __name__ == "__main__":
    sys.exit(main())
