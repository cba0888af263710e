#!/usr/bin/env python3
"""How long `lisa fmt` takes, and how much memory.

    bench/reading.py [--runs N] [--keep FOLDER]

Makes descriptions of 64 KiB, 256 KiB and 1 MiB in three shapes: many small operations, long expressions, and nesting at
the limits (64 brackets, depth 128). Runs `./lisa fmt` on each, N times (3), and prints the size, the least time, the time
per MiB, the peak of memory and how often the description goes into it. `--keep` leaves the descriptions in the folder.

A description of 1 MiB is meant to be read and printed in less than 2 seconds and in at most 64 times its size. The last
line says whether each was; the exit status is 0 where all were, else 1.
"""

import argparse
import os
import resource
import subprocess
import sys
import tempfile
import time
from pathlib import Path

TOP = Path(__file__).resolve().parent.parent
PROGRAM = TOP / "crates/lisa/out/lisa"
KIB = 1024
MIB = 1024 * KIB
SIZES = (64 * KIB, 256 * KIB, MIB)
SECONDS_PER_MIB = 2.0
TIMES_THE_SIZE = 64

BRACKETS = 64
DEPTH = 128

HEAD = """RESOURCE {
  PROGRAM_COUNTER uint32 pc;
  CLOCKED REGISTER uint1 halted;
  REGISTER int32 r[16];
  DATA_MEMORY uint8 data[65536];
  PIPELINE p = { FE; DE; EX };
  PIPELINE_REGISTER IN p { uint32 insn; uint4 dst; int32 value; }
}
OPERATION reset { BEHAVIOR { pc = 0; } }
OPERATION main { ACTIVATION { if (halted == 0) { fetch } } BEHAVIOR { p.execute(); p.shift(); } }
"""


def small_operation(number):
    """An operation with each sort of section."""
    return f"""OPERATION add_{number} IN p.EX {{
  DECLARE {{ GROUP d, s = {{ reg || imm }}; INSTANCE a, b = reg; LABEL n; REFERENCE q; }}
  CODING {{ 0b000{number % 2} 0b0[4] n = 0bxxxx d s a b }}
  SYNTAX {{ "ADD{number}" d ~ "," s ~ "," n = #X }}
  BEHAVIOR {{
    int32 sum = r[s] + (int32) n;
    if (sum < 0) {{ OUT.value = 0; }} else {{ OUT.value = sum; }}
    for (uint8 i = 0; i < 4; i = i + 1) data[(pc + i) & 0xffff] = sum >> (i * 8);
  }}
  EXPRESSION {{ r[n] }}
  ACTIVATION {{ next, if (IN.dst != 0) {{ write }} else {{ skip }} }}
}}
"""


def long_expression(number):
    """An assignment of a sum of pairs, as deep as the limit allows: the sum groups to the left."""
    terms = " + ".join(f"r[{i % 16}] * {i + number % 7}" for i in range(DEPTH - 8))
    return f"OPERATION sum_{number} {{ BEHAVIOR {{ pc = {terms}; }} }}\n"


def nested_expression(number):
    """An expression in as many parentheses as may be open at once: two braces stand outside them."""
    inside = BRACKETS - 2
    return f"OPERATION open_{number} {{ BEHAVIOR {{ pc = {'(1 + ' * inside}pc{')' * inside}; }} }}\n"


def nested_statement(number):
    """Blocks in one another, as many as braces may be open at once, and signs in front of a name up to the depth."""
    blocks = BRACKETS - 2
    signs = DEPTH - blocks - 2
    return f"OPERATION in_{number} {{ BEHAVIOR {{ {'{' * blocks} pc = {'~' * signs}pc; {'}' * blocks} }} }}\n"


def dangling(number):
    """`if` in `if` up to the depth, without a bracket that stays open."""
    tests = DEPTH - 2
    return f"OPERATION if_{number} {{ BEHAVIOR {{ {'if (pc) ' * tests} pc = 0; }} }}\n"


def deep(number):
    return (nested_expression, nested_statement, dangling)[number % 3](number)


SHAPES = {"operations": small_operation, "expressions": long_expression, "nesting": deep}


def description(shape, size):
    """A description of at most this many bytes, and nearly so many."""
    parts = [HEAD]
    length = len(HEAD)
    number = 0
    while True:
        part = shape(number)
        if length + len(part) > size:
            break
        parts.append(part)
        length += len(part)
        number += 1
    filler = size - length
    if filler >= 3:
        parts.append("//" + "-" * (filler - 3) + "\n")
    return "".join(parts)


def run(path):
    """One run: its seconds, and its peak of memory in bytes."""
    with open(os.devnull, "wb") as nothing, tempfile.TemporaryFile() as said:
        begin = time.monotonic()
        process = subprocess.Popen([str(PROGRAM), "fmt", str(path)], stdout=nothing, stderr=said)
        _, status, used = os.wait4(process.pid, 0)
        seconds = time.monotonic() - begin
        process.returncode = os.waitstatus_to_exitcode(status)
        if process.returncode != 0:
            said.seek(0)
            sys.exit(f"lisa fmt {path}: status {process.returncode}: {said.read().decode(errors='replace').strip()}")
    return seconds, used.ru_maxrss * KIB


def measure(path, runs):
    results = [run(path) for _ in range(runs)]
    return min(seconds for seconds, _ in results), max(peak for _, peak in results)


def row(name, size, seconds, peak):
    """A line of the table. The system counts this script's own memory as a child's first, so a peak below it isn't known."""
    own = resource.getrusage(resource.RUSAGE_SELF).ru_maxrss * KIB
    sign = "<" if peak <= own else " "
    top = max(peak, own)
    return f"{name:<12} {size // KIB:>5} KiB {seconds:>9.3f} {seconds * MIB / size:>8.3f} {sign}{top / MIB:>8.1f} {sign}{top / size:>6.1f}"


def bench(folder, runs):
    print(f"{'shape':<12} {'size':>9} {'seconds':>9} {'s/MiB':>8} {'peak MiB':>9} {'x size':>7}")
    good = True
    for name, shape in SHAPES.items():
        for size in SIZES:
            path = Path(folder) / f"{name}_{size // KIB}.lisa"
            path.write_text(description(shape, size), encoding="ascii")
            seconds, peak = measure(path, runs)
            print(row(name, size, seconds, peak), flush=True)
            if size == MIB:
                good = good and seconds < SECONDS_PER_MIB and peak <= TIMES_THE_SIZE * size
    return good


def main():
    parser = argparse.ArgumentParser(description=__doc__.splitlines()[0])
    parser.add_argument("--runs", type=int, default=3)
    parser.add_argument("--keep", metavar="FOLDER")
    words = parser.parse_args()
    # the first run builds the program where it is old
    subprocess.run([str(TOP / "lisa"), "fmt", str(TOP / "examples/a.lisa")], stdout=subprocess.DEVNULL, check=True)
    if words.keep:
        Path(words.keep).mkdir(parents=True, exist_ok=True)
        good = bench(words.keep, words.runs)
    else:
        with tempfile.TemporaryDirectory() as folder:
            good = bench(folder, words.runs)
    print(f"1 MiB in less than {SECONDS_PER_MIB:g} s and at most {TIMES_THE_SIZE} times its size: {'yes' if good else 'NO'}")
    sys.exit(0 if good else 1)


if __name__ == "__main__":
    main()
