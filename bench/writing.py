#!/usr/bin/env python3
"""How long `lisa verilog` takes, how much memory, and how long the module is that it writes.

    bench/writing.py [--runs N] [--keep FOLDER] [--program PROGRAM]

Examples, and descriptions that are made to weigh as near below 12,000 and 50,000 (the limit) as they can, in three shapes: `sums`,
statements of one operation; `pairs`, reads and writes of one array; `machine`, a pipeline of five stages with so many instructions.
A description's weight is told where one is refused by it: the same with 221 more statements, which weigh 50,388 in a description
without more of that array. Each module is written N times (3); the weight, the bytes, those for each unit of weight, item, array and
pin and for 16 more, the least time and the peak of memory are printed. What is meant: less than 2 seconds at 12,000, less than 60
seconds and 2 GiB at 50,000, and at most 2,048 bytes for each unit. The last line says whether each kept to it; the status is 0 where
all did, else 1."""

import argparse
import os
import re
import subprocess
import sys
import tempfile
import time
from pathlib import Path

from simulating import made_machine

TOP = Path(__file__).resolve().parent.parent
PROGRAM = TOP / "crates/lisa/out/lisa"
MIB = 1 << 20
EACH = 2048
# up to which weight, in how many seconds and bytes of memory
BARS = ((12_000, 2.0, 1 << 30), (50_000, 60.0, 2 << 30))
ADDED = 221
ADDED_WEIGHT = ADDED * 7 + ADDED * ADDED


def sums(count):
    """Statements of 15 units each, without arrays."""
    return ("RESOURCE { REGISTER uint32 a; REGISTER uint32 b; REGISTER uint32 c; }\nOPERATION main { BEHAVIOR {\n"
            + "a = b + c * a - (b ^ c) + a & b;\n" * count + "} }\n")


def pairs(count):
    """Each statement reads a cell and writes one."""
    return ("RESOURCE { REGISTER uint8 i; REGISTER uint8 M[16]; }\nOPERATION main { BEHAVIOR {\n" + "M[i] = M[i + 1] + 1;\n" * count + "} }\n")


SHAPES = (("sums", sums, 3_800), ("pairs", pairs, 300), ("machine", made_machine, 1_000))


def run(words):
    """One run: its seconds, its peak of memory in bytes, and what it says where it is refused."""
    begin = time.monotonic()
    with tempfile.TemporaryFile() as said, open(os.devnull, "wb") as nothing:
        process = subprocess.Popen(list(map(str, words[0])), stdout=words[1] or nothing, stderr=said)
        _, status, used = os.wait4(process.pid, 0)
        process.returncode = os.waitstatus_to_exitcode(status)
        said.seek(0)
        return time.monotonic() - begin, used.ru_maxrss * 1024, said.read().decode("latin-1").strip()


def weight(text, folder, program):
    """The weight of a description, by the refusal of a heavier one."""
    more = "M_[0] = M_[0] + 1; " * ADDED
    heavier = re.sub(r"(?m)^RESOURCE \{", "RESOURCE { REGISTER uint8 M_[2];", text, count=1)
    found = re.search(r"OPERATION main \{(?P<rest>.*?)BEHAVIOR \{", heavier, re.S)
    if found and "OPERATION" not in found["rest"]:
        heavier = heavier[:found.end()] + more + heavier[found.end():]
    else:
        heavier = heavier.replace("OPERATION main {", "OPERATION main { BEHAVIOR { " + more + "}", 1)
    (folder / "heavier").write_text(heavier)
    _, _, said = run(([program, "verilog", folder / "heavier"], None))
    told = re.fullmatch(r"lisa: netlist 1 TooMany what=weight count=(\d+) limit=50000", said)
    if not told:
        sys.exit(f"the weight wasn't told: {said}")
    return int(told[1]) - ADDED_WEIGHT


def heaviest(make, most, limit, folder, program):
    """The heaviest description of a shape that weighs no more than the limit, with its weight."""
    low, high = 1, most
    while low < high:
        middle = (low + high + 1) // 2
        if weight(make(middle), folder, program) <= limit:
            low = middle
        else:
            high = middle - 1
    return make(low), weight(make(low), folder, program)


def units(text, weighed, folder, program):
    """What the bound on the bytes counts: the weight, the items, arrays and pins, and 16."""
    (folder / "D").write_text(text)
    told = subprocess.run([str(program), "check", str(folder / "D")], capture_output=True, text=True, check=True).stdout
    items = int(re.search(r"items (\d+)", told)[1])
    arrays = len(re.findall(r"\w+\[\d+\];", text.partition("OPERATION")[0]))
    pins = len(re.findall(r"\bPIN\b", text))
    return weighed + items + arrays + pins + 16


def measure(title, text, weighed, folder, given):
    source, module = folder / "D", folder / (re.sub(r"\W+", "_", title) + ".v")
    source.write_text(text)
    found = []
    for _ in range(given.runs):
        with module.open("wb") as out:
            found.append(run(([given.program, "verilog", source], out)))
        if found[-1][2]:
            sys.exit(f"{title}: {found[-1][2]}")
    seconds, peak, size = min(it[0] for it in found), max(it[1] for it in found), module.stat().st_size
    each = size / units(text, weighed, folder, given.program)
    print(f"{title:<22} weight {weighed:>6} {size:>10} bytes {each:8.1f} for each unit {seconds:8.3f} s {peak / MIB:8.1f} MiB", flush=True)
    if not given.keep:
        module.unlink()
    _, most_seconds, most_bytes = next(it for it in BARS if weighed <= it[0])
    return seconds < most_seconds and peak < most_bytes and each <= EACH


def main():
    parser = argparse.ArgumentParser(description=__doc__, formatter_class=argparse.RawDescriptionHelpFormatter)
    parser.add_argument("--runs", type=int, default=3)
    parser.add_argument("--keep", type=Path)
    parser.add_argument("--program", type=Path, default=PROGRAM)
    given = parser.parse_args()
    if given.program == PROGRAM:
        # the first run builds the program where it is old
        subprocess.run([str(TOP / "lisa"), "fmt", str(TOP / "examples/a.lisa")], stdout=subprocess.DEVNULL, check=True)
    good = True
    with tempfile.TemporaryDirectory() as made:
        folder = given.keep or Path(made)
        folder.mkdir(parents=True, exist_ok=True)
        for name in ("a", "c", "five", "mips"):
            text = (TOP / f"examples/{name}.lisa").read_text()
            good &= measure(f"examples/{name}.lisa", text, weight(text, folder, given.program), folder, given)
        for limit, _, _ in BARS:
            for name, make, most in SHAPES:
                text, weighed = heaviest(make, most, limit, folder, given.program)
                good &= measure(f"{name} to {limit:,}", text, weighed, folder, given)
    print(f"less than 2 s at 12,000, 60 s and 2 GiB at 50,000, and {EACH} bytes for each unit: {'yes' if good else 'NO'}")
    return 0 if good else 1


if __name__ == "__main__":
    sys.exit(main())
