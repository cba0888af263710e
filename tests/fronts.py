#!/usr/bin/env python3
"""Each front of the sample files, as the program takes it.

    fronts.py PROGRAM

Each shorter front of a sample is read, or is refused and nothing is printed; where the refusal has a place, it is in the front. A description
ends behind its resources and behind each operation, and at the end of that line; a module and a file of Intel HEX have no shorter front but
for their last line feed; a dump ends behind its first values, each time and each value, a file for `$readmemh` behind each digit of a word,
and a board behind each line."""

import os
import re
import subprocess
import sys
import tempfile

EXAMPLES = os.path.join(os.path.dirname(os.path.abspath(__file__)), "..", "examples")
DESCRIPTION, MODULE = rb"description [1-5] [A-Za-z]+ at=(\d+)", rb"verilog [1-3] [A-Za-z]+ at=(\d+)"
DUMP = """$timescale 1 ns $end
$scope module machine $end
$var reg 8 ! n $end
$upscope $end
$enddefinitions $end
#0
$dumpvars
b101 !
$end
#1
b110 !
#2
b111 !
"""
BOARDED = """RESOURCE { REGISTER uint8 load; REGISTER uint8 hits; REGISTER uint1 taken; PIN uint1 tick; PIN uint8 byte; PIN uint1 valid; }
OPERATION main { }
"""
# a sample, the words with a front of it as X, how many fronts are read, and how the others are refused
FILES = [("a.lisa", "fmt X", 5, DESCRIPTION), ("b.lisa", "fmt X", 5, DESCRIPTION), ("c.lisa", "fmt X", 15, DESCRIPTION), ("d.lisa", "fmt X", 7, DESCRIPTION),
         ("e.lisa", "fmt X", 9, DESCRIPTION), ("f.lisa", "fmt X", 9, DESCRIPTION), ("v.v", "clock X - - 1", 1, MODULE),
         ("a dump", "unvcd X", 9, rb"vcd (?:1 BadToken at=(\d+)|6 NoFirst name=n)"), ("Intel HEX", "fromhex C X prog", 1, rb"hex (?:2 BadRecord line=[12]|7 NoEnd)"),
         ("$readmemh", "frommem C X prog", 12, rb"memh 2 BadWord at=(\d+)"), ("a board", "board T - X 1", 4, rb"board (?:1 BadLine line|[23] Unknown(?:Item|Pin) line)=[12](?: name=[a-z]+)?")]
TEXTS = {"a dump": DUMP, "Intel HEX": ":0300000067C005D1\n:00000001FF\n", "$readmemh": "67\nc0 /* x */ @4 5\n",
         "a board": "timer load tick\nconsole hits hits byte valid taken\n"}


def sample(name):
    if name in TEXTS:
        return TEXTS[name].encode()
    with open(os.path.join(EXAMPLES, name), "rb") as file:
        return file.read()


def is_refused(done, size, fault):
    line = re.fullmatch(rb"lisa: " + fault + rb"\n", done.stderr)
    return done.returncode == 1 and done.stdout == b"" and line is not None and all(int(place) <= size for place in line.groups() if place)


def write(folder, name, data):
    with open(os.path.join(folder, name), "wb") as file:
        file.write(data)


def main(words):
    if len(words) != 1:
        print(__doc__)
        return 2
    program, passed, failed = os.path.abspath(words[0]), 0, 0
    for name, command, fronts, fault in FILES:
        whole, read = sample(name), 0
        with tempfile.TemporaryDirectory() as folder:
            write(folder, "C", sample("c.lisa"))
            write(folder, "T", BOARDED.encode())
            for size in range(len(whole)):
                write(folder, "X", whole[:size])
                done = subprocess.run([program, *command.split()], cwd=folder, input=b"", capture_output=True, timeout=120)
                is_read = done.returncode == 0 and done.stderr == b""
                read += is_read
                if is_read or is_refused(done, size, fault):
                    passed += 1
                else:
                    failed += 1
                    print(f"the front of {size} bytes of {name}: status {done.returncode}, {done.stdout!r:.500}, {done.stderr!r:.500}")
        if read == fronts:
            passed += 1
        else:
            failed += 1
            print(f"{name}: {read} fronts are read and not {fronts}")
    print(f"{passed} passed, {failed} failed")
    return 1 if failed else 0


if __name__ == "__main__":
    sys.exit(main(sys.argv[1:]))
