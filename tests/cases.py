#!/usr/bin/env python3
"""Random cases with their answers.

    cases.py PROGRAM [KIND ..]

cases/KIND.jsonl has one case a line: its runs one after the other, each with words, input, status, out and err, whose bytes stand as
characters of the same numbers, and the files that it has besides those of the runs before it. What a run prints may be saved as a file for
the runs behind it (`save`), or be anything (`out` is null), and other words may have the same answer (`again`). The answers were worked out
apart from the program, which must give each of them. Where a rule leaves the place or the text of a refusal open, any is taken. It ends with 1 where a case differs."""

import json
import os
import re
import subprocess
import sys
import tempfile

HERE = os.path.join(os.path.dirname(os.path.abspath(__file__)), "cases")
# what a line of a refusal may have otherwise
OPEN = [(re.compile(rb"(description 5 NotADescription|verilog 3 NotInSubset|vcd 1 BadToken) at=\d+"), rb"\1 at="),
        (re.compile(rb"(image 1 NotAnImage|object 1 NotAnObject object=\d+) line=\d+"), rb"\1 line="), (re.compile(rb"(description 25 Ambiguous .*) text=.*"), rb"\1 text=")]
SHOWN = 3


def settled(line):
    for pattern, put in OPEN:
        line = pattern.sub(put, line)
    return line


def write(folder, name, data):
    with open(os.path.join(folder, name), "wb") as file:
        file.write(data)


def difference(program, run, words, folder):
    """None where the run gives its answer for these words, else both."""
    done = subprocess.run([program, *words], input=run["input"].encode("latin-1"), cwd=folder, capture_output=True, timeout=120)
    if "save" in run:
        write(folder, run["save"], done.stdout)
    out = done.stdout if run["out"] is None else run["out"].encode("latin-1")
    got = [done.returncode, done.stdout, settled(done.stderr)]
    wanted = [run["status"], out, settled(run["err"].encode("latin-1"))]
    return None if got == wanted else f"  got    {got!r:.2000}\n  wanted {wanted!r:.2000}"


def first_difference(program, case):
    with tempfile.TemporaryDirectory() as folder:
        for run in case["runs"]:
            for name, text in run["files"].items():
                write(folder, name, text.encode("latin-1"))
            for words in [run["words"], *([run["again"]] if "again" in run else [])]:
                found = difference(program, run, words, folder)
                if found:
                    return f"{' '.join(words)}\n{found}"
    return None


def main(words):
    if not words:
        print(__doc__)
        return 2
    program, passed, failed = os.path.abspath(words[0]), 0, 0
    kinds = words[1:] or sorted(name[:-6] for name in os.listdir(HERE) if name.endswith(".jsonl"))
    for kind in kinds:
        with open(os.path.join(HERE, kind + ".jsonl"), encoding="ascii") as file:
            for number, line in enumerate(file):
                found = first_difference(program, json.loads(line))
                passed += found is None
                failed += found is not None
                if found and failed <= SHOWN:
                    print(f"{kind}: case {number}: {found}")
    print(f"{passed} passed, {failed} failed")
    return 1 if failed else 0


if __name__ == "__main__":
    sys.exit(main(sys.argv[1:]))
