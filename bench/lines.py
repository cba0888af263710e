#!/usr/bin/env python3
"""How long it takes to find the forms of lines and of words among 1,024, and how much memory.

    bench/lines.py [--runs N] [--lines N] [--words N]

Makes descriptions whose instructions have 1,024 forms: those of `bench/forms.py`, of 12 pieces each, in texts that begin
apart and in texts that differ in their last pieces alone, and one whose forms have no two masks alike. The small program
`code_lines` then reads 100,000 instruction lines, which go over all forms and over the values of their fields, and looks
for the forms of 1,000,000 words; each N times (3). A run over a source without a line, or over no word, tells what the
description takes alone; the rest is printed as "beyond". Seconds are those of the processor. The lines are meant to take
less than 2 seconds beyond the description's, and the words less than 1; where all masks differ, the words take more, and
are measured beside. The last line says whether each did; the status is 0 where all did, else 1."""

import argparse
import os
import subprocess
import sys
import tempfile
from pathlib import Path

sys.dont_write_bytecode = True
from forms import ALIKE, APART, description

TOP = Path(__file__).resolve().parent.parent
PROGRAM = TOP / "crates" / "code_lines" / "out" / "code_lines"
MIB = 1 << 20
BARS = {"lines": 2.0, "words": 1.0}
FORMS, VALUES = 1024, 64


def apart(form, value):
    return f"OP{form // 32} {value},R{form % 32},[A],X+Y"


def alike(form, value):
    return f"OP {value - VALUES // 2},[],A+Y X{form // 32},R{form % 32}"


def masked():
    """Behind the number of an operation and of its child stand five bits more: free ones, or literal ones."""
    bits = lambda k: f"0b{k:05b}" + "".join("1x"[k >> bit & 1] for bit in range(5))
    text = description(APART).replace("uint16 ir", "uint26 ir")
    for k in range(32):
        text = text.replace(f"CODING {{ 0b{k:05b} ", f"CODING {{ {bits(k)} ")
    return text


# What the forms are, their description, the line of a form with a value, and whether each word is of some form.
SHAPES = (
    ("texts that begin apart", description(APART), apart, True),
    ("texts that differ at their end", description(ALIKE), alike, True),
    ("masks that all differ", masked(), apart, False),
)


def source(line, count):
    """Lines over all forms; 391 is odd, so each comes before one comes again, and the values go round more slowly."""
    return ".section prog\n" + "".join(line(i * 391 % FORMS, (i + i // FORMS) % VALUES) + "\n" for i in range(count))


def run(word, file, what):
    """One run: its seconds, its peak of memory in bytes, and how many it found and missed."""
    with subprocess.Popen([str(PROGRAM), word, str(file), str(what)], stdout=subprocess.PIPE, text=True) as process:
        said = process.stdout.read().split()
        _, status, used = os.wait4(process.pid, 0)
        process.returncode = os.waitstatus_to_exitcode(status)
    if process.returncode or said[::2] != ["found", "missed"]:
        sys.exit(f"code_lines {word} {file} {what}: status {process.returncode}, {said}")
    return used.ru_utime + used.ru_stime, used.ru_maxrss * 1024, tuple(map(int, said[1::2]))


def least(word, file, what, runs):
    tried = [run(word, file, what) for _ in range(runs)]
    return min(it[0] for it in tried), max(it[1] for it in tried), tried[0][2]


def measure(name, word, file, none, each, count, runs):
    """Prints a line, and answers the seconds beyond the description's and how many were found."""
    first, held, nothing = least(word, file, none, runs)
    seconds, peak, (found, missed) = least(word, file, each, runs)
    if nothing != (0, 0) or found + missed != count:
        sys.exit(f"code_lines {word}: {nothing} of none, and {found} and {missed} of {count}")
    print(f"{name:30} {count:>9} {word} {found:>9} {seconds:8.3f} {seconds - first:8.3f} {peak / MIB:6.1f} {(peak - held) / MIB:6.1f}", flush=True)
    return seconds - first, found


def main():
    parser = argparse.ArgumentParser(description=__doc__, formatter_class=argparse.RawDescriptionHelpFormatter)
    parser.add_argument("--runs", type=int, default=3)
    parser.add_argument("--lines", type=int, default=100_000)
    parser.add_argument("--words", type=int, default=1_000_000)
    given = parser.parse_args()
    if not PROGRAM.exists():
        subprocess.run([os.environ.get("RT", "rt"), "run", "--", "lines", "data/d.lisa", "data/source.s"], cwd=PROGRAM.parent.parent, check=True, stdout=subprocess.DEVNULL)
    good = True
    print(f"{'1,024 forms with':30} {'of':>15} {'found':>9} {'seconds':>8} {'beyond':>8} {'MiB':>6} {'beyond':>6}")
    with tempfile.TemporaryDirectory() as folder:
        file, empty, full = (Path(folder) / name for name in ("description.lisa", "empty.s", "full.s"))
        empty.write_text("", encoding="ascii")
        for name, text, line, each_word in SHAPES:
            file.write_text(text, encoding="ascii")
            full.write_text(source(line, given.lines), encoding="ascii")
            seconds, found = measure(name, "lines", file, empty, full, given.lines, given.runs)
            good = good and seconds < BARS["lines"] and found == given.lines
            seconds, found = measure(name, "words", file, 0, given.words, given.words, given.runs)
            good = good and (not each_word or (seconds < BARS["words"] and found == given.words))
    print(f"{given.lines:,} lines in less than {BARS['lines']:g} s and {given.words:,} words in less than {BARS['words']:g} s beyond: {'yes' if good else 'NO'}")
    return 0 if good else 1


if __name__ == "__main__":
    sys.exit(main())
