#!/usr/bin/env python3
"""How long `asm`, `link` and `dis` take, and how much memory.

    bench/assembling.py [--runs N] [--program PATH]

Over descriptions of 1,024 forms (those of `bench/forms.py`) with four memories of 1,048,576 cells: sources of 1, 2 and
4 MiB of labels and instructions, a part of them with operands, and sources of 4 MiB of `.word` with operands alone and of
empty operands; 32 objects with a fourth, a half and all of 4,194,304 cells; and images of as many cells. Each N times (3);
the least of seconds is printed, which are those of the processor, and the peak of memory, with the seconds of a MiB of
input. A source of 4 MiB is meant to take less than 10 seconds and 1 GiB, the objects with all cells 10 seconds, and the
image of all cells 20. Where GNU `as` is installed it assembles 200,000 lines for the processor that this runs on, and `asm`
as many for `examples/mips.lisa`; it is meant to take at most 3 times as long for a line. The last line says whether each
did; the status is 0 where all did, else 1."""

import argparse
import os
import shutil
import subprocess
import sys
import tempfile
from pathlib import Path

sys.dont_write_bytecode = True
from forms import ALIKE, APART, description
from lines import FORMS, VALUES, alike, apart

TOP = Path(__file__).resolve().parent.parent
MIB = 1 << 20
MEMORIES, DEPTH, OBJECTS, BESIDE = 4, 1 << 20, 32, 200_000
SOURCE_BAR, MEMORY_BAR, LINK_BAR, LISTING_BAR, BESIDE_BAR = 10.0, 1 << 30, 10.0, 20.0, 3.0


def with_memories(text):
    memories = " ".join(f"MEMORY uint16 p{k}[{DEPTH}];" for k in range(MEMORIES))
    return text.replace("RESOURCE {", "RESOURCE { " + memories)


def source(line, size):
    """As many lines as there is room for: each 64th has a label, and each 16th one the address of a label as its value."""
    rows, left = [".section p0"], size - 12
    for number in range(size):
        form, value = number * 391 % FORMS, (number + number // FORMS) % VALUES
        row = line(form, value)
        if number % 16 == 5:
            row = row.replace(f" {value},", f" @(l{number // 64 * 64}-$+{value % 8 + 5}),", 1)
        if number % 64 == 0:
            row = f"l{number}: {row}"
        if len(row) + 1 > left:
            break
        rows.append(row)
        left -= len(row) + 1
    return "\n".join(rows) + "\n"


def operands(size):
    head = ".section p0\na: .word "
    return head + ",".join(["@a"] * ((size - len(head)) // 3)) + "\n"


def commas(size):
    head = ".section p0\n"
    return head + "," * (size - len(head) - 1) + "\n"


def run(program, words, out, wanted=0):
    """One run: its seconds and its peak of memory in bytes."""
    with open(out, "wb") as file, subprocess.Popen([str(program), *map(str, words)], stdout=file, stderr=subprocess.PIPE) as process:
        said = process.stderr.read()
        _, status, used = os.wait4(process.pid, 0)
        process.returncode = os.waitstatus_to_exitcode(status)
    if process.returncode != wanted:
        sys.exit(f"{program} {words[0]}: status {process.returncode}, {said[:200]}")
    return used.ru_utime + used.ru_stime, used.ru_maxrss * 1024


def measure(given, name, words, out, size, bars, wanted=0):
    """Prints a line, and answers the seconds, and whether it took less than the bars of seconds and memory."""
    tried = [run(given.program, words, out, wanted) for _ in range(given.runs)]
    seconds, peak = min(it[0] for it in tried), max(it[1] for it in tried)
    good = all(bar is None or it < bar for it, bar in zip((seconds, peak), bars))
    print(f"{name:40} {size / MIB:8.2f} {seconds:8.2f} {seconds / (size / MIB):10.3f} {peak / MIB:8.1f}{'' if good else '  TOO MUCH'}", flush=True)
    return seconds, good


def sources(given, folder):
    """Whether the sources were assembled in time."""
    file, out, good = folder / "source.s", folder / "object", True
    for name, text, line in (("begin apart", APART, apart), ("differ at their end", ALIKE, alike)):
        (folder / name).write_text(with_memories(description(text)), encoding="ascii")
        for size in (MIB, 2 * MIB, 4 * MIB):
            file.write_text(source(line, size), encoding="ascii")
            good = measure(given, f"asm, texts that {name}", ["asm", folder / name, file], out, size, (SOURCE_BAR, MEMORY_BAR))[1] and good
    for name, written, wanted in (("operands of .word", operands(4 * MIB), 0), ("commas", commas(4 * MIB), 1)):
        file.write_text(written, encoding="ascii")
        good = measure(given, f"asm, {name}", ["asm", folder / "begin apart", file], out, 4 * MIB, (SOURCE_BAR, MEMORY_BAR), wanted)[1] and good
    return good


def link_and_list(given, folder):
    """Objects of as many cells each, eight to a memory, and the image of all."""
    file, image, listing, good = folder / "begin apart", folder / "image", folder / "listing", True
    (folder / "empty.s").write_text("", encoding="ascii")
    run(given.program, ["asm", file, folder / "empty.s"], folder / "object")
    head = (folder / "object").read_text(encoding="ascii").splitlines()[0]
    for part in (4, 2, 1):
        count, names, size = MEMORIES * DEPTH // OBJECTS // part, [], 0
        for number in range(OBJECTS):
            names.append(folder / f"object{number}")
            rows = [head, f"section p{number * MEMORIES // OBJECTS} 16", f"global g{number}", f"label g{number}"]
            rows += [f"cell {(number + place) * 391 % 65536 // 64 * 64:x}\nfix 0 6 u {place % 64}" if place % 16 == 5
                     else f"cell {(number + place) * 391 % 65536:x}" for place in range(count)]
            names[-1].write_text("\n".join(rows) + "\nend\n", encoding="ascii")
            size += names[-1].stat().st_size
        last = part == 1
        good = measure(given, f"link, {OBJECTS} objects, {OBJECTS * count} cells", ["link", file, *names], image, size, (LINK_BAR if last else None, None))[1] and good
        good = measure(given, f"dis, {OBJECTS * count} cells", ["dis", file, image], listing, image.stat().st_size, (LISTING_BAR if last else None, None))[1] and good
    return good


def labelled(rows):
    return "".join(f"l{n}: {row}\n" if n % 64 == 0 else f"{row}\n" for n, row in enumerate(rows))


def of_mips(n):
    a, b, c = n % 13, n // 13 % 16, n // 64 % 16
    return (f"addiu ${a},${b},{n % 64}", f"addu ${a},${b},${c}", f"lw ${a},{n % 64 * 4}(${b})")[n % 3]


def beside(given, folder):
    """Whether a line takes no longer than it may, beside GNU `as`."""
    assembler = shutil.which("as")
    if not assembler:
        print("GNU as isn't installed")
        return True
    mips, own, other = folder / "mips", folder / "mips.s", folder / "beside.s"
    mips.write_text((TOP / "examples" / "mips.lisa").read_text(encoding="ascii").replace("prog[1024]", "prog[262144]"), encoding="ascii")
    own.write_text(".section prog\n" + labelled(of_mips(n) for n in range(BESIDE)), encoding="ascii")
    other.write_text(labelled(f"addl ${n % 64}, %ecx" for n in range(BESIDE)), encoding="ascii")
    each = min(run(given.program, ["asm", mips, own], folder / "object")[0] for _ in range(given.runs)) / BESIDE
    bar = min(run(assembler, ["-o", folder / "beside.o", other], folder / "said")[0] for _ in range(given.runs)) / BESIDE
    print(f"{1 / each:,.0f} lines a second, and {1 / bar:,.0f} by GNU as")
    return each <= BESIDE_BAR * bar


def main():
    parser = argparse.ArgumentParser(description=__doc__, formatter_class=argparse.RawDescriptionHelpFormatter)
    parser.add_argument("--runs", type=int, default=3)
    parser.add_argument("--program", type=Path, default=TOP / "crates/lisa/out/lisa")
    given = parser.parse_args()
    if not given.program.exists():
        subprocess.run([str(TOP / "lisa"), "fmt", str(TOP / "examples/a.lisa")], stdout=subprocess.DEVNULL, check=True)
    print(f"{'':40} {'MiB':>8} {'seconds':>8} {'of a MiB':>10} {'peak MiB':>8}")
    with tempfile.TemporaryDirectory() as name:
        folder = Path(name)
        good = sources(given, folder)
        good = link_and_list(given, folder) and good
        good = beside(given, folder) and good
    print(f"each within its bar: {'yes' if good else 'NO'}")
    return 0 if good else 1


if __name__ == "__main__":
    sys.exit(main())
