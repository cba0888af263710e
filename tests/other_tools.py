#!/usr/bin/env python3
"""The modules that `lisa verilog` writes, in other tools.

    tests/other_tools.py [--random N] [--only NAME] [--keep FOLDER] PROGRAM

Each example that is accepted, and N random descriptions of cases/headline.jsonl (50), is written as a module and traced by PROGRAM.
Then, of the module as it was written:

    Icarus Verilog    runs it, with the same first cells and pins: each register and cell after each edge is that of `trace`
    Verilator         finds nothing to warn of, but for two sorts (see WARNINGS), and what it builds has the same states
    Yosys             makes cells of it, with its first cells loaded and each wire an output (`synth`, without the mapping to gates
                      where there are large memories), with no warning but that a small memory is made registers, and `check` finds nothing

A tool that isn't installed is named, and nothing is tried by it. The last line is `N passed, M failed`; each tool's trial of a module
counts once. The status is 0 where none failed."""

import argparse
import contextlib
import json
import os
import re
import shutil
import subprocess
import sys
import tempfile
from concurrent.futures import ThreadPoolExecutor
from dataclasses import dataclass
from pathlib import Path

from verilog_benches import Bench, by_icarus, declared, differences, escaped, image_cells, states_of, write_bench

HERE = Path(__file__).resolve().parent
EXAMPLES = HERE.parent / "examples"
LIMIT = 1800
# Comparisons that are the same whatever stands in the registers, as `x < 0`, come of descriptions that have such ones.
WARNINGS = ["-Wno-UNSIGNED", "-Wno-CMPCONST"]
# from so many cells on a memory isn't mapped to registers
LARGE = 256

FIVE = ["05", "23", "86", "41", "42", "43", "01"]
# the example, its first cells, its schedule, and how many edges are made
SAMPLES = [("a", {}, "", 12), ("b", {}, "", 4), ("c", {"prog": ["67", "82", "0", "45", "c1"]}, "", 40), ("d", {}, "", 12),
           ("e", {}, "2 hold=1 kill=1\n3 hold=0 kill=0\n9 irq=1\n10 irq=0\n", 24), ("five", {"prog": FIVE}, "", 20)]
# the example whose image is a file, with that file
PROGRAMS = [("mips", "sieve", "", 200), ("mips", "ticks", "40 irq=1\n41 irq=0\n90 irq=1\n91 irq=0\n", 200)]


@dataclass
class Case:
    """A description with an image and a schedule as texts, and how many edges are made."""

    name: str
    description: str
    image: str
    schedule: str
    edges: int


class Failed(Exception):
    """What is wrong with a module."""


def run(words, folder, **more):
    return subprocess.run(words, cwd=folder, capture_output=True, text=True, errors="replace", timeout=LIMIT, **more)


# ---- the modules

def digest_of(program, folder, description):
    """The digest of a description, which the program tells where it refuses an image of another one."""
    (folder / "D").write_text(description)
    (folder / "I").write_text("image 1 " + "0" * 64 + "\nend\n")
    told = re.search(r"expected=([0-9a-f]{64})", run([program, "run", "D", "I", "-", "0"], folder).stderr)
    return told[1] if told else "0" * 64


def arrays_in(description):
    """The arrays that a description declares, with their widths and depths, as they are spelled in the examples."""
    return {name: (width, depth) for width, name, depth in re.findall(r"u?int(\d+) (\w+)\[(\d+)\];", description)}


def sample(program, folder, name, cells, schedule, edges):
    description = (EXAMPLES / f"{name}.lisa").read_text()
    image = [f"image 1 {digest_of(program, folder, description)}"]
    for memory, values in cells.items():
        width, depth = arrays_in(description)[memory]
        image += [f"memory {memory} {width} {depth} {len(values)}", *(f"{int(it, 16):x}" for it in values)]
    return Case(f"{name}.lisa", description, "\n".join([*image, "end"]) + "\n", schedule, edges)


def random_cases(count):
    with open(HERE / "cases" / "headline.jsonl", encoding="ascii") as file:
        for number, line in zip(range(count), file):
            runs = json.loads(line)["runs"]
            files = {name: text for it in runs for name, text in it["files"].items()}
            # the words of a trace are its file, the image, the schedule and the number of edges
            words = next(it["words"] for it in runs if it["words"][0] == "clocktrace")
            yield Case(f"random description {number}", files["D"], files.get(words[2], ""), files.get(words[3], ""), int(words[4]))


def cases(program, folder, count):
    for name, cells, schedule, edges in SAMPLES:
        yield sample(program, folder, name, cells, schedule, edges)
    for name, image, schedule, edges in PROGRAMS:
        yield Case(f"{name}.lisa with {image}.image", (EXAMPLES / f"{name}.lisa").read_text(),
                   (EXAMPLES / f"{image}.image").read_text(), schedule, edges)
    yield from random_cases(count)


def schedule_values(text):
    return {int(edge, 0): {name: int(value, 0) for name, value in (it.rsplit("=", 1) for it in pairs)}
            for edge, *pairs in (line.split() for line in text.splitlines() if line)}


@dataclass
class Made:
    """A module that was written into a folder as m.v, with its bench, and the states that it is to have."""

    case: Case
    folder: Path
    bench: Bench
    states: list


def make(program, folder, case):
    """Writes the module, its bench and what `trace` prints."""
    folder.mkdir(parents=True)
    (folder / "D").write_text(case.description)
    for name, text in (("I", case.image), ("H", case.schedule)):
        (folder / name).write_text(text)
    written = run([program, "verilog", "D"], folder)
    if written.returncode:
        raise Failed(f"verilog: status {written.returncode}: {written.stderr.strip()}")
    (folder / "m.v").write_text(written.stdout)
    image, schedule = "I" if case.image else "-", "H" if case.schedule else "-"
    traced = run([program, "trace", "D", image, schedule, str(case.edges)], folder)
    clocked = run([program, "clocktrace", "m.v", image, schedule, str(case.edges)], folder)
    if traced.returncode or clocked.returncode:
        raise Failed(f"trace: status {traced.returncode}, clocktrace: {clocked.returncode}: {(traced.stderr + clocked.stderr).strip()}")
    if traced.stdout != clocked.stdout:
        raise Failed("trace and clocktrace print different states")
    pins, registers, arrays = declared(written.stdout)
    bench = Bench("machine", pins, registers, arrays, image_cells(case.image), schedule_values(case.schedule), case.edges)
    states = states_of(traced.stdout, False)
    if [it for it in states[0] if "[" not in it] != list(registers):
        raise Failed(f"the module has the registers {list(registers)!r:.300}")
    write_bench(folder, bench)
    return Made(case, folder, bench, states)


# ---- the tools: each gives what is wrong, or nothing

def compared(states, made):
    return next(differences(states, made.states), None)


def in_icarus(made):
    try:
        states = by_icarus(made.folder, ["m.v"])
    except subprocess.CalledProcessError as fault:
        return f"iverilog: status {fault.returncode}"
    return "vvp can't run what iverilog wrote" if states is None else compared(states, made)


def linted(made):
    done = run(["verilator", "--lint-only", *WARNINGS, "m.v"], made.folder)
    told = (done.stdout + done.stderr).strip()
    return told.split("\n")[0] if done.returncode or told else None


def keep_parts(built, shared):
    """Keeps what all builds have in common; where several do so at once, one of them is as good as another."""
    kept = built.parent / "kept"
    kept.mkdir(exist_ok=True)
    for part in built.glob("verilated*.o"):
        shutil.copy2(part, kept)
    with contextlib.suppress(OSError):
        kept.rename(shared)


def in_verilator(made):
    """What is built in a folder of its own, since a build reads what others leave in its folder; the parts that all have are built once."""
    built, shared = made.folder / "built", made.folder.parent / "shared"
    built.mkdir(exist_ok=True)
    for part in shared.glob("*.o"):
        shutil.copy2(part, built)
    done = run(["verilator", "--binary", "--Mdir", "built", "--top-module", "bench", *WARNINGS, "-Wno-fatal", "-CFLAGS", "-O0",
                "-o", "states", "m.v", "bench.v"], made.folder)
    if done.returncode:
        return f"verilator: status {done.returncode}: {(done.stdout + done.stderr).strip()[-300:]}"
    if not shared.exists():
        keep_parts(built, shared)
    done = run([str(built / "states")], made.folder)
    return f"what it built ended with {done.returncode}" if done.returncode else compared(states_of(done.stdout, True), made)


def in_yosys(made):
    loaded = "".join(f'initial $readmemh("cells_{number}", {escaped(name)});\n' for number, name in enumerate(made.bench.arrays))
    (made.folder / "loaded.v").write_text((made.folder / "m.v").read_text().replace("endmodule", loaded + "endmodule"))
    is_large = any(depth >= LARGE for _, depth in made.bench.arrays.values())
    synth = "synth -run :fine" if is_large else "synth"
    done = run(["yosys", "-q", "-p", f"read_verilog loaded.v; hierarchy -check -top machine; proc; expose; {synth}; check -assert"], made.folder)
    # (it makes registers of a small memory that has constant indexes alone, and tells so)
    told = [line for line in (done.stdout + done.stderr).strip().splitlines() if not re.match(r"Warning: Replacing memory \S+ with list of registers", line)]
    return told[0] if told else f"status {done.returncode}" if done.returncode else None


TOOLS = [("Icarus Verilog", ("iverilog", "vvp"), "the same states", in_icarus),
         ("Verilator", ("verilator",), "no warning", linted),
         ("Verilator, built", ("verilator", "make", "g++"), "the same states", in_verilator),
         ("Yosys", ("yosys",), "cells, and nothing to complain of", in_yosys)]


def try_tool(tool, made):
    """How many modules a tool takes, and how many not. The first is tried alone, since it makes what the others share."""
    title, needed, what, function = tool
    missing = [it for it in needed if not shutil.which(it)]
    if missing:
        print(f"{title}: {' and '.join(missing)} isn't installed, so nothing is tried by it")
        return 0, 0
    with ThreadPoolExecutor(len(os.sched_getaffinity(0))) as pool:
        found = [function(it) for it in made[:1]] + list(pool.map(function, made[1:]))
    for it, wrong in zip(made, found):
        if wrong:
            print(f"{title}: {it.case.name}: {wrong}")
    failed = sum(map(bool, found))
    print(f"{title}: {len(made) - failed} of {len(made)} modules: {what}", flush=True)
    return len(made) - failed, failed


def try_all(program, folder, count, only):
    passed = failed = 0
    made = []
    (folder / "made").mkdir(parents=True)
    for number, case in enumerate(cases(program, folder / "made", count)):
        if only and only not in case.name:
            continue
        try:
            made.append(make(program, folder / f"{number}", case))
        except Failed as fault:
            failed += 1
            print(f"{case.name}: {fault}")
    for tool in TOOLS:
        taken, refused = try_tool(tool, made)
        passed, failed = passed + taken, failed + refused
    return passed, failed


def main():
    parser = argparse.ArgumentParser(description=__doc__, formatter_class=argparse.RawDescriptionHelpFormatter)
    parser.add_argument("program")
    parser.add_argument("--random", type=int, default=50, metavar="N")
    parser.add_argument("--only", default="", metavar="NAME")
    parser.add_argument("--keep", type=Path)
    words = parser.parse_args()
    program = str(Path(words.program).resolve())
    with tempfile.TemporaryDirectory() as folder:
        passed, failed = try_all(program, words.keep or Path(folder), words.random, words.only)
    print(f"{passed} passed, {failed} failed")
    return 1 if failed else 0


if __name__ == "__main__":
    sys.exit(main())
