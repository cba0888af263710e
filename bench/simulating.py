#!/usr/bin/env python3
"""How many edges a second `lisa run` makes, and how much memory it takes, beside other tools on the written modules.

    bench/simulating.py [--runs N] [--edges N] [--program PROGRAM]

Runs sample descriptions and made machines of 40, 200 and 1,000 forms, for so many edges (200,000) and for a tenth of them, each
N times (3). The figure is that of the edges between the two, so that reading the description counts for nothing, with the least
times; the peak memory of both runs is beside it. Meant are 500,000 edges a second for a machine of 40 forms, and a peak that
doesn't grow with the edges.

Where `iverilog` and `vvp` are installed, and where `verilator` is, the module that `verilog` writes is run by them likewise, and how
many times as fast `run` is: at least 10 times as fast as `vvp` is meant. A module that is too heavy is left out."""

import argparse
import hashlib
import os
import shutil
import subprocess
import sys
import tempfile
import time
from pathlib import Path

TOP = Path(__file__).resolve().parent.parent
PROGRAM = TOP / "crates/lisa/out/lisa"
sys.path.insert(0, str(TOP / "tests"))
from verilog_benches import Bench, declared, image_cells, write_bench  # noqa: E402


def made_machine(forms):
    """Five stages, registers of 32 bits, and so many instructions, each of which reads two of them and writes a third."""
    bits = max(1, (forms - 1).bit_length())
    signs = ("+", "-", "&", "|", "^", "*")
    out = ["RESOURCE {", "  CLOCKED PROGRAM_COUNTER uint32 pc;", "  REGISTER uint32 R[16];", "  PROGRAM_MEMORY uint32 prog[1024];",
           "  PIPELINE pipe = { FE; ID; EX; ME; WB };", "  PIPELINE_REGISTER IN pipe { uint32 ir; uint4 dst; uint32 res; };", "}",
           "OPERATION main { DECLARE { INSTANCE fetch; } ACTIVATION { fetch } }",
           "OPERATION fetch IN pipe.FE {", "  DECLARE { INSTANCE decode; }",
           "  BEHAVIOR { OUT.ir = prog[pc]; pc = pc + 1; }", "  ACTIVATION { decode }", "}",
           "OPERATION source {", "  DECLARE { LABEL n; }", "  CODING { n=0bx[4] }", '  SYNTAX { "r" ~ n=#U }', "  EXPRESSION { R[n] }", "}",
           "OPERATION writeback IN pipe.WB { BEHAVIOR { R[IN.dst] = IN.res; } }",
           "OPERATION decode IN pipe.ID {", "  DECLARE { GROUP instruction = { " + " || ".join(f"i{k}" for k in range(forms)) + " }; }",
           "  CODING { IN.ir == instruction }", "  ACTIVATION { instruction }", "}"]
    for k in range(forms):
        out += [f"OPERATION i{k} IN pipe.EX {{", "  DECLARE { INSTANCE a = source; INSTANCE b = source; INSTANCE writeback; LABEL d; }",
                f"  CODING {{ 0b{k:0{bits}b} d=0bx[4] a b 0bx[{20 - bits}] }}", f'  SYNTAX {{ "i{k}" d=#U ~ "," a ~ "," b }}',
                f"  BEHAVIOR {{ OUT.dst = d; OUT.res = a {signs[k % len(signs)]} b; }}", "  ACTIVATION { writeback }", "}"]
    return "\n".join(out) + "\n"


def image_for(program, description, forms):
    """A program that has each instruction in turn, over all registers."""
    bits = max(1, (forms - 1).bit_length())
    digest = hashlib.sha256(subprocess.run([program, "fmt", description], capture_output=True, check=True).stdout).hexdigest()
    cells = [(k * 7 % forms) << 32 - bits | (k % 16) << 28 - bits | (k * 3 % 16) << 24 - bits | (k * 5 % 16) << 20 - bits for k in range(1024)]
    return "\n".join([f"image 1 {digest}", "memory prog 32 1024 1024", *(f"{c:x}" for c in cells), "end"]) + "\n"


def least(words, runs):
    """The least time of some runs, and the peak of their memory in MiB."""
    best, peak = None, 0
    for _ in range(runs):
        began = time.monotonic()
        with tempfile.TemporaryFile() as said:
            run = subprocess.Popen(list(map(str, words)), stdout=subprocess.DEVNULL, stderr=said)
            _, status, used = os.wait4(run.pid, 0)
            run.returncode = os.waitstatus_to_exitcode(status)
            said.seek(0)
            if run.returncode:
                sys.exit(f"{' '.join(map(str, words))}: {said.read().decode('latin-1').strip()}")
        took = time.monotonic() - began
        best = took if best is None else min(best, took)
        peak = max(peak, used.ru_maxrss)
    return best, peak / 1024


def rate_of(words_for, given):
    """Edges a second between a tenth of the edges and all, the time of all, and the peak of memory. `words_for` makes ready what is
    run for so many edges."""
    few, many = given.edges // 10, given.edges
    start, first = least(words_for(few), given.runs)
    whole, last = least(words_for(many), given.runs)
    return (many - few) / max(whole - start, 1e-9), whole, max(first, last)


def in_folder(folder, words):
    subprocess.run(words, cwd=folder, check=True, stdout=subprocess.DEVNULL, stderr=subprocess.DEVNULL)


def icarus_words(folder, bench):
    def words(edges):
        bench.edges = edges
        write_bench(folder, bench, is_traced=False)
        in_folder(folder, ["iverilog", "-g2001", "-o", f"bench_{edges}", "m.v", "bench.v"])
        return ["env", "-C", folder, "vvp", "-n", f"bench_{edges}"]
    return words


def verilator_words(folder, bench):
    def words(edges):
        bench.edges = edges
        write_bench(folder, bench, is_traced=False)
        in_folder(folder, ["verilator", "--binary", "-O3", "-CFLAGS", "-O3", "--public-flat-rw", "-Wno-fatal", "--top-module", "bench", "--Mdir", f"built_{edges}",
                           "-o", "bench", "m.v", "bench.v"])
        return ["env", "-C", folder, f"built_{edges}/bench"]
    return words


TOOLS = (("vvp", ("iverilog", "vvp"), icarus_words), ("Verilator", ("verilator",), verilator_words))


def beside(folder, description, image, ours, given):
    """The written module's edges a second in other tools."""
    written = subprocess.run([given.program, "verilog", description], capture_output=True, text=True)
    if written.returncode:
        print(f"{'':28} {written.stderr.strip()}")
        return
    (folder / "m.v").write_text(written.stdout)
    cells = {} if image == "-" else image_cells(Path(image).read_text(encoding="ascii"))
    for name, needed, words in TOOLS:
        if all(map(shutil.which, needed)):
            theirs, _, _ = rate_of(words(folder, Bench("machine", *declared(written.stdout), cells)), given)
            print(f"{'':28} {theirs:12,.0f} by {name} on its module: run is {ours / theirs:.2f} times as fast", flush=True)


def show(name, description, image, folder, given):
    rate, whole, peak = rate_of(lambda edges: [given.program, "run", description, image, "-", str(edges)], given)
    print(f"{name:28} {rate:12,.0f} edges a second, {whole:7.2f} s in all, {peak:7.1f} MiB at most", flush=True)
    beside(folder, description, image, rate, given)


def main():
    parser = argparse.ArgumentParser(description=__doc__, formatter_class=argparse.RawDescriptionHelpFormatter)
    parser.add_argument("--runs", type=int, default=3)
    parser.add_argument("--edges", type=int, default=200_000)
    parser.add_argument("--program", type=Path, default=PROGRAM)
    given = parser.parse_args()
    with tempfile.TemporaryDirectory() as made:
        folder = Path(made)
        for name in ("a", "c", "e", "five"):
            show(f"examples/{name}.lisa", TOP / f"examples/{name}.lisa", "-", folder, given)
        for name in ("sieve", "suite"):
            show(f"examples/mips.lisa, {name}", TOP / "examples/mips.lisa", TOP / f"examples/{name}.image", folder, given)
        for forms in (40, 200, 1000):
            description, image = folder / f"m{forms}", folder / f"i{forms}"
            description.write_text(made_machine(forms), encoding="ascii")
            image.write_text(image_for(given.program, description, forms), encoding="ascii")
            show(f"a machine of {forms} forms", description, image, folder, given)


if __name__ == "__main__":
    main()
