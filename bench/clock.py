#!/usr/bin/env python3
"""How long `lisa clock` takes for a module's edges, beside Icarus Verilog on the same module.

    bench/clock.py [--runs N] [--edges N] [--wires N]

Clocks the sample module `examples/v.v`, and a made one of about 2,000 wires, each for the same number of edges by
`./lisa clock` and, where `iverilog` and `vvp` are installed, by Icarus Verilog, which prints the registers once at the
end. Each is run N times (3); the least times and their ratio are printed, below 1 where `lisa` is the faster one. Then a
made module of about 8 MiB is read, which is meant to take less than 10 seconds."""

import argparse
import random
import resource
import shutil
import subprocess
import sys
import tempfile
import time
from pathlib import Path

TOP = Path(__file__).resolve().parent.parent
PROGRAM = TOP / "crates/lisa/out/lisa"
MIB = 1 << 20
SECONDS_TO_READ = 10.0


def register_count(wires):
    """A register for each sixteenth wire, within the limit on registers."""
    return min(max(2, wires // 16), 4096)


def made_module(wires):
    """A module of so many wires, each with one or two operators, some registers and an array."""
    draw = random.Random(7)
    registers = register_count(wires)
    out = ["module m (input clk);"]
    out += [f"  reg [31:0] r{i};" for i in range(registers)]
    out.append("  reg [31:0] a [0:255];")
    names = [f"r{i}" for i in range(registers)]
    for i in range(wires):
        left, right = draw.choice(names[-200:]), draw.choice(names)
        sign = draw.choice(("+", "-", "*", "&", "|", "^", "<<", ">>", "==", "<"))
        text = f"{left} {sign} {right}" if sign not in ("<<", ">>") else f"{left} {sign} {right}[4:0]"
        if i % 7 == 0:
            text = f"{right}[0] ? {left} : {draw.choice(names)}"
        if i % 50 == 0:
            text = f"a[{left}[7:0]]"
        out.append(f"  wire [31:0] w{i} = {text};")
        names.append(f"w{i}")
    out.append("  initial begin " + " ".join(f"r{i} = 32'd{i * 2654435761 % (1 << 32)};" for i in range(registers)) + " end")
    out.append("  always @(posedge clk) begin")
    out += [f"    r{i} <= w{draw.randrange(wires)} + r{(i + 1) % registers};" for i in range(registers)]
    out += [f"    if (w{wires - 1}[0]) a[w{wires - 2}[7:0]] <= w{wires - 3};", "  end", "endmodule"]
    return "\n".join(out) + "\n"


def seconds(words, runs, folder):
    """The least time of some runs."""
    least = None
    for _ in range(runs):
        begin = time.monotonic()
        done = subprocess.run(words, cwd=folder, stdout=subprocess.DEVNULL, stderr=subprocess.PIPE)
        taken = time.monotonic() - begin
        if done.returncode:
            sys.exit(f"{' '.join(words)}: status {done.returncode}: {done.stderr.decode(errors='replace').strip()}")
        least = taken if least is None else min(least, taken)
    return least


def bench_text(name, registers, arrays, edges):
    """A test bench. Arrays are 0 before the first edge, as `lisa` has them."""
    shown = " ".join(f'$display("%h", dut.{register});' for register in registers)
    zeros = "".join(f"    for (i = 0; i < {depth}; i = i + 1) dut.{array}[i] = 0;\n" for array, depth in arrays.items())
    return (f"module bench;\n  reg clk;\n  integer i;\n  {name} dut (clk);\n  initial begin\n    clk = 0;\n{zeros}"
            f"    repeat ({edges}) begin #1 clk = 1; #1 clk = 0; end\n    {shown}\n    $finish;\n  end\nendmodule\n")


def compared(folder, title, text, name, registers, arrays, edges, runs):
    (folder / "m.v").write_text(text)
    ours = seconds([str(PROGRAM), "clock", "m.v", "-", "-", str(edges)], runs, folder)
    line = f"{title:<14} {edges:>8} edges  lisa {ours:8.3f} s"
    if shutil.which("iverilog") and shutil.which("vvp"):
        (folder / "bench.v").write_text(bench_text(name, registers, arrays, edges))
        subprocess.run(["iverilog", "-g2001", "-o", "bench", "m.v", "bench.v"], cwd=folder, check=True)
        theirs = seconds(["vvp", "-n", "bench"], runs, folder)
        line += f"  vvp {theirs:8.3f} s  ratio {ours / theirs:6.2f}"
    print(line, flush=True)


def read_large(folder, runs):
    """How long it takes to read a module of about 8 MiB."""
    text = made_module(8 * MIB // 49)
    (folder / "large.v").write_text(text)
    taken = seconds([str(PROGRAM), "clock", "large.v", "-", "-", "0"], runs, folder)
    peak = resource.getrusage(resource.RUSAGE_CHILDREN).ru_maxrss * 1024
    print(f"a module of {len(text) / MIB:.1f} MiB is read and made in {taken:.2f} s, with at most {peak / MIB:.0f} MiB")
    return taken < SECONDS_TO_READ


def main():
    parser = argparse.ArgumentParser(description=__doc__.splitlines()[0])
    parser.add_argument("--runs", type=int, default=3)
    parser.add_argument("--edges", type=int, default=2_000)
    parser.add_argument("--wires", type=int, default=2_000)
    words = parser.parse_args()
    # the first run builds the program where it is old
    subprocess.run([str(TOP / "lisa"), "fmt", str(TOP / "examples/a.lisa")], stdout=subprocess.DEVNULL, check=True)
    with tempfile.TemporaryDirectory() as made:
        folder = Path(made)
        sample = (TOP / "examples" / "v.v").read_text()
        compared(folder, "sample", sample, "t", ("a", "b", "s"), {}, 100 * words.edges, words.runs)
        text = made_module(words.wires)
        registers = [f"r{i}" for i in range(register_count(words.wires))]
        compared(folder, f"{words.wires} wires", text, "m", registers, {"a": 256}, words.edges, words.runs)
        good = read_large(folder, 1)
    print(f"8 MiB in less than {SECONDS_TO_READ:g} s: {'yes' if good else 'NO'}")
    return 0 if good else 1


if __name__ == "__main__":
    sys.exit(main())
