#!/usr/bin/env python3
"""How long a session of `lisa vdebug` takes that makes many edges and takes them back, and how much memory.

    bench/debugger.py [--runs N] [--edges N] [--registers N]

Steps 10,000 edges on a made module of 500 registers, all of which change at each edge, and goes back as many; and the same
on a module of which one register changes, whose journal is to be that much smaller. Each is run N times (3). The session is
meant to take less than 5 seconds; the last line says whether it did, and the status is 0 where it did, else 1."""

import argparse
import os
import subprocess
import sys
import tempfile
import time
from pathlib import Path

TOP = Path(__file__).resolve().parent.parent
PROGRAM = TOP / "crates/lisa/out/lisa"
MIB = 1 << 20
SECONDS = 5.0


def module(registers, changing):
    """So many registers, the first of which change at each edge."""
    out = ["module m (input clk);"]
    out += [f"  reg [31:0] r{i};" for i in range(registers)]
    out.append("  initial begin " + " ".join(f"r{i} = 32'd{i};" for i in range(registers)) + " end")
    out.append("  always @(posedge clk) begin " + " ".join(f"r{i} <= r{i} + 32'd1;" for i in range(changing)) + " end")
    return "\n".join([*out, "endmodule"]) + "\n"


def run(folder, script):
    """One session: its seconds, its peak of memory in bytes, and its answers."""
    begin = time.monotonic()
    process = subprocess.Popen([str(PROGRAM), "vdebug", "m.v", "-", "-"], cwd=folder, stdin=subprocess.PIPE, stdout=subprocess.PIPE)
    process.stdin.write(script.encode())
    process.stdin.close()
    answers = process.stdout.read().decode()
    _, status, used = os.wait4(process.pid, 0)
    process.returncode = os.waitstatus_to_exitcode(status)
    if process.returncode:
        sys.exit(f"lisa vdebug: status {process.returncode}")
    return time.monotonic() - begin, used.ru_maxrss * 1024, answers


def measure(folder, title, text, edges, runs):
    (folder / "m.v").write_text(text)
    script = f"step {edges}\nback {edges}\nshow r0\nquit\n"
    expected = f"edge {edges}\nedge 0\nr0 0x0\n"
    found = [run(folder, script) for _ in range(runs)]
    for _, _, answers in found:
        if answers != expected:
            sys.exit(f"{title}: the answers are {answers!r}, {expected!r} expected")
    seconds, peak = min(one for one, _, _ in found), max(one for _, one, _ in found)
    print(f"{title:<28} {edges} edges and back {seconds:8.3f} s {peak / MIB:8.1f} MiB", flush=True)
    return seconds


def main():
    parser = argparse.ArgumentParser(description=__doc__.splitlines()[0])
    parser.add_argument("--runs", type=int, default=3)
    parser.add_argument("--edges", type=int, default=10_000)
    parser.add_argument("--registers", type=int, default=500)
    words = parser.parse_args()
    # the first run builds the program where it is old
    subprocess.run([str(TOP / "lisa"), "fmt", str(TOP / "examples/a.lisa")], stdout=subprocess.DEVNULL, check=True)
    with tempfile.TemporaryDirectory() as made:
        folder = Path(made)
        count = words.registers
        all_change = measure(folder, f"{count} registers that change", module(count, count), words.edges, words.runs)
        measure(folder, f"{count} registers, one changes", module(count, 1), words.edges, words.runs)
    good = all_change < SECONDS
    print(f"in less than {SECONDS:g} s: {'yes' if good else 'NO'}")
    return 0 if good else 1


if __name__ == "__main__":
    sys.exit(main())
