#!/usr/bin/env python3
"""How long `lisa check` takes over 1,024 forms of 12 pieces, and how much memory.

    bench/forms.py [--runs N]

Makes descriptions whose instructions have 1,024 forms, in texts that begin apart and in texts that differ in their last
pieces alone, runs `./lisa check` on each, N times (3), and prints the least time and the peak of memory. Each is meant to
be checked in less than 3 seconds; the exit status is 0 where all were, else 1.
"""

import argparse
import os
import subprocess
import sys
import tempfile
import time
from pathlib import Path

TOP = Path(__file__).resolve().parent.parent
PROGRAM = TOP / "crates/lisa/out/lisa"
SECONDS = 3.0

APART = '"OP{k}" m=#U "," a "," "[" "A" "]" "," "X" "+" "Y"'
ALIKE = '"OP" m=#S "," "[" "]" "," "A" "+" "Y" "X{k}" "," a'


def description(text):
    """32 operations with a field and a child, which is one of 32 operations."""
    operations = " || ".join(f"o{k}" for k in range(32))
    children = " || ".join(f"r{k}" for k in range(32))
    parts = ["RESOURCE { REGISTER uint16 ir; }", "OPERATION main { }",
             f"OPERATION decode {{ DECLARE {{ GROUP g = {{ {operations} }}; }} CODING {{ ir == g }} }}"]
    for k in range(32):
        parts.append(f"OPERATION o{k} {{ DECLARE {{ GROUP a = {{ {children} }}; LABEL m; }} "
                     f"CODING {{ 0b{k:05b} a m=0bx[6] }} SYNTAX {{ {text.format(k=k)} }} }}")
        parts.append(f'OPERATION r{k} {{ CODING {{ 0b{k:05b} }} SYNTAX {{ "R{k}" }} }}')
    return "\n".join(parts) + "\n"


def measure(file):
    """Seconds, the peak of memory in MiB, and what was printed."""
    begin = time.perf_counter()
    with subprocess.Popen([str(PROGRAM), "check", file], stdout=subprocess.PIPE, text=True) as run:
        said = run.stdout.read()
        _, _, used = os.wait4(run.pid, 0)
        run.returncode = 0
    return time.perf_counter() - begin, used.ru_maxrss / 1024, said


def main():
    options = argparse.ArgumentParser(description=__doc__, formatter_class=argparse.RawDescriptionHelpFormatter)
    options.add_argument("--runs", type=int, default=3)
    runs = options.parse_args().runs
    # the first run builds the program where it is old
    subprocess.run([str(TOP / "lisa"), "fmt", str(TOP / "examples/a.lisa")], stdout=subprocess.DEVNULL, check=True)
    well = True
    print(f"{'texts':24} {'seconds':>8} {'MiB':>6}  forms")
    for name, text in (("that begin apart", APART), ("that differ at their end", ALIKE)):
        with tempfile.TemporaryDirectory() as folder:
            file = os.path.join(folder, "description.lisa")
            Path(file).write_text(description(text), encoding="ascii")
            tried = [measure(file) for _ in range(runs)]
        seconds, memory = min(it[0] for it in tried), max(it[1] for it in tried)
        said = tried[0][2].split("\n")
        well = well and seconds < SECONDS and "forms 1024" in said
        print(f"{name:24} {seconds:8.2f} {memory:6.0f}  {said[1] if len(said) > 1 else said}")
    return 0 if well else 1


if __name__ == "__main__":
    sys.exit(main())
