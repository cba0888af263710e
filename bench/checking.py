#!/usr/bin/env python3
"""How long `lisa check` takes, and how much memory.

    bench/checking.py [--runs N] [--keep FOLDER] [--size BYTES]

Makes descriptions of 1 MiB (or `--size`) in shapes that ask much of one part of the checks, runs `./lisa check` on each,
N times (3), and prints the least time and the peak of memory. `--keep` leaves the descriptions in the folder.

A description of 1 MiB is meant to be checked in less than 5 seconds and 1 GiB, whatever its shape. The last line says
whether each was; the exit status is 0 where all were, else 1.
"""

import argparse
import os
import string
import subprocess
import sys
import tempfile
import time
from pathlib import Path

TOP = Path(__file__).resolve().parent.parent
PROGRAM = TOP / "crates/lisa/out/lisa"
MIB = 1024 * 1024
SECONDS = 5.0
MEMORY_MIB = 1024

HEAD = """RESOURCE {
  PROGRAM_COUNTER uint32 pc; REGISTER uint8 a; REGISTER int32 r[16]; MEMORY uint8 data[65536]; PIN uint1 stop;
  PIPELINE p = { FE; DE; EX }; PIPELINE_REGISTER IN p { uint32 insn; int32 value; };
}
OPERATION reset { BEHAVIOR { pc = 0; } }
"""
MAIN = "OPERATION main { }\n"


def fill(size, head, make, tail=""):
    """The head, as many parts as fit, and the tail."""
    parts, used, number = [head], len(head) + len(tail), 0
    while True:
        part = make(number)
        if used + len(part) > size:
            return "".join(parts) + tail
        parts.append(part)
        used += len(part)
        number += 1


def many_operations(size):
    """Small operations as processors have them."""
    return fill(size, HEAD + MAIN, lambda k: f"""OPERATION add{k} IN p.EX {{
  DECLARE {{ GROUP d = {{ reg{k} }}; LABEL n; }} CODING {{ 0b{k % 2} d n=0bx[4] }} SYNTAX {{ "ADD{k}" d ~ "," n=#U }}
  BEHAVIOR {{ int32 sum = d + (int32)n; if (sum < 0) OUTSIDE = sum; else {{ for (uint8 i = 0; i < 4; i = i + 1) d = sum >> (i * 8); }} p.FE.flush(); }}
}}
OPERATION reg{k} {{ DECLARE {{ LABEL i; }} CODING {{ i=0bx[4] }} SYNTAX {{ "R" ~ i=#U }} EXPRESSION {{ r[i] }} }}
""".replace("OUTSIDE", "d"))


def many_statements(size):
    return fill(size, HEAD + "OPERATION main { BEHAVIOR {\n", lambda k: f"if (stop) a = (uint8)(pc >> {k % 32}); else {{ data[pc] = a; pc = (uint32)(pc + {k % 7}); }}\n", "} }\n")


def many_locals(size):
    """Locals that are all in scope, each used by the next."""
    return fill(size, HEAD + "OPERATION main { BEHAVIOR { uint8 x0;\n", lambda k: f"uint8 x{k + 1} = x{k};\n", "} }\n")


def many_names(size):
    """One operation that declares labels and references, and one below it that uses all of them."""
    names = [f"n{k}" for k in range(size // 35)]
    labels = ", ".join(names)
    fields = " ".join(f"{n}=0bx" for n in names)
    return HEAD + "OPERATION main { DECLARE { LABEL " + labels + "; INSTANCE x; } }\nOPERATION x { DECLARE { REFERENCE " + labels + "; } }\n" + "OPERATION y { DECLARE { LABEL " + labels + "; } CODING { " + fields + " } }\n"


def referenced_by_all(size):
    """One operation that all others declare and that refers to a name of each."""
    return fill(size, HEAD + MAIN + "OPERATION below { DECLARE { REFERENCE n; } EXPRESSION { n } }\nOPERATION leaf { EXPRESSION { a } }\n",
                lambda k: f"OPERATION o{k} {{ DECLARE {{ INSTANCE below, n = leaf; }} }}\n")


def reference_chain(size, backward=False):
    """Each operation refers to a name of the one above it."""
    count = size // 80
    order = range(count)
    parts = [f"OPERATION o{k} {{ DECLARE {{ INSTANCE o{k + 1}; REFERENCE n; }} EXPRESSION {{ n }} }}\n" for k in order]
    parts = parts[::-1] if backward else parts
    return (HEAD + MAIN + "OPERATION top { DECLARE { INSTANCE o0, n = leaf; } }\nOPERATION leaf { EXPRESSION { a } }\n" + "".join(parts)
            + f"OPERATION o{count} {{ }}\n")


def expression_chain(size, backward=False):
    """Each operation's expression is that of the next."""
    count = size // 72
    parts = [f"OPERATION o{k} {{ DECLARE {{ INSTANCE o{k + 1}; }} EXPRESSION {{ o{k + 1} }} }}\n" for k in range(count)]
    parts = parts[::-1] if backward else parts
    return HEAD + MAIN + "".join(parts) + f"OPERATION o{count} {{ EXPRESSION {{ a }} }}\n"


def wide_group(size):
    """A group of many alternatives that is read as often."""
    count = size // 72
    alternatives = " || ".join(f"o{k}" for k in range(count))
    operations = "".join(f"OPERATION o{k} {{ CODING {{ 0b1 }} EXPRESSION {{ a }} }}\n" for k in range(count))
    uses = "a = g;" * (size // 72)
    return HEAD + MAIN + "OPERATION x { DECLARE { GROUP g = { " + alternatives + " }; } CODING { g } BEHAVIOR { " + uses + " } }\n" + operations


def group_of_many_names(size):
    """Many names that share many alternatives."""
    names = ", ".join(f"g{k}" for k in range(size // 40))
    alternatives = " || ".join(f"o{k}" for k in range(size // 80))
    operations = "".join(f"OPERATION o{k} {{ EXPRESSION {{ a }} }}\n" for k in range(size // 80))
    return HEAD + MAIN + "OPERATION x { DECLARE { GROUP " + names + " = { " + alternatives + " }; } }\n" + operations


def deep_groups(size):
    """Levels of groups of three, each of which leads to all of the next level."""
    count = size // 330
    parts = []
    for k in range(count):
        below = " || ".join(f"o{k + 1}_{j}" for j in range(3))
        parts += [f"OPERATION o{k}_{j} {{ DECLARE {{ GROUP g = {{ {below} }}; }} CODING {{ g }} EXPRESSION {{ g }} }}\n" for j in range(3)]
    last = "".join(f"OPERATION o{count}_{j} {{ CODING {{ 0b1 }} EXPRESSION {{ a }} }}\n" for j in range(3))
    return HEAD + MAIN + "".join(parts) + last


def activation_chain(size, backward=False):
    """Operations without a stage that activate one another, below operations of all stages."""
    count = size // 72
    parts = [f"OPERATION o{k} {{ DECLARE {{ INSTANCE o{k + 1}; }} ACTIVATION {{ o{k + 1} }} }}\n" for k in range(count)]
    parts = parts[::-1] if backward else parts
    stages = "".join(f"OPERATION s{j} IN p.{s} {{ DECLARE {{ INSTANCE n = {n}; INSTANCE o0; }} ACTIVATION {{ n, o0 }} }}\n" for j, (s, n) in enumerate((("FE", "s1"), ("DE", "s2"), ("EX", "o1"))))
    return HEAD + "OPERATION main { DECLARE { INSTANCE s0; } ACTIVATION { s0 } }\n" + stages + "".join(parts) + f"OPERATION o{count} {{ }}\n"


def many_stages(size):
    """As many stages as operations, and a chain of operations without a stage below them."""
    count = size // 200
    stages = "; ".join(f"s{k}" for k in range(count))
    staged = "".join(f"OPERATION t{k} IN p.s{k} {{ DECLARE {{ INSTANCE n = t{k + 1}; INSTANCE u0; }} ACTIVATION {{ n, u0 }} }}\n" for k in range(count - 1))
    chain = "".join(f"OPERATION u{k} {{ DECLARE {{ INSTANCE u{k + 1}; }} ACTIVATION {{ u{k + 1} }} }}\n" for k in range(count))
    return ("RESOURCE { PIPELINE p = { " + stages + " }; }\nOPERATION main { DECLARE { INSTANCE t0; } ACTIVATION { t0 } }\n" + staged
            + f"OPERATION t{count - 1} IN p.s{count - 1} {{ }}\n" + chain + f"OPERATION u{count} {{ }}\n")


def between_circles(size):
    """A chain of operations between two that reach themselves."""
    count = size // 60
    chain = "".join(f"OPERATION o{k} {{ DECLARE {{ INSTANCE o{k + 1}; }} }}\n" for k in range(count))
    return HEAD + MAIN + chain + f"OPERATION o{count} {{ DECLARE {{ INSTANCE o{count}; }} }}\nOPERATION x {{ DECLARE {{ INSTANCE x, o0; }} }}\n"


def listed_often(size):
    """One operation that another lists under many names, and that refers to many names of it."""
    count = size // 48
    instances = ", ".join(f"i{k} = below" for k in range(count))
    meant = ", ".join(f"n{k} = leaf" for k in range(count))
    references = ", ".join(f"n{k}" for k in range(count))
    return (HEAD + MAIN + "OPERATION top { DECLARE { INSTANCE " + instances + ", " + meant + "; } }\nOPERATION below { DECLARE { REFERENCE " + references
            + "; } }\nOPERATION leaf { EXPRESSION { a } }\n")


def declared_by_all(size):
    """One operation that refers to a name for each letter, and as many operations above it as fit, which declare them all."""
    names = ",".join(string.ascii_uppercase)
    return fill(size, HEAD + MAIN + "OPERATION leaf { EXPRESSION { r[0] } }\nOPERATION below { DECLARE { REFERENCE " + names + "; } }\n",
                lambda k: f"OPERATION o{k} {{ DECLARE {{ INSTANCE below; GROUP {names} = {{ leaf }}; }} }}\n")


def lacked_by_all(size):
    """One operation that refers to many names, and many operations above it, none of which declares any of them."""
    references = ", ".join(f"n{k}" for k in range(size // 52))
    return HEAD + MAIN + "OPERATION below { DECLARE { REFERENCE " + references + "; } }\n" + "".join(f"OPERATION o{k} {{ DECLARE {{ INSTANCE below; }} }}\n" for k in range(size // 104))


SHAPES = {
    "many operations": many_operations,
    "many statements": many_statements,
    "many locals in scope": many_locals,
    "many declared names": many_names,
    "one operation referenced by all": referenced_by_all,
    "a chain of references": reference_chain,
    "a chain of references, backward": lambda size: reference_chain(size, True),
    "a chain of expressions": expression_chain,
    "a chain of expressions, backward": lambda size: expression_chain(size, True),
    "a wide group, used as often": wide_group,
    "a group of many names": group_of_many_names,
    "deep groups": deep_groups,
    "a chain of activations": activation_chain,
    "a chain of activations, backward": lambda size: activation_chain(size, True),
    "many stages": many_stages,
    "a chain between two circles": between_circles,
    "one operation listed often": listed_often,
    "references that all above declare": declared_by_all,
    "references that all above lack": lacked_by_all,
}


def run(program, file):
    """Seconds, the peak of memory in MiB, and what was printed."""
    begun = time.monotonic()
    done = subprocess.Popen([program, "check", str(file)], stdout=subprocess.PIPE, stderr=subprocess.STDOUT)
    text = done.stdout.read().decode()
    _, status, usage = os.wait4(done.pid, 0)
    done.returncode = os.waitstatus_to_exitcode(status)
    return time.monotonic() - begun, usage.ru_maxrss / 1024, text.strip()


def main():
    parser = argparse.ArgumentParser(description=__doc__, formatter_class=argparse.RawDescriptionHelpFormatter)
    parser.add_argument("--runs", type=int, default=3)
    parser.add_argument("--keep", type=Path)
    parser.add_argument("--size", type=int, default=MIB)
    words = parser.parse_args()
    subprocess.run([str(TOP / "lisa"), "fmt", str(TOP / "examples/a.lisa")], stdout=subprocess.DEVNULL, check=True)
    program = str(PROGRAM)
    all_well = True
    with tempfile.TemporaryDirectory() as folder:
        folder = words.keep or Path(folder)
        folder.mkdir(parents=True, exist_ok=True)
        print(f"{'shape':36} {'size':>9} {'seconds':>8} {'MiB':>6}  answer")
        for name, make in SHAPES.items():
            text = make(words.size)[:]
            file = folder / (name.replace(" ", "_").replace(",", "") + ".lisa")
            file.write_text(text)
            runs = [run(program, file) for _ in range(words.runs)]
            seconds, memory, answer = min(r[0] for r in runs), max(r[1] for r in runs), runs[0][2]
            well = seconds < SECONDS and memory < MEMORY_MIB and len(text) <= MIB
            all_well &= well
            print(f"{name:36} {len(text):9} {seconds:8.2f} {memory:6.0f}  {answer}{'' if well else '  <- above the bar'}")
    print("all below the bar" if all_well else "some above the bar")
    return 0 if all_well else 1


if __name__ == "__main__":
    sys.exit(main())
