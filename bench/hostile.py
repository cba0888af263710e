#!/usr/bin/env python3
"""How long small files take that are dear to answer, and how much memory.

    bench/hostile.py [--seconds N] [--keep FOLDER] [KIND ..]

A user may be handed a file that somebody else wrote to hold the program up. These are accepted, or rightly refused, have at most 1 MiB,
and ask much of one part of `check`, of `verilog` for `wires`, or of `clock` for the module. Each is answered once, and broken off after so
many seconds of processor (30). Meant are 5 seconds and 1 GiB for each but `chain`, whose forms have 52 million operations. The exit status
is 0 where all that were tried keep that."""

import argparse
import itertools
import os
import resource
import string
import subprocess
import sys
import tempfile
import time
from pathlib import Path

TOP = Path(__file__).resolve().parent.parent
PROGRAM = TOP / "crates/lisa/out/lisa"
SECONDS = 5.0
MEMORY_MIB = 1024
FREE = ("chain",)
PAIR = ['OPERATION p { CODING { 0b0 } SYNTAX { "P" } }', 'OPERATION q { CODING { 0b1 } SYNTAX { "Q" } }']

MULTIPLIER = 0x9E3779B97F4A7C15


def numbered(letter, count):
    return [f"{letter}{k}" for k in range(count)]


def instructions(width, top, rest):
    """A description whose instructions, of this width, are those of the operation `top`."""
    return [f"RESOURCE {{ REGISTER uint{width} w; }}", "OPERATION main { }",
            "OPERATION decode { DECLARE { GROUP i = { top }; } CODING { w == i } }", top, *rest]


def meetings(labels=54, groups=10):
    """Texts of 1,024 forms, each with 54 signed numbers of one bit, compared pair by pair."""
    n, y = numbered("n", labels), numbered("y", groups)
    coding = " ".join(y) + " " + " ".join(one + "=0bx[1]" for one in n)
    syntax = ' "," '.join(one + "=#S" for one in n) + ' "," ' + " ".join(y)
    top = f"OPERATION top {{ DECLARE {{ LABEL {', '.join(n)}; GROUP {', '.join(y)} = {{ p || q }}; }} CODING {{ {coding} }} SYNTAX {{ {syntax} }} }}"
    return instructions(labels + groups, top, PAIR)


def texts(levels=900, strings=200_000, groups=10):
    """A long text below a chain of operations, in 1,024 forms."""
    y = numbered("y", groups)
    chain_of = [f"OPERATION c{k} {{ DECLARE {{ INSTANCE x = {f'c{k + 1}' if k + 1 < levels else 'leaf'}; }} CODING {{ x }} SYNTAX {{ x }} }}" for k in range(levels)]
    leaf = "OPERATION leaf { CODING { 0b0 } SYNTAX { " + " ".join(['"A"'] * strings) + " } }"
    top = f"OPERATION top {{ DECLARE {{ INSTANCE x = c0; GROUP {', '.join(y)} = {{ p || q }}; }} CODING {{ 0b1 x {' '.join(y)} }} SYNTAX {{ x {' '.join(y)} }} }}"
    return instructions(groups + 2, top, chain_of + [leaf] + PAIR)


def leaves():
    """The same text without a chain."""
    return texts(levels=1, strings=230_000)


def beside(strings=230_000, groups=10):
    """The same text beside the children of 1,024 forms."""
    y = " ".join(numbered("y", groups))
    text = " ".join(['"A"'] * strings)
    top = f"OPERATION top {{ DECLARE {{ GROUP {y.replace(' ', ', ')} = {{ p || q }}; }} CODING {{ {y} }} SYNTAX {{ {text} {y} }} }}"
    return instructions(groups, top, PAIR)


def dotless(signs=900_000, groups=10):
    """A long text without a run below 1,024 forms."""
    y = numbered("y", groups)
    leaf = f'OPERATION leaf {{ CODING {{ 0b0 }} SYNTAX {{ "{"," * signs}" }} }}'
    top = f"OPERATION top {{ DECLARE {{ INSTANCE x = leaf; GROUP {', '.join(y)} = {{ p || q }}; }} CODING {{ x {' '.join(y)} }} SYNTAX {{ x {' '.join(y)} }} }}"
    return instructions(groups + 1, top, [leaf] + PAIR)


def uneven(signs=400_000, groups=10):
    """Texts of 1,024 forms of a number with a sign or one without, and a long string behind it, which differ at the end of that alone."""
    y = numbered("y", groups)
    pair = [f'OPERATION {one} {{ DECLARE {{ LABEL n; }} CODING {{ 0b{bit} n=0bx[2] }} SYNTAX {{ n={kind} "{"," * signs}{end}" }} }}'
            for one, bit, kind, end in (("p", 0, "#S", "P"), ("q", 1, "#U", "Q"))]
    top = f"OPERATION top {{ DECLARE {{ GROUP {', '.join(y)} = {{ p || q }}; }} CODING {{ {' '.join(y)} }} SYNTAX {{ {' '.join(y)} }} }}"
    return instructions(3 * groups, top, pair)


def endings(signs=100_000, groups=10):
    """Texts of 1,024 forms of two alternatives whose long strings differ at the end alone, compared pair by pair."""
    y = numbered("y", groups)
    pair = [f'OPERATION {one} {{ CODING {{ 0b{bit} }} SYNTAX {{ "{"," * signs}{end}" }} }}' for one, bit, end in (("p", 0, "P"), ("q", 1, "Q"))]
    top = f"OPERATION top {{ DECLARE {{ GROUP {', '.join(y)} = {{ p || q }}; }} CODING {{ {' '.join(y)} }} SYNTAX {{ {' '.join(y)} }} }}"
    return instructions(groups, top, pair)


def references(count=2600, levels=120, alternatives=850, by_all=False):
    """Many names over one group, handed on by references that nothing uses."""
    names = [n for n in (a + b for a in string.ascii_letters for b in string.ascii_letters) if n not in ("if", "IN")][:count]
    meant = numbered("m", alternatives)

    def below(level):
        if level + 1 >= levels:
            return ""
        return f"GROUP zz9 = {{ {'||'.join(f't{k}' for k in range(level + 1, levels))} }};" if by_all else f"INSTANCE t{level + 1};"

    return ["RESOURCE { REGISTER uint8 r; }", "OPERATION main { DECLARE { INSTANCE t0; } ACTIVATION { t0 } }",
            f"OPERATION t0 {{ DECLARE {{ GROUP {','.join(names)} = {{ {'||'.join(meant)} }}; {below(0)} }} }}",
            *(f"OPERATION t{k} {{ DECLARE {{ REFERENCE {','.join(names)}; {below(k)} }} }}" for k in range(1, levels)),
            *(f"OPERATION {one} {{ EXPRESSION {{ r }} }}" for one in meant)]


def cascade():
    """The same, each operation listed by all before it."""
    return references(1000, 250, 700, by_all=True)


def flat(count=16_000):
    """As many references to one group as it has alternatives."""
    names, meant = ",".join(numbered("n", count)), numbered("m", count)
    return ["RESOURCE { REGISTER uint8 r; } OPERATION main { DECLARE { INSTANCE t; } ACTIVATION { t } }",
            f"OPERATION t {{ DECLARE {{ GROUP {names} = {{ {'||'.join(meant)} }}; INSTANCE u; }} }} OPERATION u {{ DECLARE {{ REFERENCE {names}; }} }}",
            *(f"OPERATION {one}{{EXPRESSION{{r}}}}" for one in meant)]


def lacking(count=22_500):
    """Names that none of many operations above declares, so it is refused."""
    return ["RESOURCE { REGISTER uint8 r; } OPERATION main { }",
            f"OPERATION o {{ DECLARE {{ REFERENCE {','.join(numbered('n', count))}; }} }}",
            *(f"OPERATION a{k}{{DECLARE{{INSTANCE o;}}}}" for k in range(count))]


def chain(levels=950, instances=54, groups=10):
    """1,024 forms of 51,311 operations each."""
    x, y = numbered("x", instances), numbered("y", groups)
    rest = [f"OPERATION c{k} {{ DECLARE {{ INSTANCE x = c{k + 1}; }} CODING {{ x }} SYNTAX {{ x }} }}" for k in range(levels - 1)]
    rest.append(f'OPERATION c{levels - 1} {{ CODING {{ 0b0 }} SYNTAX {{ "A" }} }}')
    all_names = " ".join(x + y)
    top = (f"OPERATION top {{ DECLARE {{ INSTANCE {', '.join(one + ' = c0' for one in x)}; GROUP {', '.join(y)} = {{ p || q }}; }} "
           f"CODING {{ {all_names} }} SYNTAX {{ {all_names} }} }}")
    return instructions(instances + groups, top, rest + PAIR)


def open_types(count=13_000):
    """Types that rest on each other along a chain of references."""
    rest = [f"OPERATION a{k}{{DECLARE{{REFERENCE n;{f'INSTANCE b=a{k + 1};' if k < count else ''}}}EXPRESSION{{n}}}}" for k in range(count, 1, -1)]
    last = f"OPERATION a1{{DECLARE{{GROUP n={{{'||'.join(f'a{k}' for k in range(2, count + 1))}||e}};INSTANCE b=a2;}}}}OPERATION e{{}}"
    return ["RESOURCE{}OPERATION main{}", *rest, last]


def reset(levels=17):
    """A `reset` of few statements with a large expression."""
    total = "a"
    for _ in range(levels):
        total = f"{total}+({total})"
    return ["RESOURCE { REGISTER uint8 a; } OPERATION main { }", "OPERATION reset { BEHAVIOR {",
            f"for (uint16 i = 0; i < 256; i = i + 1) for (uint16 j = 0; j < 14; j = j + 1) a = {total}; }} }}"]


def folded(state, multiplier):
    """A step of the hash of the kit's hashed tables, whose start is fixed."""
    product = state * multiplier
    return (product ^ product >> 64) & (2**64 - 1)


def near(count):
    """Names of six letters that a hashed table of up to 16,384 groups would have in its first 256."""
    found = []
    for front in itertools.product(string.ascii_letters, repeat=4):
        state = folded(0x243F6A8885A308D3 ^ 6, MULTIPLIER ^ 16)
        for letter in front:
            state = folded(state ^ ord(letter), MULTIPLIER ^ 2)
        for fifth in string.ascii_letters:
            last = folded(state ^ ord(fifth), MULTIPLIER ^ 2)
            for sixth in string.ascii_letters:
                value = folded(last ^ ord(sixth), MULTIPLIER ^ 2)
                if (value ^ value >> 32) & 0x3F00 == 0:
                    found.append("".join(front) + fifth + sixth)
        if len(found) >= count:
            return found[:count]


def names(count=80_000):
    """Names that would collide in tables that hash them: half are declared, and half are locals."""
    all_names = near(count)
    declared, local = all_names[:count // 2], all_names[count // 2:]
    return ["RESOURCE { REGISTER uint1 r; } OPERATION leaf { EXPRESSION { r } }",
            f"OPERATION main {{ DECLARE {{ GROUP {','.join(declared)} = {{ leaf }}; }} BEHAVIOR {{ {' '.join(f'uint1 {one};' for one in local)} }} }}"]


def fed(state, number, size=8):
    """The hash's state behind a number of so many bytes."""
    return folded(state ^ (number | number << 32 if size == 4 else number), MULTIPLIER ^ 2 * size)


def wires(count=9_000):
    """Pairs of literals whose wires would all collide in a table that hashes them. Nearly as much as `verilog` takes."""
    state = 0x243F6A8885A308D3
    # a wire's width, that it is an operator, `^`, and that its first operand is a number of this width
    for number, size in ((64, 4), (5, 8), (5, 8), (0, 8), (64, 4)):
        state = fed(state, number, size)
    pairs = []
    for first in itertools.count(1 << 63):
        second = fed(fed(fed(state, first), 0), 64, 4)
        if second >> 63:
            pairs.append(f"(0x{first:x} ^ 0x{second:x})")
        if len(pairs) >= count:
            break
    statements = [f"r = {' | '.join(pairs[at:at + 4])};" for at in range(0, count, 4)]
    return ["RESOURCE { REGISTER uint64 r; }", "OPERATION main { BEHAVIOR {", *statements, "} }"]


def sums(lines=4000, terms=126):
    """A module of left chains of sums."""
    return ["module t (input clk, input [7:0] a);", " reg [7:0] s;", " initial s = 8'd1;", " always @(posedge clk) begin",
            *(["  s <= a" + "+a" * terms + ";"] * lines), " end", "endmodule"]


KINDS = {one.__name__: one for one in (meetings, texts, leaves, beside, dotless, uneven, endings, references, cascade, flat, lacking, chain, open_types, reset, names, wires, sums)}


def answered(words, seconds):
    """The seconds of a run and its peak of memory in MiB, or None where it was broken off."""
    began = time.monotonic()
    run = subprocess.Popen(words, stdout=subprocess.DEVNULL, stderr=subprocess.DEVNULL,
                           preexec_fn=lambda: resource.setrlimit(resource.RLIMIT_CPU, (int(seconds), int(seconds) + 1)))
    _, status, usage = os.wait4(run.pid, 0)
    took = time.monotonic() - began
    return None if os.WIFSIGNALED(status) else (took, usage.ru_maxrss / 1024)


def main():
    parser = argparse.ArgumentParser(description=__doc__, formatter_class=argparse.RawDescriptionHelpFormatter)
    parser.add_argument("kinds", nargs="*", metavar="KIND", help=" ".join(KINDS))
    parser.add_argument("--seconds", type=float, default=30)
    parser.add_argument("--keep", type=Path)
    given = parser.parse_args()
    if not set(given.kinds) <= set(KINDS):
        parser.error("the kinds are " + " ".join(KINDS))
    kept = True
    with tempfile.TemporaryDirectory() as made:
        folder = given.keep or Path(made)
        folder.mkdir(parents=True, exist_ok=True)
        for kind in given.kinds or KINDS:
            file = folder / kind
            file.write_text("\n".join(KINDS[kind]()) + "\n", encoding="ascii")
            words = {"sums": ["clock", file, "-", "-", "1"], "wires": ["verilog", file]}.get(kind, ["check", file])
            found = answered([PROGRAM, *words], given.seconds)
            is_kept = found is not None and found[0] <= SECONDS and found[1] <= MEMORY_MIB
            kept = kept and (is_kept or kind in FREE)
            said = f"more than {given.seconds:.0f} s" if found is None else f"{found[0]:6.2f} s {found[1]:7.0f} MiB"
            print(f"{kind:12} {file.stat().st_size:9,} bytes  {said}{'' if is_kept or kind in FREE else '  over what is meant'}", flush=True)
    print("all keep what is meant" if kept else "some don't keep what is meant")
    return 0 if kept else 1


if __name__ == "__main__":
    sys.exit(main())
