#!/usr/bin/env python3
"""Clocks modules of the subset by `lisa clocktrace` and by Icarus Verilog, and compares each register and cell after each edge.

    tests/compare_icarus.py [--modules N] [--edges N] [--seed N] [--keep FOLDER] PROGRAM

The modules are made at random from the seed: inputs, registers, arrays, wires, first values, an image, a schedule, and
blocks with tests and assignments whose expressions use every operator. Where `iverilog` or `vvp` isn't found, nothing is
compared, and a line says so. The status is 0 where all agree."""

import argparse
import random
import shutil
import subprocess
import sys
import tempfile
from pathlib import Path

from verilog_benches import Bench, by_icarus, differences, states_of, write_bench

WIDEST = 64
# The operators by their levels, from the loosest to the tightest.
LEVELS = (("||",), ("&&",), ("|",), ("^",), ("&",), ("==", "!="), ("<", "<=", ">", ">="), ("<<", ">>"), ("+", "-"), ("*",))
CHOICE, UNARY, PRIMARY = 0, 11, 12
TRUTHS = {"||", "&&", "==", "!=", "<", "<=", ">", ">="}


class Expression:
    """A text with the level at which it needs no parentheses, and its length in bits."""

    def __init__(self, text, level, width):
        self.text, self.level, self.width = text, level, width

    def at(self, level):
        return self.text if self.level >= level else f"({self.text})"


class Maker:
    """Makes one module. Wires name only what stands before them."""

    def __init__(self, seed):
        self.random = random.Random(seed)
        self.scalars, self.arrays = {}, {}

    def pick(self, things):
        return self.random.choice(sorted(things))

    def width(self):
        return self.random.choice((1, 1, 2, 3, 4, 7, 8, 8, 13, 16, 31, 32, 33, 48, 63, 64))

    def number(self, width=None):
        width = width or self.width()
        value = self.random.choice((0, 1, (1 << width) - 1, self.random.getrandbits(width)))
        base, digits = self.random.choice((("d", str(value)), ("h", f"{value:x}"), ("b", f"{value:b}")))
        return Expression(f"{width}'{base}{digits}", PRIMARY, width)

    def index(self, depth):
        """An index as wide as the depth wants, without an operator in it."""
        width = depth.bit_length() - 1
        fitting = [name for name, wide in self.scalars.items() if wide == width]
        wider = [name for name, wide in self.scalars.items() if wide > width]
        if fitting and self.random.random() < 0.6:
            return self.pick(fitting)
        if wider and self.random.random() < 0.7:
            name = self.pick(wider)
            low = self.random.randrange(self.scalars[name] - width + 1)
            return f"{name}[{low + width - 1}:{low}]" if width > 1 else f"{{{name}[{low}]}}"
        return self.number(width).text

    def leaf(self):
        kind = self.random.random()
        if kind < 0.25 or not self.scalars:
            return self.number()
        if kind < 0.4 and self.arrays:
            name = self.pick(self.arrays)
            width, depth = self.arrays[name]
            return Expression(f"{name}[{self.index(depth)}]", PRIMARY, width)
        name = self.pick(self.scalars)
        width = self.scalars[name]
        if kind < 0.6:
            high = self.random.randrange(width)
            low = self.random.randrange(high + 1)
            text = f"{name}[{high}]" if high == low and self.random.random() < 0.8 else f"{name}[{high}:{low}]"
            return Expression(text, PRIMARY, high - low + 1)
        return Expression(name, PRIMARY, width)

    def joined(self, depth):
        parts = [self.expression(depth - 1) for _ in range(self.random.randrange(1, 4))]
        return Expression("{" + ", ".join(part.text for part in parts) + "}", PRIMARY, sum(part.width for part in parts))

    def repeated(self, depth):
        times, part = self.random.randrange(1, 4), self.expression(depth - 1)
        return Expression(f"{{{times}{{{part.text}}}}}", PRIMARY, times * part.width)

    def chosen(self, depth):
        test, this, other = (self.expression(depth - 1) for _ in range(3))
        return Expression(f"{test.at(1)} ? {this.at(0)} : {other.at(0)}", CHOICE, max(this.width, other.width))

    def one(self, depth):
        sign, part = self.random.choice("~!"), self.expression(depth - 1)
        return Expression(sign + part.at(PRIMARY), UNARY, part.width if sign == "~" else 1)

    def two(self, depth):
        level = self.random.randrange(len(LEVELS)) + 1
        sign = self.random.choice(LEVELS[level - 1])
        left, right = self.expression(depth - 1), self.expression(depth - 1)
        width = 1 if sign in TRUTHS else left.width if sign in LEVELS[7] else max(left.width, right.width)
        return Expression(f"{left.at(level)} {sign} {right.at(level + 1)}", level, width)

    def expression(self, depth):
        while True:
            if depth == 0 or self.random.random() < 0.15:
                return self.leaf()
            make = self.random.choices((self.two, self.one, self.chosen, self.joined, self.repeated), (10, 3, 3, 2, 1))[0]
            made = make(depth)
            if made.width <= WIDEST:
                return made

    def assignment(self, targets):
        name = self.pick(targets)
        place = f"{name}[{self.index(self.arrays[name][1])}]" if name in self.arrays else name
        return f"{place} <= {self.expression(self.random.randrange(1, 5)).text};"

    def action(self, targets, depth):
        kind = self.random.random()
        if depth == 0 or kind < 0.6:
            return self.assignment(targets)
        if kind < 0.75:
            return "begin " + " ".join(self.action(targets, depth - 1) for _ in range(self.random.randrange(1, 4))) + " end"
        this = f"if ({self.expression(2).text}) begin {self.action(targets, depth - 1)} end"
        return this if kind < 0.85 else f"{this} else {self.action(targets, depth - 1)}"

    def module(self):
        """The module's text, its inputs, registers and arrays."""
        inputs = {f"p{i}": self.width() for i in range(self.random.randrange(4))}
        registers = {f"r{i}": self.width() for i in range(self.random.randrange(2, 9))}
        arrays = {f"a{i}": (self.width(), self.random.choice((2, 4, 16))) for i in range(self.random.randrange(3))}
        self.scalars, self.arrays = {**inputs, **registers}, dict(arrays)
        pins = "".join(f", input [{width - 1}:0] {name}" for name, width in inputs.items())
        out = [f"module m (input clk{pins});"]
        out += [f"  reg [{width - 1}:0] {name};" for name, width in registers.items()]
        out += [f"  reg [{width - 1}:0] {name} [0:{depth - 1}];" for name, (width, depth) in arrays.items()]
        for i in range(self.random.randrange(6)):
            width = self.width()
            out.append(f"  wire [{width - 1}:0] w{i} = {self.expression(self.random.randrange(1, 5)).text};")
            self.scalars[f"w{i}"] = width
        out.append("  initial begin")
        out += [f"    {name} = {self.number().text};" for name in registers]
        out.append("  end")
        targets = sorted({**registers, **arrays})
        self.random.shuffle(targets)
        cut = self.random.randrange(1, len(targets) + 1)
        for some in (targets[:cut], targets[cut:]):
            if some:
                actions = [self.action(some, 3) for _ in range(self.random.randrange(2, 7))]
                out += ["  always @(posedge clk) begin"] + [f"    {each}" for each in actions] + ["  end"]
        out.append("endmodule")
        return "\n".join(out) + "\n", inputs, registers, arrays

    def image(self, arrays):
        """First cells of some arrays."""
        return {name: [self.random.getrandbits(width) for _ in range(self.random.randrange(1, depth + 1))]
                for name, (width, depth) in arrays.items() if self.random.random() < 0.7}

    def schedule(self, inputs, edges):
        """Values of some pins from some edges on."""
        found = {}
        for edge in range(1, edges + 1):
            some = {name: self.random.getrandbits(width) for name, width in inputs.items() if self.random.random() < 0.3}
            if some:
                found[edge] = some
        return found


def image_text(arrays, image):
    out = ["image 1 " + "0" * 64]
    for name, cells in image.items():
        width, depth = arrays[name]
        out.append(f"memory {name} {width} {depth} {len(cells)}")
        out += [f"{cell:x}" for cell in cells]
    return "\n".join([*out, "end"]) + "\n"


def by_lisa(program, folder, bench):
    """The states by the program, or what it says where it gives none."""
    (folder / "image").write_text(image_text(bench.arrays, bench.image))
    (folder / "schedule").write_text("".join(
        f"{edge} " + " ".join(f"{name}={value}" for name, value in some.items()) + "\n" for edge, some in bench.schedule.items()))
    words = [program, "clocktrace", "m.v", "image", "schedule", str(bench.edges)]
    done = subprocess.run(words, cwd=folder, capture_output=True, text=True)
    if done.returncode:
        return f"status {done.returncode}: {done.stderr.strip()}"
    return states_of(done.stdout, False)


def compare(program, folder, seed, edges):
    """The first difference, if there is one, and whether Icarus Verilog ran the module."""
    maker = Maker(seed)
    text, inputs, registers, arrays = maker.module()
    bench = Bench("m", inputs, registers, arrays, maker.image(arrays), maker.schedule(inputs, edges), edges)
    folder.mkdir(parents=True, exist_ok=True)
    (folder / "m.v").write_text(text)
    write_bench(folder, bench)
    ours = by_lisa(program, folder, bench)
    if isinstance(ours, str):
        return ours, True
    theirs = by_icarus(folder, ["m.v"])
    return (None, False) if theirs is None else (next(differences(ours, theirs), None), True)


def main():
    parser = argparse.ArgumentParser(description=__doc__.splitlines()[0])
    parser.add_argument("program")
    parser.add_argument("--modules", type=int, default=48)
    parser.add_argument("--edges", type=int, default=40)
    parser.add_argument("--seed", type=int, default=1)
    parser.add_argument("--keep", type=Path)
    words = parser.parse_args()
    if not (shutil.which("iverilog") and shutil.which("vvp")):
        print("compare_icarus: Icarus Verilog is missing, so nothing is compared")
        print("0 passed, 0 failed")
        return 0
    program = str(Path(words.program).resolve())
    wrong = compared = 0
    with tempfile.TemporaryDirectory() as made:
        for seed in range(words.seed, words.seed + words.modules):
            found, was_run = compare(program, (words.keep or Path(made)) / f"module_{seed}", seed, words.edges)
            compared += was_run
            if found:
                wrong += 1
                print(f"module {seed}: {found}")
    print(f"modules that agree with Icarus Verilog over {words.edges} edges ({words.modules - compared} more it can't run itself):")
    print(f"{compared - wrong} passed, {wrong} failed")
    return 1 if wrong else 0


if __name__ == "__main__":
    sys.exit(main())
