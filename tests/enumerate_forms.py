#!/usr/bin/env python3
"""What `check` says of small sets of instructions, against an enumeration of all their trees.

    enumerate_forms.py PROGRAM [COUNT] [SEED]

Makes COUNT (1,000) random descriptions with instructions of 4 bits, some of them with a child or an alias. Of each, every
tree is written out with its words and its text, and from these lists alone it is told which refusal is due: a text that can't
be read, two forms with one word, two with one text, an alias that nothing covers, or none. The program must say the same."""

import itertools
import os
import random
import string
import subprocess
import sys
import tempfile

WIDTH = 4
# How many of those that fail are printed.
SHOWN = 3
WORD = set(string.ascii_letters + string.digits + "_.")
# Strings with a point are rarer: where the first run begins with one, nothing else is told.
STRINGS = 3 * ["A", "R", "1", "-", "+", "R1", "0x", "A B", ",", " "] + [".A", "+.A"]


class Operation:
    """`coding` has ("bits", digits), ("field", label, width) and ("child",); `syntax` has pairs of whether the element is
    joined and ("text", bytes), ("number", label, letter) or ("child",)."""

    def __init__(self, name, coding, syntax, alias=False):
        self.name, self.coding, self.syntax, self.alias = name, coding, syntax, alias

    def fields(self):
        return {item[1]: item[2] for item in self.coding if item[0] == "field"}

    def has_child(self):
        return ("child",) in self.coding

    def text(self, children):
        declared = "LABEL " + ", ".join(self.fields()) + "; " if self.fields() else ""
        if self.has_child():
            declared += "GROUP c = { " + " || ".join(it.name for it in children) + " }; "
        coding = " ".join({"bits": "0b{1}", "field": "{1}=0bx[{2}]", "child": "c"}[it[0]].format(*it, "", "") for it in self.coding)
        syntax = " ".join(("~ " if joined else "") + {"text": '"{1}"', "number": "{1}=#{2}", "child": "c"}[it[0]].format(*it, "", "")
                          for joined, it in self.syntax)
        return (f"{'ALIAS ' if self.alias else ''}OPERATION {self.name} {{ {'DECLARE { ' + declared + '} ' if declared else ''}"
                f"CODING {{ {coding} }} SYNTAX {{ {syntax} }} }}")


def random_operation(number, has_child, draw):
    left, coding, labels = WIDTH - has_child, [], 0
    while left > 0:
        width, kind = draw.randint(1, left), draw.choice(["bits", "bits", "field", "free"])
        if kind == "field" and labels < 2:
            coding.append(("field", f"f{labels}", width))
            labels += 1
        else:
            coding.append(("bits", "x" * width if kind == "free" else "".join(draw.choice("01") for _ in range(width))))
        left -= width
    parts = [("number", f"f{k}", draw.choice("USX")) for k in range(labels)]
    parts += [("text", draw.choice(STRINGS)) for _ in range(draw.randint(0, 3))]
    if has_child:
        coding.insert(draw.randint(0, len(coding)), ("child",))
        parts.append(("child",))
    draw.shuffle(parts)
    syntax = [(k > 0 and draw.random() < 0.4, part) for k, part in enumerate(parts or [("text", "A")])]
    return Operation(f"o{number}", coding, syntax, draw.random() < 0.2)


def random_child(number, draw):
    if draw.random() < 0.5:
        return Operation(f"r{number}", [("bits", str(number))], [(False, ("text", draw.choice([f"R{number}", "X", "R1", "-"])))])
    return Operation(f"r{number}", [("field", "i", 1)],
                     [(False, ("text", draw.choice(["R", "Q", ""]))), (draw.random() < 0.7, ("number", "i", draw.choice("USX")))])


class Form:
    """An operation, and the one that its child is, if it has one."""

    def __init__(self, *operations):
        self.operations = operations
        self.name = operations[0].name + "".join(f"({it.name})" for it in operations[1:])
        self.plain = not any(it.alias for it in operations)
        self.pattern = self.bits(0)

    def bits(self, level):
        parts = {"bits": lambda it: it[1], "field": lambda it: "x" * it[2], "child": lambda it: self.bits(1)}
        return "".join(parts[it[0]](it) for it in self.operations[level].coding)

    def words(self):
        return {word for word in range(2 ** WIDTH)
                if all(a in ("x", b) for a, b in zip(self.pattern, format(word, f"0{WIDTH}b")))}

    def trees(self):
        """The values of each tree."""
        names = [(level, label, width) for level, it in enumerate(self.operations) for label, width in it.fields().items()]
        for values in itertools.product(*[range(2 ** width) for _, _, width in names]):
            yield {(level, label): value for (level, label, _), value in zip(names, values)}

    def symbols(self, values, level=0):
        """Characters, None where runs part, and numbers as strings of their own."""
        operation, found = self.operations[level], []
        for place, (joined, part) in enumerate(operation.syntax):
            found += [] if joined or place == 0 else [None]
            if part[0] == "text":
                found += [None if it == " " else it for it in part[1]]
            elif part[0] == "number":
                found.append((number(part[2], operation.fields()[part[1]], values[level, part[1]]),))
            else:
                found += self.symbols(values, 1)
        return found

    def is_bad(self):
        """The text is empty, its first run begins with a point, or a number isn't last in its run."""
        symbols = self.symbols(next(self.trees()))
        for here, behind in zip(symbols, symbols[1:] + [None]):
            if isinstance(here, tuple) and (isinstance(behind, tuple) or behind in WORD):
                return True
        shown = [it for it in symbols if it is not None]
        runs = [it for it in shown if isinstance(it, tuple) or it in WORD]
        return not shown or runs[:1] == ["."]

    def texts(self):
        return {tokens(self.symbols(values)) for values in self.trees()}


def number(letter, width, value):
    if letter == "X":
        return f"0x{value:x}"
    return str(value) if letter == "U" or value < 2 ** (width - 1) else f"-{2 ** width - value}"


def tokens(symbols):
    found, run = [], ""
    for it in itertools.chain.from_iterable(it[0] if isinstance(it, tuple) else [it] for it in symbols):
        if it in WORD:
            run += it
        else:
            found += [run] * bool(run) + [it] * (it is not None)
            run = ""
    return tuple(found + [run] * bool(run))


def canonical(text):
    found = ""
    for before, it in zip(("-",) + text, text):
        found += (" " if before[0] in WORD and it[0] in WORD else "") + it
    return found


def wanted(operations, children):
    """The lines that may be printed."""
    forms = [form for it in operations
             for form in ([Form(it, child) for child in children] if it.has_child() else [Form(it)])]
    pairs = list(itertools.combinations(forms, 2))
    for form in forms:
        if form.is_bad():
            return [f"lisa: description 23 BadText form={form.name}"]
    for one, other in pairs:
        if one.plain and other.plain and one.words() & other.words():
            word = "".join("1" if "1" in both else "0" for both in zip(one.pattern, other.pattern))
            return [f"lisa: description 24 Overlap first={one.name} second={other.name} word=0x{int(word, 2):x}"]
    for one, other in pairs:
        both = one.texts() & other.texts()
        if both:
            return [f'lisa: description 25 Ambiguous first={one.name} second={other.name} text="{canonical(it)}"' for it in both]
    for form in forms:
        if not form.plain and not any(it.plain and form.words() <= it.words() for it in forms):
            return [f"lisa: description 26 NotAnAlias form={form.name}"]
    return [f"operations {len(operations) + len(children) + 2}\nforms {len(forms)}\noccurrences 1\nitems 1"]


def main(program, count="1000", seed="1"):
    draw, failed = random.Random(int(seed)), 0
    with tempfile.TemporaryDirectory() as folder:
        file = os.path.join(folder, "description")
        for _ in range(int(count)):
            children = [random_child(k, draw) for k in range(2)] if draw.random() < 0.5 else []
            operations = [random_operation(k, bool(children) and draw.random() < 0.6, draw) for k in range(draw.randint(2, 4))]
            if all(it.alias for it in operations):
                operations[0].alias = False
            text = (f"RESOURCE {{ REGISTER uint{WIDTH} ir; }} OPERATION main {{ }} OPERATION d {{ DECLARE {{ GROUP g = {{ "
                    + " || ".join(it.name for it in operations) + " }; } CODING { ir == g } } "
                    + " ".join(it.text(children) for it in operations + children))
            with open(file, "w", encoding="ascii") as out:
                out.write(text)
            ran = subprocess.run([program, "check", file], capture_output=True, text=True, check=False)
            said = (ran.stdout + ran.stderr).rstrip("\n")
            if said not in wanted(operations, children):
                failed += 1
                if failed <= SHOWN:
                    print(f"{text}\nsaid:   {said}\nwanted: {wanted(operations, children)}")
    print("sets of instructions of which check says what the enumeration says:")
    print(f"{int(count) - failed} passed, {failed} failed")
    return 1 if failed else 0


if __name__ == "__main__":
    sys.exit(main(*sys.argv[1:]))
