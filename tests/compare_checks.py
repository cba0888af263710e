#!/usr/bin/env python3
"""Random small descriptions, and what a plain reading of the rules says of each.

    compare_checks.py PROGRAM [COUNT] [SEED]

Makes COUNT (2,000) descriptions, most of them nearly right, and compares what `check` prints with `check_reference.py`: the first fault
of the conditions 6 to 22, or the four counts. Where the reference finds no fault, a fault of the codings and texts of forms (23 to 26)
may still be told; `enumerate_forms.py` is about those."""

import os
import random
import subprocess
import sys
import tempfile

from check_reference import Description, Names, Operation, Resource, fault, sizes

# How many of those that fail are printed.
SHOWN = 3
NAMES = ["a", "b", "c", "r", "m", "i", "p", "f", "x", "y", "z", "l", "g", "A", "B", "o0", "o1", "o2", "o3", "q"]


class Maker:
    def __init__(self, draw):
        self.draw = draw
        self.wrong = draw.choice([0.0, 0.0, 0.01, 0.03])
        self.plan = draw.choice(["", "", "", "", "widths", "depths", "loops", "main", "reset", "written", "roots", "sizes", "stages", "open", "open", "open", "open"])
        self.entries, self.inputs, self.outputs, self.may_decode = [], False, False, False

    def odd(self, part=1.0):
        return self.draw.random() < self.wrong * part

    def planned(self, plan, n=3):
        return self.plan == plan and self.draw.randrange(n) == 0

    def one_in(self, n):
        return self.draw.randrange(n) == 0

    # -- resources

    def shape(self):
        width = self.draw.choice([1, 4, 8, 8, 8, 16])
        if self.odd(0.3) or self.planned("widths"):
            width = self.draw.choice([65, 64, 99])
        return (self.one_in(4), width)

    def resources(self):
        d = self.draw
        found = []
        for name in "abc":
            signed, width = self.shape()
            sort = "clocked" if name == "c" else "register"
            found.append(Resource(sort, name, signed, 8 if d.random() < 0.8 else width))
        depth = 4 if not self.odd(0.3) and not self.planned("depths", 2) else d.choice([3, 1, 2097152])
        found.append(Resource("register", "r", self.one_in(3), 8, depth))
        found.append(Resource("memory", "m", False, d.choice([8, 16]), 16))
        found.append(Resource("pin", "i", False, d.choice([1, 8])))
        if self.planned("sizes", 8):
            found += [Resource("pin", f"pin{k}", False, 1) for k in range(d.choice([63, 64]))]
        if self.planned("sizes", 8):
            found += [Resource("memory", f"wide{k}", False, 1, 1048576) for k in range(d.choice([3, 4]))]
        self.stages = ["A", "B", "C"][: d.choice([0, 1, 2, 3, 3])]
        self.fields = ["f", "h"][: d.choice([1, 2])] if self.stages else []
        if self.stages:
            found.append(Resource("pipeline", "p", parts=self.stages[:]))
            if self.fields:
                pipe = "p" if not self.odd(0.3) else d.choice(NAMES)
                found.append(Resource("fields", pipe, parts=[(False, d.choice([8, 16]), name) for name in self.fields]))
        if self.odd(0.5):
            found.append(Resource("register", d.choice(NAMES), False, 8))
        if self.one_in(8):
            d.shuffle(found)
        return found

    # -- operations

    def description(self):
        if self.plan == "open":
            return self.resting()
        d = self.draw
        resources = self.resources()
        self.operations = [f"o{k}" for k in range(d.randint(1, 6))]
        if d.random() < 0.3:
            self.operations = d.sample(self.operations, len(self.operations))
        all_names = (["reset"] if self.one_in(3) or self.plan == "reset" else []) + ["main"] + self.operations
        if self.one_in(3):
            d.shuffle(all_names)
        if self.odd():
            all_names.remove("main")
        if self.odd(0.5):
            all_names.append(d.choice(all_names))
        self.circular = self.one_in(6)
        self.rooted = d.choice(self.operations) if d.random() < 0.5 else None
        self.coded = set(d.sample(self.operations, d.randint(0, len(self.operations)))) - {self.rooted}
        self.tops = [it for it in sorted(self.coded) if d.random() < 0.5]
        if not self.tops and not self.wrong:
            self.rooted = None
        self.aliases = {it for it in sorted(self.coded) if self.one_in(8)}
        if self.rooted and not self.wrong and not any(it > self.rooted for it in self.tops):
            self.rooted = None
        self.valued = {it for it in self.operations if d.random() < 0.7 and it != self.rooted}
        self.staged = {it: d.choice(self.stages) for it in self.operations if self.stages and (it not in self.aliases or self.odd(5)) and self.one_in(3 if it != self.rooted else 2) and it not in self.valued}
        self.listed = {}
        self.entries_of = {}
        for name in ["main"] + sorted(self.operations):
            self.declare(name, name in self.coded, name == self.rooted)
            self.entries_of[name] = self.entries
        return Description(resources, [self.operation(name) for name in all_names])

    def below(self, name):
        """The operations that one may list."""
        if name not in self.operations:
            return sorted(self.operations)
        if self.circular:
            return self.operations
        return [it for it in sorted(self.operations) if it > name]

    def operation(self, name):
        d = self.draw
        made = Operation(name)
        made.alias = name in self.aliases or self.odd(0.3)
        if name in self.staged:
            made.stage = ("p" if not self.odd(0.3) else d.choice(NAMES), self.staged[name] if not self.odd(0.3) else d.choice(["A", "C", "Z"]))
        is_coded, is_root = name in self.coded, name == self.rooted
        if name == "reset":
            made.sections = [("BEHAVIOR", [self.reset_statement() for _ in range(d.randint(0, 3))])]
            if self.odd() or self.planned("reset"):
                made.sections.append(("ACTIVATION", []))
            return made
        self.entries = self.entries_of[name]
        own = self.staged.get(name)
        self.inputs = own is not None and own != "A"
        self.outputs = own is not None and own != self.stages[-1]
        self.may_decode = False
        sections = []
        if self.entries or self.one_in(8):
            sections.append(("DECLARE", self.declared()))
        if is_root:
            place = ("in", self.field()) if self.inputs and self.fields and self.one_in(2) else ("name", d.choice(["a", "b", "c"]) if not self.odd() else d.choice(NAMES))
            groups = [n for sort, n, _ in self.entries if sort == "GROUP"]
            sections.append(("CODING", ("root", place, groups[0] if groups and not self.odd() else d.choice(NAMES))))
            if self.odd():
                sections.append(("SYNTAX", self.syntax()))
        elif is_coded:
            sections += [("CODING", ("items", self.coding(8 if name in self.tops else 2))), ("SYNTAX", self.syntax())]
        elif self.odd(0.5):
            sections.append(("SYNTAX", self.syntax()))
        if not made.alias or self.odd():
            if d.random() < 0.5:
                self.may_decode = is_root
                sections.append(("BEHAVIOR", self.statements(name == "main", ())))
                self.may_decode = False
            if name in self.valued or self.odd():
                sections.append(("EXPRESSION", self.simple() if d.random() < 0.7 else self.expression(2, ())))
            if d.random() < 0.6:
                self.may_decode = is_root
                sections.append(("ACTIVATION", self.items(1)))
        if self.odd(0.5) and sections:
            sections.append(d.choice(sections))
        if self.one_in(6):
            d.shuffle(sections)
        made.sections = sections
        return made

    def declare(self, name, is_coded, is_root):
        d = self.draw
        self.entries = []
        below = self.below(name)
        free = [it for it in below if it not in self.coded]
        coded = [it for it in below if it in self.coded and (name in self.coded) and (it not in self.tops) and (name in self.tops or self.odd(3))]
        tops = self.tops if self.odd(3) else [it for it in self.tops if self.circular or it > name]
        names = d.sample(["x", "y", "z", "g", "k", "l", "s", "t"], 8)
        if self.odd():
            names[0] = d.choice(NAMES)
        for _ in range(d.randint(0, 3)):
            sort = d.choice(["GROUP", "INSTANCE", "LABEL", "REFERENCE"] if self.one_in(2) else ["GROUP", "INSTANCE"])
            pool = (coded if is_coded else free) if not self.odd(2) else below
            label = names.pop()
            if sort == "GROUP" and pool and (is_coded or is_root or self.one_in(3)):
                self.entries.append((sort, label, d.sample(pool, d.randint(1, min(3, len(pool))))))
            elif sort == "INSTANCE" and (pool or free):
                target = d.choice([it for it in pool or free if it not in self.aliases] or pool or free)
                self.entries.append((sort, label, [target if not self.odd() else d.choice(NAMES)]))
            elif sort == "LABEL" and (is_coded or self.odd(2)):
                self.entries.append((sort, label, []))
            elif sort == "REFERENCE" and (name not in self.aliases or self.odd()):
                above = [{it[1] for it in entries} for entries in self.listed.get(name, [])]
                common = sorted(set.intersection(*above)) if above else []
                if common and not self.odd(3):
                    self.entries.append((sort, d.choice(common), []))
                elif self.odd(3):
                    self.entries.append((sort, d.choice(["x", "y", "z", "g", "k", "l", "s", "t"]), []))
        if is_root and tops:
            self.entries.insert(0, ("GROUP", names.pop(), d.sample(tops, d.randint(1, min(3, len(tops))))))
        if self.one_in(2) and free and not is_coded:
            self.entries.append(("INSTANCE", names.pop(), [d.choice(free)]))
        kept, seen = [], set()
        for it in self.entries:
            if it[1] not in seen or self.odd():
                kept.append(it)
            seen.add(it[1])
        self.entries = kept
        if name not in self.aliases:
            for it in sorted({it for entry in kept for it in entry[2]}):
                self.listed.setdefault(it, []).append(kept)

    def declared(self):
        found = []
        for sort, name, alternatives in self.entries:
            if sort == "INSTANCE":
                found.append((sort, [(name, alternatives[0])], []))
            elif sort == "GROUP":
                found.append((sort, [name], alternatives))
            else:
                found.append((sort, [name], []))
        if self.odd(0.5) and found:
            found.append(self.draw.choice(found))
        return found

    def own(self, *sorts):
        return [name for sort, name, _ in self.entries if sort in sorts]

    def children(self, valued):
        """Names that may be called or, where all their operations have an expression, read."""
        found = self.own("REFERENCE")
        for sort, name, alternatives in self.entries:
            apart = any(it in self.staged or it == self.rooted for it in alternatives) or len(alternatives) > 1 and not any(it in self.coded for it in alternatives)
            if sort in ("GROUP", "INSTANCE") and not apart and (not valued or all(it in self.valued for it in alternatives)):
                found.append(name)
        return found

    def field(self):
        return self.draw.choice(self.fields) if self.fields and not self.odd() else self.draw.choice(NAMES)

    def coding(self, width):
        d = self.draw
        items, left = [], width
        for sort, name, _ in self.entries:
            if sort == "LABEL" and not self.odd():
                items.append(("field", name, "x" if not self.odd() else d.choice(["x1", "x" * 65, "xxxx"])))
                left -= 1
            elif sort in ("GROUP", "INSTANCE") and not self.odd():
                items.append(("child", name))
                left -= 2
        if left > 0 and not self.odd():
            items.append(("bits", "".join(d.choice("01x") for _ in range(left))))
        if not items:
            items.append(("bits", "0"))
        if self.odd():
            items.append(("child", d.choice(NAMES)))
        if self.odd():
            items.append(("field", d.choice(NAMES), "xx"))
        d.shuffle(items)
        return items

    def syntax(self):
        d = self.draw
        items = [(False, ("text", d.choice(["N", "ADD", "X Y"])))]
        for sort, name, _ in self.entries:
            if sort == "LABEL" and not self.odd() and not self.planned("written"):
                items.append((False, ("number", name, d.choice(["#U", "#S", "#X"]))))
            elif sort in ("GROUP", "INSTANCE") and not self.odd() and not self.planned("written"):
                items += [(False, ("child", name))] * (2 if self.planned("written") else 1)
        if self.odd():
            items.append((False, ("child", d.choice(NAMES))))
        return items

    # -- what rests on each other

    def resting(self):
        """Operations whose values rest on each other, by children and references of one name, and a group of some of them that is used."""
        d = self.draw
        resources = self.resources()
        for it in resources:
            if it.name in ("b", "i") and not self.one_in(4):
                it.signed, it.width = False, 8
        names = ["main"] + [f"o{k}" for k in range(d.randint(4, 8))]
        self.sorts = {name: d.choice(["value", "value", "value", "circle", "reference", "reference", "reference", "above", "choice"]) for name in names[1:]}
        self.sorts["main"] = "above"
        coded, circular = d.choice([names] * 6 + [["main"]] * 2 + [[]]), d.random() < 0.85
        self.declares = {name: self.resting_entries(name, names, coded, circular) for name in names}
        for name in names:
            if self.sorts[name] == "reference":
                others = {"main" if self.one_in(3) else d.choice(names), d.choice(names), d.choice([it for it in names if self.sorts[it] == "above"])}
                for other in sorted(others):
                    self.declares[other].append(("INSTANCE", f"s{name}", [name]))
        made = [self.resting_operation(name, coded) for name in names]
        if self.one_in(4):
            d.shuffle(made)
        return Description(resources, made)

    def resting_entries(self, name, names, coded, circular):
        """All declare `n`, so that a reference to it means something; `g` is a group of alternatives."""
        d, sort = self.draw, self.sorts[name]
        below = names[1:] if circular else names[names.index(name) + 1:]
        if sort == "reference":
            return [("REFERENCE", "n", [])]
        if not below or sort == "value" and self.one_in(6):
            return [("LABEL", "n", [])]
        several = d.randint(2, 4) if name in coded or self.one_in(2) else 1
        chosen = d.sample(below, min(len(below), several if sort == "choice" else 1))
        if sort == "circle" and circular and self.one_in(2):
            chosen = [name]
        elif sort == "above":
            likes = d.choice(["above", "circle", d.choice(sorted({self.sorts[it] for it in below}))])
            chosen = [d.choice([it for it in below if self.sorts[it] == likes] or below)]
        entries = [("GROUP" if sort == "choice" else "INSTANCE", "n", chosen)]
        if name == "main" or self.one_in(6):
            valued = [it for it in below if self.sorts[it] != "above"]
            below = valued if valued and not self.one_in(6) else below
            entries.insert(0, ("GROUP", "g", d.sample(below, min(len(below), several))))
        return entries

    def resting_operation(self, name, coded):
        d, sort = self.draw, self.sorts[name]
        self.entries = self.declares[name]
        own = [n for _, n, _ in self.entries]
        sections = [("DECLARE", self.declared())]
        if name in coded:
            fields = [("field", n, "x") for n in self.own("LABEL") if self.one_in(2)]
            sections.append(("CODING", ("items", [("bits", "0")] + fields + [("child", n) for n in self.own("INSTANCE", "GROUP")])))
        if sort != "above" and not self.one_in(12) or sort == "above" and name != "main" and self.one_in(3):
            sections.append(("EXPRESSION", self.resting_value(sort, own)))
        if name == "main" or self.one_in(12):
            used = d.choice(own) if self.one_in(5) else own[0]
            sections.append(("BEHAVIOR", [("assign", ("name", used), ("number", 1)) if self.one_in(2) else ("assign", ("name", "b"), ("name", used))]))
        return Operation(name, sections=sections)

    def resting_value(self, sort, own):
        d = self.draw
        one = d.choice([("name", it) for it in "aaaabciii"] + [("element", "r", ("number", 1)), ("number", 7)])
        e = ("name", "n" if not self.one_in(8) else d.choice(own))
        if self.one_in(10):
            return d.choice([("decoded",), ("name", "m"), ("+", e, ("decoded",)), ("&", ("decoded",), e)] + [("in", it) for it in self.fields])
        if sort == "value":
            return one
        if self.one_in(2 if sort == "circle" else 4):
            return d.choice([("+", e, one), ("^", one, e), ("~", e), ("<<", e, one), (">>", one, e), ("<", e, one), ("choose", one, e, e)] + [("cast", (False, 8), e)] * 3)
        return e

    # -- behaviour

    def place_name(self, scope):
        d = self.draw
        pool = ["a", "b", "c"] + [it[0] for it in scope] * 2 + (self.children(True) if self.one_in(2) else [])
        return d.choice(pool) if not self.odd() else d.choice(NAMES)

    def read_name(self, scope):
        d = self.draw
        pool = ["a", "b", "c", "i"] + [it[0] for it in scope] * 2 + self.children(True) * 2 + self.own("LABEL")
        return d.choice(pool) if not self.odd() else d.choice(NAMES)

    def simple(self):
        d = self.draw
        return d.choice([("name", self.read_name(())), ("name", d.choice("abc")), ("element", "r", ("number", 1)), ("element", "r", ("name", self.read_name(())))])

    def expression(self, depth, scope):
        d = self.draw
        kind = d.randrange(12) if depth else d.randrange(4)
        if kind <= 1:
            return ("name", self.read_name(scope))
        if kind == 2:
            return ("number", d.choice([0, 1, 3, 200, 300, 2 ** 63, 2 ** 64 - 1]) if self.one_in(3) else 1)
        if kind == 3:
            special = d.randrange(6)
            if special == 0 and (self.inputs or self.odd(3)):
                return ("in", self.field())
            if special == 1 and self.stages:
                pair = d.choice([("A", "B"), ("B", "C"), ("A", "C") if self.odd(3) else ("B", "C")]) if len(self.stages) > 2 or self.odd(3) else ("A", "B")
                return ("boundary", "p" if not self.odd() else d.choice(NAMES), *pair, self.field()) if len(self.stages) > 1 or self.odd() else ("name", "b")
            if special == 2 and self.may_decode:
                return ("decoded",)
            if special == 2 and self.odd(3):
                return ("decoded",)
            return ("element", d.choice("rm") if not self.odd() else d.choice(NAMES), ("name", self.read_name(scope)) if self.one_in(2) else ("number", 1))
        if kind == 4:
            return ("cast", self.shape(), self.expression(depth - 1, scope))
        if kind == 5:
            return (d.choice(["~", "!"]), self.expression(depth - 1, scope))
        if kind == 6:
            return ("choose", *[self.expression(depth - 1, scope) for _ in range(3)])
        operator = d.choice(["+", "-", "*", "&", "|", "^", "<<", ">>", "==", "!=", "<", "<=", ">", ">=", "&&", "||"])
        return (operator, self.expression(depth - 1, scope), self.expression(depth - 1, scope))

    def value(self, scope):
        e = self.expression(self.draw.randint(0, 2), scope)
        return ("cast", (False, self.draw.choice([1, 4, 8])), e) if self.draw.random() < 0.8 else e

    def reset_statement(self):
        d = self.draw
        if self.odd(4) or self.planned("reset"):
            return self.statement(1, False, ())
        return ("assign", ("name", d.choice("abc")), ("cast", (False, 1), d.choice([("name", d.choice("abc")), ("number", 3)])))

    def statements(self, is_main, scope):
        d = self.draw
        found = []
        for _ in range(d.randint(0, 3)):
            s = self.statement(2, is_main, scope)
            found.append(s)
            if s[0] == "local":
                scope = scope + ((s[2], s[1], False),)
        if is_main and self.stages and self.one_in(4):
            found.append((d.choice(["execute", "shift"]), "p"))
            if self.odd(3) or self.planned("main", 2):
                found.append(("empty",))
        return found

    def statement(self, depth, is_main, scope):
        d = self.draw
        kind = 7 if self.plan == "loops" and self.one_in(2) or self.planned("sizes") else d.randrange(11)
        if kind <= 3 or not depth:
            target = d.choice([("name", self.place_name(scope)), ("name", self.place_name(scope)), ("element", d.choice("rm"), ("number", 0)), ("element", "r", ("name", self.read_name(scope)))])
            if self.fields and self.one_in(4) and (self.outputs or self.odd(3)):
                target = ("out", self.field())
            return ("assign", target, self.value(scope))
        if kind == 4:
            name = d.choice(["u", "v", "w", "n"])
            if any(it[0] == name for it in scope) and not self.odd():
                return ("empty",)
            return ("local", self.shape(), name if not self.odd() else d.choice(NAMES), self.value(scope) if self.one_in(2) else None)
        if kind == 5:
            return ("if", self.expression(1, scope), self.inner(depth, is_main, scope), self.inner(depth, is_main, scope) if self.one_in(2) else None)
        if kind == 6:
            inner, found = scope, []
            for _ in range(d.randint(0, 2)):
                found.append(self.statement(depth - 1, is_main, inner))
                if found[-1][0] == "local":
                    inner = inner + ((found[-1][2], found[-1][1], False),)
            return ("block", found)
        if kind == 7:
            return self.loop(depth, is_main, scope)
        if kind == 8:
            pool = self.children(False)
            return ("call", d.choice(pool) if pool and not self.odd() else d.choice(NAMES)) if pool or self.odd() else ("empty",)
        if kind == 9 and self.stages and (is_main or self.one_in(2)):
            return (d.choice(["stall", "flush"]), "p" if not self.odd() else d.choice(NAMES), d.choice(self.stages) if not self.odd() else d.choice(NAMES))
        if self.odd():
            return d.choice([("while", self.expression(1, scope), ("empty",)), ("execute", d.choice(NAMES)), ("shift", "p")])
        return ("empty",)

    def inner(self, depth, is_main, scope):
        return self.statement(depth - 1, is_main, scope)

    def loop(self, depth, is_main, scope):
        d = self.draw
        name = d.choice(["j", "k2", "n"])
        if any(it[0] == name for it in scope):
            return ("empty",)
        shape = (self.one_in(4), 16 if self.plan == "sizes" or self.one_in(2) else d.choice([4, 8]))
        bounds = [(0, 4, 1), (0, 4, 2)]
        if self.odd(5) or self.plan == "loops":
            bounds += [(1, 9, 3), (0, 15, 1), (5, 2, 1), (0, 256, 1), (0, 257, 1), (0, 16, 1), (0, 8, 1), (3, 515, 2), (3, 516, 2)]
        if self.plan == "sizes":
            bounds = [(0, 250, 1), (0, 64, 1), (0, 4, 1)]
        first, limit, step = d.choice(bounds)
        test, following, increment, with_shape = "<", name, ("+", ("name", name), ("number", step)), shape
        if self.odd() or self.planned("loops", 12):
            test = d.choice(["<=", "!="])
        if self.odd():
            following = d.choice(["r", "m", "p", self.read_name(scope)])
        if self.odd() or self.planned("loops", 12):
            increment = d.choice([("number", 1), ("+", ("name", name), ("number", 0)), ("+", ("number", 1), ("name", name))])
        if self.odd() or self.planned("sizes", 50):
            with_shape = None
        if self.odd(0.5):
            with_shape, name = None, d.choice(["r", "m", "p", "i"])
            following, increment = name, ("+", ("number", step), ("number", 1))
        body = self.statement(depth - 1, is_main, scope + ((name, shape, True),))
        return ("for", with_shape, name, ("number", first), (test, ("name", name), ("number", limit)), following, increment, body)

    # -- activations

    def items(self, depth):
        d = self.draw
        found = []
        for _ in range(d.randint(0, 3)):
            pool = self.own("INSTANCE", "GROUP")
            if self.odd():
                pool = pool + self.own("LABEL", "REFERENCE")
            if depth and self.one_in(4):
                found.append(("choose", self.expression(1, ()), self.items(depth - 1), self.items(depth - 1) if self.one_in(2) else None))
            elif pool and not self.odd():
                found += [("start", d.choice(pool))] * (3 if self.planned("roots") or self.planned("sizes", 2) else 1)
            elif self.odd(3):
                found.append(("start", d.choice(NAMES)))
        return found


# ---------------------------------------------------------------- texts

def shape_text(shape):
    return f"{'int' if shape[0] else 'uint'}{shape[1]}"


def expression_text(e):
    kind = e[0]
    if kind == "number":
        return str(e[1])
    if kind == "name":
        return e[1]
    if kind == "element":
        return f"{e[1]}[{expression_text(e[2])}]"
    if kind == "in":
        return f"IN.{e[1]}"
    if kind == "out":
        return f"OUT.{e[1]}"
    if kind == "boundary":
        return f"PIPELINE_REGISTER({e[1]}, {e[2]}/{e[3]}).{e[4]}"
    if kind == "decoded":
        return "decoded"
    if kind == "cast":
        return f"({shape_text(e[1])}) ({expression_text(e[2])})"
    if kind in ("~", "!"):
        return f"{kind} ({expression_text(e[1])})"
    if kind == "choose":
        return "({}) ? ({}) : ({})".format(*map(expression_text, e[1:]))
    return f"({expression_text(e[1])}) {kind} ({expression_text(e[2])})"


def statement_text(s):
    kind = s[0]
    if kind == "empty":
        return ";"
    if kind == "block":
        return "{ " + " ".join(map(statement_text, s[1])) + " }"
    if kind == "local":
        return f"{shape_text(s[1])} {s[2]}{'' if s[3] is None else ' = ' + expression_text(s[3])};"
    if kind == "assign":
        return f"{expression_text(s[1])} = {expression_text(s[2])};"
    if kind == "if":
        # braces keep an `else` with its own `if`, and a block is a statement of its own
        return f"if ({expression_text(s[1])}) {statement_text(s[2])}" + ("" if s[3] is None else f" else {statement_text(s[3])}")
    if kind == "while":
        return f"while ({expression_text(s[1])}) {statement_text(s[2])}"
    if kind == "for":
        _, shape, name, first, test, following, step, body = s
        return (f"for ({'' if shape is None else shape_text(shape) + ' '}{name} = {expression_text(first)}; {flat(test)}; "
                f"{following} = {flat(step)}) {statement_text(body)}")
    if kind == "call":
        return f"{s[1]}();"
    return ".".join(s[1:]) + f".{kind}();"


def flat(e):
    return f"{expression_text(e[1])} {e[0]} {expression_text(e[2])}" if len(e) == 3 and e[0] in ("<", "<=", "!=", "+") else expression_text(e)


def has_open_if(s):
    """Whether an `else` behind the statement would belong to an `if` in it."""
    if s[0] == "if":
        return s[3] is None or has_open_if(s[3])
    if s[0] == "while":
        return has_open_if(s[2])
    return s[0] == "for" and has_open_if(s[7])


def closed(s):
    """The same statement, with blocks where an `else` would go astray."""
    if s[0] == "block":
        return ("block", [closed(it) for it in s[1]])
    if s[0] == "if":
        one, other = closed(s[2]), None if s[3] is None else closed(s[3])
        if other is not None and has_open_if(one):
            one = ("block", [one])
        return ("if", s[1], one, other)
    if s[0] == "while":
        return ("while", s[1], closed(s[2]))
    if s[0] == "for":
        return s[:7] + (closed(s[7]),)
    return s


def items_text(items):
    return ", ".join(it[1] if it[0] == "start" else
                     f"if ({expression_text(it[1])}) {{ {items_text(it[2])} }}" + ("" if it[3] is None else f" else {{ {items_text(it[3])} }}") for it in items)


def section_text(kind, content):
    if kind == "DECLARE":
        parts = []
        for sort, names, alternatives in content:
            if sort == "INSTANCE":
                parts.append("INSTANCE " + ", ".join(f"{a} = {b}" for a, b in names) + ";")
            else:
                parts.append(f"{sort} {', '.join(names)}" + (f" = {{ {' || '.join(alternatives)} }}" if sort == "GROUP" else "") + ";")
        inner = " ".join(parts)
    elif kind == "CODING":
        if content[0] == "root":
            inner = f"{expression_text(content[1])} == {content[2]}"
        else:
            inner = " ".join({"bits": "0b{0}", "field": "{0}=0b{1}", "child": "{0}"}[it[0]].format(*it[1:]) if len(it[-1]) < 65 or it[0] == "child" else f"{it[1]}=0bx[{len(it[2])}]" for it in content[1])
    elif kind == "SYNTAX":
        inner = " ".join(("~ " if joined else "") + {"text": '"{0}"', "number": "{0}={1}", "child": "{0}"}[it[0]].format(*it[1:]) for joined, it in content)
    elif kind == "BEHAVIOR":
        inner = " ".join(map(statement_text, content))
    elif kind == "EXPRESSION":
        inner = expression_text(content)
    else:
        inner = items_text(content)
    return f"{kind} {{ {inner} }}"


def resource_text(r):
    if r.sort == "pipeline":
        return f"PIPELINE {r.name} = {{ {'; '.join(r.parts)} }};"
    if r.sort == "fields":
        return f"PIPELINE_REGISTER IN {r.name} {{ {' '.join(f'{shape_text(it[:2])} {it[2]};' for it in r.parts)} }};"
    word = {"register": "REGISTER", "clocked": "CLOCKED REGISTER", "memory": "MEMORY", "pin": "PIN"}[r.sort]
    return f"{word} {shape_text((r.signed, r.width))} {r.name}{'' if r.depth is None else f'[{r.depth}]'};"


def text(d):
    lines = ["RESOURCE { " + " ".join(map(resource_text, d.resources)) + " }"]
    for it in d.operations:
        stage = f" IN {it.stage[0]}.{it.stage[1]}" if it.stage else ""
        lines.append(f"{'ALIAS ' if it.alias else ''}OPERATION {it.name}{stage} {{ " + " ".join(section_text(*s) for s in it.sections) + " }")
    return "\n".join(lines) + "\n"


def made(seed):
    d = Maker(random.Random(seed)).description()
    for it in d.operations:
        it.sections = [(kind, [closed(s) for s in content] if kind == "BEHAVIOR" else content) for kind, content in it.sections]
    return d


def wanted(d):
    found = fault(d)
    if found:
        return f"lisa: description {found}"
    counts = {what: count for what, count, _ in sizes(Names(d))}
    return "\n".join(f"{what} {counts[what]}" for what in ("operations", "forms", "occurrences", "items"))


def agrees(said, due):
    late = any(said.startswith(f"lisa: description {number} ") for number in range(23, 27))
    return said == due or late and due.startswith("operations")


def main(program, count="2000", seed="1"):
    failed = 0
    with tempfile.TemporaryDirectory() as folder:
        file = os.path.join(folder, "description")
        for number in range(int(count)):
            d = made(f"{seed} {number}")
            with open(file, "w", encoding="ascii") as out:
                out.write(text(d))
            ran = subprocess.run([program, "check", file], capture_output=True, text=True, check=False)
            said = (ran.stdout + ran.stderr).rstrip("\n")
            if not agrees(said, wanted(d)):
                failed += 1
                if failed <= SHOWN:
                    print(f"{text(d)}\nsaid:   {said}\nwanted: {wanted(d)}")
    print("descriptions of which check says what the reference says:")
    print(f"{int(count) - failed} passed, {failed} failed")
    return 1 if failed else 0


if __name__ == "__main__":
    sys.exit(main(*sys.argv[1:]))
