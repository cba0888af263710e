#!/usr/bin/env python3
"""The machine of examples/mips.lisa beside a plain interpreter of its instructions, and beside GNU's tools.

    tests/mips.py PROGRAM [--programs N] [--words N] [--seed N]

Each instruction with random operands is assembled, linked and listed by PROGRAM: it has its word, and is listed as it was
written. Random programs with interrupts are run by PROGRAM, and must leave the registers and the memory that the interpreter
leaves, which runs one instruction after the other and knows no pipeline; the module that PROGRAM wrote, clocked by it, prints
the same bytes. The programs in examples/ leave what it leaves too; suite.s is run with interrupts besides, and its results are
those of suite.py. A dozen errors, planted in the description one by one, must be caught by instructions and random programs. Where
GNU's tools for MIPS are installed (mips-linux-gnu-as, -objcopy, -objdump), they make the same words and list the same texts, up to
spacing and the targets of branches and jumps, of the instructions, and the same cells of the programs in examples/. The handler of
interrupts counts in the last cell of the data memory and takes $13 and $14, so these are left out. The last line is `N passed, M
failed`."""

import argparse
import hashlib
import os
import random
import re
import shutil
import subprocess
import sys
import tempfile

import suite
from verilog_benches import image_cells

TOP = os.path.dirname(os.path.dirname(os.path.abspath(__file__)))
MASK = 0xFFFFFFFF
CELLS = 1024
HANDLER = 32  # the cell of 0x80
COUNT = CELLS - 1
EXAMPLES = {"sieve": 25000, "ticks": 700, "suite": 130000}  # the programs of examples/, and edges after which they are at their ends
FREE = [1, 2, 3, 4, 5, 6, 7, 8, 9, 10, 11, 12, 15]  # registers of programs; $13 and $14 are the handler's


def signed(value, bits=32):
    value &= (1 << bits) - 1
    return value - (1 << bits) if value >> (bits - 1) else value


# ---- instructions: by the shape of their operands, each with its numbers

THREE = {"addu": 0x21, "subu": 0x23, "and": 0x24, "or": 0x25, "xor": 0x26, "nor": 0x27, "slt": 0x2A, "sltu": 0x2B}
SHIFT = {"sll": 0, "srl": 2, "sra": 3}
SHIFT_BY = {"sllv": 4, "srlv": 6, "srav": 7}
SIGNED = {"addiu": 9, "slti": 10, "sltiu": 11}
PLAIN = {"andi": 12, "ori": 13, "xori": 14}
MEMORY = {"lbu": 0x24, "lw": 0x23, "sb": 0x28, "sw": 0x2B}
COMPARE = {"beq": 4, "bne": 5}
TEST = {"blez": (6, 0), "bgtz": (7, 0), "bltz": (1, 0), "bgez": (1, 1)}
JUMP = {"j": 2, "jal": 3}
NAMES = [*THREE, *SHIFT, *SHIFT_BY, "mult", "mflo", *SIGNED, *PLAIN, "lui", *MEMORY, *COMPARE, *TEST, *JUMP, "jr", "jalr", "mfc0", "mtc0", "rfe"]


def word(name, *at):
    """The word of an instruction; the operands stand in the order of its text."""
    if name in THREE:
        return at[1] << 21 | at[2] << 16 | at[0] << 11 | THREE[name]
    if name in SHIFT:
        return at[1] << 16 | at[0] << 11 | at[2] << 6 | SHIFT[name]
    if name in SHIFT_BY:
        return at[2] << 21 | at[1] << 16 | at[0] << 11 | SHIFT_BY[name]
    if name == "mult":
        return at[0] << 21 | at[1] << 16 | 0x18
    if name == "mflo":
        return at[0] << 11 | 0x12
    if name in SIGNED or name in PLAIN:
        return {**SIGNED, **PLAIN}[name] << 26 | at[1] << 21 | at[0] << 16 | at[2] & 0xFFFF
    if name == "lui":
        return 0x0F << 26 | at[0] << 16 | at[1]
    if name in MEMORY:
        return MEMORY[name] << 26 | at[2] << 21 | at[0] << 16 | at[1] & 0xFFFF
    if name in COMPARE:
        return COMPARE[name] << 26 | at[0] << 21 | at[1] << 16 | at[2] & 0xFFFF
    if name in TEST:
        return TEST[name][0] << 26 | at[0] << 21 | TEST[name][1] << 16 | at[1] & 0xFFFF
    if name in JUMP:
        return JUMP[name] << 26 | at[0]
    if name == "jr":
        return at[0] << 21 | 8
    if name == "jalr":
        return at[1] << 21 | at[0] << 11 | 9
    return {"mfc0": 0x40007000, "mtc0": 0x40806000, "rfe": 0x42000010}[name] | (at[0] << 16 if at else 0)


def operands(name, draw):
    """Random operands, in the order of the text."""
    register = lambda: draw.randrange(16)
    half = lambda: draw.choice([0, 1, -1, 0x7FFF, -0x8000, draw.randrange(-0x8000, 0x8000)])
    if name in THREE or name in SHIFT_BY:
        return register(), register(), register()
    if name in SHIFT:
        return register(), register(), draw.randrange(32)
    if name == "mult":
        return register(), register()
    if name in SIGNED:
        return register(), register(), half()
    if name in PLAIN:
        return register(), register(), half() & 0xFFFF
    if name == "lui":
        return register(), half() & 0xFFFF
    if name in MEMORY:
        return register(), half(), register()
    if name in COMPARE:
        return register(), register(), half()
    if name in TEST:
        return register(), half()
    if name in JUMP:
        return (draw.randrange(1 << 26),)
    if name == "jalr":
        target = draw.randrange(1, 16)
        return target, draw.choice([r for r in range(16) if r != target])
    return () if name == "rfe" else (register(),)


def gnu_text(name, at):
    """The instruction as GNU's assembler takes it: a branch by its distance in bytes, a jump by its address."""
    registers = ", ".join
    if name in THREE or name in SHIFT_BY:
        return f"{name} " + registers(f"${r}" for r in at)
    if name in SHIFT or name in SIGNED or name in PLAIN:
        return f"{name} ${at[0]}, ${at[1]}, {at[2]}"
    if name == "mult":
        return f"mult ${at[0]}, ${at[1]}"
    if name == "lui":
        return f"lui ${at[0]}, {at[1]}"
    if name in MEMORY:
        return f"{name} ${at[0]}, {at[1]}(${at[2]})"
    if name in COMPARE:
        return f"{name} ${at[0]}, ${at[1]}, . + {4 + 4 * at[2]}"
    if name in TEST:
        return f"{name} ${at[0]}, . + {4 + 4 * at[1]}"
    if name in JUMP:
        return f"{name} {4 * at[0]}"
    if name == "jalr":
        return f"jalr ${at[0]}, ${at[1]}"
    if name in ("mfc0", "mtc0"):
        return f"{name} ${at[0]}, ${14 if name == 'mfc0' else 12}"
    return " ".join([name, *(f"${r}" for r in at)])


def own_text(name, at):
    """The instruction as the description has it: a branch by its distance and a jump by its place, in words."""
    if name in SHIFT or name in PLAIN:
        return f"{name} ${at[0]},${at[1]},{at[2]:#x}"
    if name in SIGNED:
        return f"{name} ${at[0]},${at[1]},{at[2]}"
    if name == "lui":
        return f"{name} ${at[0]},{at[1]:#x}"
    if name in MEMORY:
        return f"{name} ${at[0]},{at[1]}(${at[2]})"
    if name in COMPARE or name in TEST:
        return f"{name} " + ",".join(f"${r}" for r in at[:-1]) + f",{at[-1]}"
    if name in JUMP:
        return f"{name} {at[0]:#x}"
    if name in ("mfc0", "mtc0"):
        return f"{name} ${at[0]},${14 if name == 'mfc0' else 12}"
    return " ".join([name, ",".join(f"${r}" for r in at)]).strip()


def parts(text, targets=True):
    """The name of an instruction and its operands, without the target of a branch or jump where that isn't asked for."""
    name, rest = re.fullmatch(r"\s*(mfc0|mtc0|[a-z]+)(.*)", text).groups()
    found = [it if it[0] == "$" else int(it, 0) for it in re.findall(r"\$\d+|-?0x[0-9a-f]+|-?\d+", rest)]
    return name, found if targets or name not in (*COMPARE, *TEST, *JUMP) else [it for it in found if isinstance(it, str)]


# ---- the interpreter

class Machine:
    """Registers, `lo` and both memories; no pipeline and no interrupts."""

    def __init__(self, program, data=()):
        self.program = dict(enumerate(program))
        self.pc = self.lo = 0
        self.r = [0] * 16
        self.data = dict(enumerate(data))

    def put(self, register, value):
        if register:
            self.r[register] = value & MASK

    def step(self):
        """One instruction; whether the next one is another one than this."""
        w = self.program.get((self.pc >> 2) % CELLS, 0)
        own, self.pc = self.pc, self.pc + 4 & MASK
        op, rs, rt, rd, by, function = w >> 26, w >> 21 & 31, w >> 16 & 31, w >> 11 & 31, w >> 6 & 31, w & 63
        if op == 0:
            self.of_registers(function, rs, rt, rd, by)
        elif op in (2, 3):
            if op == 3:
                self.put(15, self.pc)
            self.pc = self.pc & 0xF0000000 | (w & 0x3FFFFFF) << 2
        elif op in (1, 4, 5, 6, 7):
            self.branch(op, rs, rt, signed(w, 16))
        elif op != 16:
            self.of_number(op, rs, rt, w & 0xFFFF)
        return self.pc != own

    def of_registers(self, function, rs, rt, rd, by):
        a, b = self.r[rs], self.r[rt]
        if function == 0x18:
            self.lo = a * b & MASK
        elif function in (8, 9):
            if function == 9:
                self.put(rd, self.pc)
            self.pc = a
        else:
            self.put(rd, {0: lambda: b << by, 2: lambda: b >> by, 3: lambda: signed(b) >> by, 4: lambda: b << (a & 31), 6: lambda: b >> (a & 31),
                          7: lambda: signed(b) >> (a & 31), 0x12: lambda: self.lo, 0x21: lambda: a + b, 0x23: lambda: a - b, 0x24: lambda: a & b,
                          0x25: lambda: a | b, 0x26: lambda: a ^ b, 0x27: lambda: ~(a | b), 0x2A: lambda: signed(a) < signed(b), 0x2B: lambda: a < b}[function]())

    def branch(self, op, rs, rt, distance):
        a = signed(self.r[rs])
        if {1: (a >= 0) if rt else (a < 0), 4: self.r[rs] == self.r[rt], 5: self.r[rs] != self.r[rt], 6: a <= 0, 7: a > 0}[op]:
            self.pc = self.pc + 4 * distance & MASK

    def of_number(self, op, rs, rt, number):
        a, low = self.r[rs], signed(number, 16)
        address = a + low & MASK
        cell, shift = (address >> 2) % CELLS, 8 * (3 - (address & 3))
        held = self.data.get(cell, 0)
        if op == 0x28:
            self.data[cell] = held & ~(0xFF << shift) | (self.r[rt] & 0xFF) << shift
        elif op == 0x2B:
            self.data[cell] = self.r[rt]
        else:
            self.put(rt, {9: lambda: a + low, 10: lambda: signed(a) < low, 11: lambda: a < low & MASK, 12: lambda: a & number, 13: lambda: a | number,
                          14: lambda: a ^ number, 15: lambda: number << 16, 0x23: lambda: held, 0x24: lambda: held >> shift & 0xFF}[op]())


# ---- random programs

HANDLER_CODE = [("lw", 13, 4 * COUNT, 0), ("addiu", 13, 13, 1), ("sw", 13, 4 * COUNT, 0), ("mfc0", 14), ("rfe",), ("jr", 14)]
LOOP = ("beq", 0, 0, -1)


def simple(draw):
    """One instruction that is no jump, over the registers of programs."""
    name = draw.choice([*THREE, *SHIFT, *SHIFT_BY, "mult", "mflo", *SIGNED, *PLAIN, "lui", *MEMORY, *MEMORY])
    source, target = lambda: draw.choice([0, *FREE]), lambda: draw.choice([0, *FREE, *FREE])
    at = list(operands(name, draw))
    if name in MEMORY:
        return name, source() if name in ("sb", "sw") else target(), draw.randrange(0, 64), 0 if draw.random() < 0.7 else source()
    if name in SHIFT or name in SIGNED or name in PLAIN:
        return name, target(), source(), at[2]
    if name == "lui":
        return name, target(), at[1]
    if name == "mult":
        return name, source(), source()
    return (name, target()) if name == "mflo" else (name, target(), source(), source())


def is_safe(item):
    """A store or load with a register may reach the handler's cell; its address is drawn again as a plain one."""
    return item[0] not in MEMORY or item[3] == 0


def jumping(draw, left):
    """A branch or jump forward, over at most so many instructions; a loop of few turns; or a call to what follows."""
    over = draw.randrange(0, min(left, 5) + 1)
    name = draw.choice([*COMPARE, *TEST])
    if name in COMPARE:
        return [(name, draw.choice([0, *FREE]), draw.choice([0, *FREE]), over)]
    return [(name, draw.choice([0, *FREE]), over)]


def random_program(draw):
    """Words from cell 0: past the handler at its cell the body begins, with loops, calls and branches forward; at its end it stays."""
    body = [("addiu", 13, 0, 1), ("mtc0", 13)] if draw.random() < 0.8 else []
    body += [("addiu", r, 0, draw.randrange(-0x8000, 0x8000)) for r in draw.sample(FREE, 6)]
    calls = []
    for _ in range(draw.randrange(10, 60)):
        kind = draw.random()
        if kind < 0.12:
            inner = [i for i in (simple(draw) for _ in range(4)) if is_safe(i)]
            body += [("beq", 0, 0, 0)] if not inner else jumping(draw, len(inner)) + inner + [("addu", 0, 0, 0)] * 5
        elif kind < 0.18:
            inner = [i for i in (simple(draw) for _ in range(3)) if is_safe(i) and i[1] != 12]
            body += [("addiu", 12, 0, draw.randrange(1, 5)), *inner, ("addiu", 12, 12, -1), ("bgtz", 12, -len(inner) - 2)]
        elif kind < 0.24:
            calls.append(len(body))
            body.append(("jal", 0))
        elif kind < 0.5:
            # (one that is done twice is seen)
            at = draw.choice(FREE[:-2])
            body.append(("addiu", at, at, draw.randrange(1, 100)))
        else:
            item = simple(draw)
            body.append(item if is_safe(item) else (item[0], item[1], item[2], 0))
    start = HANDLER + len(HANDLER_CODE)
    end = start + len(body)
    code = [*body, LOOP]
    for place in calls:
        inner = [i for i in (simple(draw) for _ in range(3)) if is_safe(i) and i[1] != 15 and i[0] not in ("mult",)]
        code[place] = draw.choice([("jal", end + 1 + len(code) - len(body) - 1)])
        code += [*inner, ("jr", 15)]
    words = [word("j", start)] + [0] * (HANDLER - 1) + [word(*i) for i in HANDLER_CODE] + [word(*i) for i in code]
    return words


# ---- the program

class Lisa:
    """The program over a description of the machine, in a folder."""

    def __init__(self, program, folder, description=os.path.join(TOP, "examples", "mips.lisa")):
        self.program, self.folder, self.description = program, folder, description
        text = self.run("fmt", self.description)[1]
        self.digest = hashlib.sha256(text).hexdigest()

    def save(self, name, *words):
        """What the program prints with these words, put into a file; the fault where there is one."""
        status, out, err = self.run(*words)
        with open(os.path.join(self.folder, name), "wb") as file:
            file.write(out)
        return err.decode("latin-1").strip() if status else None

    def read(self, name):
        with open(os.path.join(self.folder, name), encoding="ascii") as file:
            return file.read()

    def assembled(self, texts):
        """The words of instructions, and the lines of their listing; the fault where there is one."""
        with open(os.path.join(self.folder, "t.s"), "w", encoding="ascii") as file:
            file.write(".section prog\n" + "".join(it + "\n" for it in texts))
        fault = (self.save("t.o", "asm", self.description, "t.s") or self.save("t.image", "link", self.description, "t.o")
                 or self.save("t.list", "dis", self.description, "t.image"))
        if fault:
            return [], [], fault
        return [int(it, 16) for it in self.read("t.image").splitlines()[2:-1]], self.read("t.list").splitlines()[1:], None

    def clocks_alike(self, image, schedule, edges):
        """Whether the module `m.v` prints what the description prints."""
        ours = self.run("run", self.description, image, schedule, str(edges))
        return ours == self.run("clock", "m.v", image, schedule, str(edges))

    def run(self, *words):
        done = subprocess.run([self.program, *words], cwd=self.folder, capture_output=True, timeout=300, check=False)
        return done.returncode, done.stdout, done.stderr

    def image(self, name, words):
        lines = [f"image 1 {self.digest}", f"memory prog 32 {CELLS} {len(words)}", *(f"{w:x}" for w in words), "end"]
        with open(os.path.join(self.folder, name), "w", encoding="ascii") as file:
            file.write("\n".join(lines) + "\n")

    def state(self, image, schedule, edges):
        status, out, err = self.run("run", self.description, image, schedule, str(edges))
        if status:
            return None, err.decode("latin-1").strip()
        return dict(line.rsplit(" ", 1) for line in out.decode("ascii").splitlines()), None


def differences(machine, state):
    """What the program left otherwise than the interpreter."""
    wanted = {f"R[{r}]": machine.r[r] for r in range(16) if r not in (13, 14)}
    wanted.update({f"data[{c}]": v for c, v in machine.data.items() if c != COUNT}, lo=machine.lo)
    shown = {name: int(value, 16) for name, value in state.items() if name != "edge"}
    names = set(wanted) | {n for n in shown if n.startswith(("R[", "data["))} - {"R[13]", "R[14]", f"data[{COUNT}]"}
    return [(n, wanted.get(n, 0), shown.get(n, 0)) for n in sorted(names) if wanted.get(n, 0) != shown.get(n, 0)]


def try_program(lisa, draw, clocked):
    """How many interrupts a random program took, or the fault where it leaves something else than the interpreter, or the module does."""
    words = random_program(draw)
    machine = Machine(words)
    steps = 0
    while machine.step():
        steps += 1
        if steps > 5000:
            return None, "the interpreter found no end"
    edges = 3 * steps + 200
    at = sorted(draw.sample(range(5, edges - 150), draw.randrange(0, 8)))
    rises = sorted({e: 1 for e in at} | {e + 1: 0 for e in at if e + 1 not in at}) if at else []
    with open(os.path.join(lisa.folder, "s"), "w", encoding="ascii") as file:
        file.writelines(f"{e} irq={int(e in at)}\n" for e in rises)
    lisa.image("i", words)
    edges += 60 * len(at)
    state, fault = lisa.state("i", "s", edges)
    if fault is not None:
        return None, fault
    wrong = differences(machine, state)
    if wrong:
        return None, str(wrong[:5])
    if clocked and not lisa.clocks_alike("i", "s", edges):
        return None, "the module prints something else"
    return int(state.get(f"data[{COUNT}]", "0x0"), 16), None


# ---- the programs of examples/

def path_of(name):
    return os.path.join(TOP, "examples", name)


def cells_of(name):
    """The cells of each memory in the image of a program of examples/."""
    with open(path_of(name + ".image"), encoding="ascii") as file:
        return image_cells(file.read())


def machine_of(name):
    cells = cells_of(name)
    return Machine(cells["prog"], cells.get("data", ()))


def interrupts(lisa, draw, count, edges):
    """A schedule of so many interrupts, each for one edge."""
    with open(os.path.join(lisa.folder, "s"), "w", encoding="ascii") as file:
        for edge in sorted(draw.sample(range(5, edges, 2), count)):
            file.write(f"{edge} irq=1\n{edge + 1} irq=0\n")
    return "s"


def run_example(lisa, name, schedule, edges):
    """What an example shows at its end, or the fault where that is something else than the interpreter leaves."""
    machine = machine_of(name)
    while machine.step():
        pass
    state, fault = lisa.state(path_of(name + ".image"), schedule, edges)
    if fault is not None:
        return None, f"{name}: {fault}"
    wrong = differences(machine, state)
    return state, f"{name}: {wrong[:5]}" if wrong else None


def cells_done(name):
    """The cells of a program that the interpreter does, which takes no interrupt."""
    machine, done = machine_of(name), {0}
    while machine.step():
        done.add(machine.pc >> 2)
    return done


def try_suite(lisa, draw, count):
    """The suite with so many interrupts, of which most are taken: what is wrong with its results."""
    edges = EXAMPLES["suite"]
    state, fault = run_example(lisa, "suite", interrupts(lisa, draw, count, edges), edges + 20 * count)
    if fault is not None:
        return f"with interrupts, {fault}"
    shown, words = lambda name: int(state.get(name, "0x0"), 16), [it for _, part in suite.results() for it in part]
    if [shown(f"data[{cell}]") for cell in range(len(words))] != words or [shown("R[2]"), shown("R[3]")] != 2 * [len(words)]:
        return "suite: its results aren't those of suite.py"
    return None if shown(f"data[{COUNT}]") > count / 2 else f"suite: {shown(f'data[{COUNT}]')} interrupts were taken of {count}"


# ---- words and texts

def drawn_instructions(draw, count):
    """Each instruction so many times, with random operands; GNU's assembler takes no jump out of the first mebibyte here."""
    for name in NAMES:
        for _ in range(count):
            at = operands(name, draw)
            yield name, (at[0] & 0x3FFFF,) if name in JUMP else at


def compare_texts(lisa, instructions):
    """The names of instructions that are assembled or listed otherwise than they are meant."""
    wrong = set()
    for first in range(0, len(instructions), CELLS):
        some = instructions[first:first + CELLS]
        words, listed, fault = lisa.assembled([own_text(name, at) for name, at in some])
        if fault:
            return {fault}
        for (name, at), got, text in zip(some, words, listed):
            if got != word(name, *at) or parts(text) != parts(own_text(name, at)):
                wrong.add(name)
    return wrong


# ---- errors that are planted in the description

ERRORS = [
    ("nothing is forwarded", "n == PIPELINE_REGISTER(pipe, EX/ME).dst ? PIPELINE_REGISTER(pipe, EX/ME).res : R[n]", "R[n]"),
    ("$0 is forwarded", "n == 0 ? 0 : n ==", "n =="),
    ("$0 is written", "if (IN.dst != 0) R[IN.dst]", "R[IN.dst]"),
    ("nothing waits for a load", "pipe.ID.stall();", ";"),
    ("the second operand doesn't wait for a load", " || rt == (uint4) (PIPELINE_REGISTER(pipe, FE/ID).ir >> 16)", ""),
    ("behind a taken branch one instruction is done", "if (rs != rt) { pc = IN.npc + ((int32) off << 2); pipe.FE.flush(); pipe.ID.flush(); }",
     "if (rs != rt) { pc = IN.npc + ((int32) off << 2); pipe.FE.flush(); }"),
    ("slt has no sign", "(int32) rs < (int32) rt", "rs < rt"),
    ("sra fills with zeros", "(int32) rt >> by;", "rt >> by;"),
    ("bytes stand from the other end", "uint5 low = (uint5) ~(uint2) IN.res << 3; OUT", "uint5 low = (uint5) (uint2) IN.res << 3; OUT"),
    ("a byte is loaded with its sign", "OUT.res = (uint8) (data", "OUT.res = (int8) (data"),
    ("an interrupt doesn't drop what is in EX", "pipe.FE.flush(); pipe.ID.flush(); pipe.EX.flush();", "pipe.FE.flush(); pipe.ID.flush();"),
    ("a call links to itself", "OUT.dst = 15; OUT.res = IN.npc;", "OUT.dst = 15; OUT.res = IN.npc - 4;"),
    ("slti has its registers exchanged", "CODING { 0b001010 rs rt imm", "CODING { 0b001010 rt rs imm"),
]


def catches(program, folder, error, instructions, seed, count):
    """None where an error is caught by a word or a random program, else what is said of it."""
    name, old, new = error
    with open(os.path.join(TOP, "examples", "mips.lisa"), encoding="ascii") as file:
        text = file.read()
    if text.count(old) != 1:
        return f"{name}: what it changes stands {text.count(old)} times"
    with open(os.path.join(folder, "planted.lisa"), "w", encoding="ascii") as file:
        file.write(text.replace(old, new))
    lisa, draw = Lisa(program, folder, os.path.join(folder, "planted.lisa")), random.Random(seed)
    status, _, err = lisa.run("check", lisa.description)
    if status:
        return f"{name}: the description is refused: {err.decode('latin-1').strip()}"
    if compare_texts(lisa, instructions) or any(try_program(lisa, draw, False)[1] for _ in range(count)):
        return None
    return f"{name}: not caught"


# ---- GNU's tools

GNU = "mips-linux-gnu-"


def gnu_made(texts, folder):
    """The words that GNU's assembler makes of a source, and the texts that GNU's objdump lists of them."""
    source, made, raw = (os.path.join(folder, n) for n in ("g.s", "g.o", "g.bin"))
    with open(source, "w", encoding="ascii") as file:
        file.write(".set noreorder\n.set nomacro\n.set noat\n" + "".join(t + "\n" for t in texts))
    subprocess.run([GNU + "as", "-mips1", "-EB", "-no-pad-sections", "-o", made, source], check=True, capture_output=True)
    words = gnu_cells(folder, ".text")
    shown = subprocess.run([GNU + "objdump", "-D", "-z", "-b", "binary", "-EB", "-m", "mips:3000", "-M", "no-aliases,gpr-names=numeric,cp0-names=numeric", raw],
                           check=True, capture_output=True, text=True).stdout
    listed = [line.split("\t", 2)[2].replace("\t", " ").split("<")[0] for line in shown.splitlines() if re.match(r"\s*[0-9a-f]+:\t", line)]
    # (one alias is listed all the same)
    listed = [re.sub(r"^negu\s+(\$\d+),(\$\d+)", r"subu \1,$0,\2", it) for it in listed]
    return words, listed


def gnu_cells(folder, section):
    """The words of a section of what GNU's assembler made."""
    made, raw = (os.path.join(folder, n) for n in ("g.o", "g.bin"))
    subprocess.run([GNU + "objcopy", "-O", "binary", "-j", section, made, raw], check=True, capture_output=True)
    with open(raw, "rb") as file:
        data = file.read()
    return [int.from_bytes(data[i:i + 4], "big") for i in range(0, len(data), 4)]


def compare_with_gnu(lisa, instructions):
    """The names of instructions of which GNU's tools make another word or text; each whole program of examples/ counts as one."""
    words, listed = gnu_made([gnu_text(name, at) for name, at in instructions], lisa.folder)
    wrong = {name for (name, at), got, text in zip(instructions, words, listed)
             if got != word(name, *at) or parts(text, False) != parts(own_text(name, at), False)}
    if len(words) != len(instructions) or len(listed) != len(words):
        wrong.add("the number of words")
    for name in EXAMPLES:
        with open(path_of(name + ".s"), encoding="ascii") as file:
            source = [gnu_line(line) for line in file]
        cells = cells_of(name)
        if gnu_made(source, lisa.folder)[0] != cells["prog"] or gnu_cells(lisa.folder, ".data") != cells.get("data", []):
            wrong.add(name)
    return wrong


def gnu_line(line):
    """A line of a source of examples/ as GNU's assembler takes it."""
    line = line.split(";")[0].replace(".section prog", ".text").replace(".section data", ".data").rstrip()
    line = re.sub(r"\.equ (\w+)", r".equ \1,", line)
    line = re.sub(r"\.space (\d+)", lambda it: f".space {4 * int(it[1])}", line)
    # (a place in bytes, and the distance of a branch)
    line = re.sub(r"@\((\w+)\+\1\+\1\+\1\)", r"\1" if ".word" in line else r"%lo(\1)", line)
    return re.sub(r"@\((\w+)-\$-1\)", r"\1", line).replace("@", "")


# ---- all

class Counts:
    def __init__(self):
        self.passed = self.failed = 0

    def note(self, fault):
        self.passed, self.failed = self.passed + (fault is None), self.failed + (fault is not None)
        if fault is not None:
            print(fault)


def try_instructions(counts, lisa, draw, count):
    """All instructions by the program, and by GNU's tools where they are installed."""
    instructions = list(drawn_instructions(draw, count))
    wrong = compare_texts(lisa, instructions)
    for name in NAMES:
        counts.note(f"{name} has another word or text" if name in wrong else None)
    for other in wrong - set(NAMES):
        counts.note(other)
    missing = [GNU + it for it in ("as", "objcopy", "objdump") if not shutil.which(GNU + it)]
    if missing:
        print(f"not installed: {', '.join(missing)}; nothing was compared with GNU's tools")
        return
    wrong = compare_with_gnu(lisa, instructions)
    for name in (*NAMES, *EXAMPLES, *(wrong - {*NAMES, *EXAMPLES})):
        counts.note(f"{name} is another one by GNU's tools" if name in wrong else None)


def main():
    parser = argparse.ArgumentParser(description=__doc__, formatter_class=argparse.RawDescriptionHelpFormatter)
    parser.add_argument("program")
    parser.add_argument("--programs", type=int, default=100)
    parser.add_argument("--words", type=int, default=200)
    parser.add_argument("--seed", type=int, default=1)
    given = parser.parse_args()
    program, draw, counts, taken = os.path.abspath(given.program), random.Random(given.seed), Counts(), 0
    with tempfile.TemporaryDirectory() as folder:
        lisa = Lisa(program, folder)
        try_instructions(counts, lisa, draw, given.words)
        for name, edges in EXAMPLES.items():
            counts.note(run_example(lisa, name, "-", edges)[1])
        counts.note(try_suite(lisa, random.Random(given.seed), 200))
        idle = set(range(CELLS)) - cells_done("suite") - {HANDLER + at for at in range(len(HANDLER_CODE))}
        counts.note(f"suite: the cells {sorted(idle)} are never done" if idle else None)
        counts.note(lisa.save("m.v", "verilog", lisa.description))
        for number in range(given.programs):
            count, fault = try_program(lisa, draw, True)
            taken += count or 0
            counts.note(None if fault is None else f"random program {number}: {fault}")
        print(f"{given.programs} random programs, {taken} interrupts taken")
        few = list(drawn_instructions(random.Random(given.seed), 2))
        for error in ERRORS:
            counts.note(catches(program, folder, error, few, given.seed, 60))
    print(f"{counts.passed} passed, {counts.failed} failed")
    return 1 if counts.failed else 0


if __name__ == "__main__":
    sys.exit(main())
