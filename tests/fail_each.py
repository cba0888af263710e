#!/usr/bin/env python3
"""Each allocation, each read and each write of a command failing.

    fail_each.py PROGRAM

Each command is run once, and then once for each of its calls, in which that call fails, and once more in which all behind it fail too. The
answer is the right one, or the status and line of that want or fault, behind a front of the right output. Beside this, each read and write
takes one byte, which changes nothing. The calls fail by a small library that is put before the C library, and is built with a C compiler;
where there is none nothing is tested. Of more than 600 calls of a sort some of them are taken, evenly."""

import hashlib
import os
import shutil
import struct
import subprocess
import sys
import tempfile
from concurrent.futures import ThreadPoolExecutor

HERE = os.path.dirname(os.path.abspath(__file__))
TOP = os.path.dirname(HERE)
MOST = 600
SHOWN = 10
# the sorts of calls, as the library numbers them, with the status and the line of their failing
SORTS = [("allocation", 5, b"lisa: out of memory\n"), ("read", 3, b"lisa: read fault\n"), ("write", 4, None)]

NIL = "0" * 64
COUNTER = "RESOURCE { REGISTER uint8 n; }\nOPERATION reset { BEHAVIOR { n = 5; } }\nOPERATION main { BEHAVIOR { n = n + 1; } }\n"
HEAVY = "RESOURCE { REGISTER uint8 M[2]; }\nOPERATION main { BEHAVIOR { " + "M[0] = M[0] + 1; " * 221 + "} }\n"
MODULE = """module t (input clk, input [3:0] step);
  reg [7:0] n;
  reg [7:0] m [0:3];
  initial n = 8'd1;
  always @(posedge clk) begin n <= n + step; if (n > 8'd2) m[n[1:0]] <= n; end
endmodule
"""
STORE = "module t (input clk); reg [7:0] prog [0:15]; endmodule\n"
IMAGE = f"image 1 {NIL}\nmemory m 8 4 2\n1\n2\nend\n"
DUMP = "$scope module machine $end $var reg 8 ! n $end $var reg 1 # k $end $upscope $end $enddefinitions $end\n#0 b101 ! 1#\n#1 b110 !\n"
PINS = "RESOURCE { REGISTER uint8 d; REGISTER uint1 s; REGISTER uint1 u; PIN uint8 byte; PIN uint1 valid; }\n"
ECHO = PINS + "OPERATION main { BEHAVIOR { if (valid) { d = byte; s = s + 1; u = u + 1; } } }\n"
ECHO_MODULE = """module t (input clk, input [7:0] byte, input valid);
  reg [7:0] d; reg s; reg u;
  initial begin d = 8'd0; s = 1'd0; u = 1'd0; end
  always @(posedge clk) begin if (valid) begin d <= byte; s <= s + 1'd1; u <= u + 1'd1; end end
endmodule
"""
LINES = "step 2\nwhere\nshow n\nback 1\nstate\nquit\n"


def example(name):
    with open(os.path.join(TOP, "examples", name), encoding="latin-1") as file:
        return file.read()


# the words, the input, and the status; words of other commands join here
COMMANDS = [
    ("", "", 2), ("runs A - - 3", "", 2), ("fmt G", "", 3), ("fmt A", "", 0), ("fmt C", "", 0), ("fmt X", "", 1), ("check A", "", 0),
    ("check C", "", 0), ("check F", "", 1), ("run A - - 3", "", 0), ("run A I - 3", "", 1), ("run A - K 3", "", 1), ("run F - - 3", "", 1), ("run C - - 3", "", 0), ("trace A - - 3", "", 0),
    ("trace E - S 3", "", 0), ("debug A - -", LINES, 0), ("debug C - -", LINES, 0),
    ("asm C P", "", 0), ("asm C Y", "", 1), ("asm F P", "", 1), ("link C O Q", "", 0), ("link C O", "", 1), ("link C O A", "", 1), ("dis C J", "", 0), ("dis C I", "", 1),
    ("gen C 7 8", "", 0), ("gen A 7 8", "", 1), ("soak C W 7 8 5", "", 0), ("soak C W 7 17 5", "", 1), ("soak C V 7 8 5", "", 1), ("soak A W 7 8 5", "", 1),
    ("verilog A", "", 0), ("verilog C", "", 0), ("verilog X", "", 1), ("verilog F", "", 1), ("verilog Z", "", 1),
    ("clock V I H 3", "", 0), ("clock V - K 3", "", 1), ("clocktrace V I H 3", "", 0), ("vdebug V I H", LINES, 0),
    ("tohex C J prog", "", 0), ("tohex C J R", "", 1), ("tomem C J prog", "", 0), ("fromhex C B prog", "", 0), ("fromhex C N prog", "", 1),
    ("frommem C N prog", "", 0), ("frommem C B prog", "", 1), ("vcd E - S 3", "", 0), ("vvcd V I H 3", "", 0), ("unvcd D", "", 0), ("unvcd A", "", 1),
    ("occupancy E - S 3", "", 0), ("occupancy F - - 3", "", 1), ("board U - T 5", "hi", 0), ("board U - H 5", "hi", 1), ("vboard M - T 5", "hi", 0),
]


def write_files(folder, program):
    """The files, with objects and an image that have the digest of C: that of its canonical text, which the program prints."""
    canonical = subprocess.run([program, "fmt", os.path.join(TOP, "examples", "c.lisa")], capture_output=True, timeout=120, check=True).stdout
    head = f"1 {hashlib.sha256(canonical).hexdigest()}\n"
    files = {"A": COUNTER, "C": example("c.lisa"), "E": example("e.lisa"), "F": example("f.lisa"), "X": COUNTER[:-3], "Z": HEAVY, "V": MODULE, "I": IMAGE, "H": "1 step=3\n2 step=1\n",
             "K": "1 stop=1\n", "S": "2 hold=1 kill=1\n3 hold=0 kill=0\n", "W": STORE,
             "P": ".section prog\n.global start\nstart: BR @(far-$-2) ; back\nADDI R1,7\n.word 0xc0, -1, @start\n.equ step 3\n", "Y": ".section prog\nADDI R1,@step\nHALT\n",
             "O": f"object {head}section prog 8\nglobal start\nlabel start\ncell 80\nfix 0 6 s -2 +far -$\nend\n",
             "Q": f"object {head}section prog 8\nglobal far\nspace 3\nlabel far\ncell 0\nend\n", "J": f"image {head}memory prog 8 16 3\n67\nc0\n5\nend\n", "B": ":0300000067C005D1\n:00000001FF\n", "N": "67 c0 @4 5 // end\n", "D": DUMP,
             "U": ECHO, "M": ECHO_MODULE, "T": "console d s byte valid u\n"}
    for name, text in files.items():
        with open(os.path.join(folder, name), "w", encoding="latin-1") as file:
            file.write(text)


class Runs:
    """The runs of a program with the library before it, in a folder with the files."""

    def __init__(self, program, library, folder):
        self.program, self.folder = program, folder
        self.environment = {**os.environ, "LD_PRELOAD": library}

    def answer(self, words, text, **failing):
        done = subprocess.run([self.program, *words.split()], input=text.encode(), cwd=self.folder, env={**self.environment, **failing},
                              capture_output=True, timeout=120)
        return done.returncode, done.stdout, done.stderr

    def counts(self, words, text):
        """How many calls of each sort are made."""
        file = os.path.join(self.folder, "counts")
        with open(file, "wb") as zeros:
            zeros.write(bytes(8 * len(SORTS)))
        self.answer(words, text, FAIL_COUNTS=file)
        with open(file, "rb") as counted:
            return struct.unpack(f"{len(SORTS)}Q", counted.read())


def is_allowed(sort, right, got):
    """The right answer, or the failing is told behind a front of it."""
    _, status, line = SORTS[sort]
    if got == right:
        return True
    said = right[2].startswith(got[2]) if line is None else got[2] == line
    return got[0] == status and said and right[1].startswith(got[1])


def failings(counts):
    """Which call fails, and whether all behind it do: the environment of a run, with the sort."""
    yield None, {"FAIL_BYTES": "1"}
    for sort, count in enumerate(counts):
        for number in range(1, count + 1, max(1, -(-count // MOST))):
            for behind in ({}, {"FAIL_ALL": "1"}):
                yield sort, {"FAIL_SORT": str(sort), "FAIL_AT": str(number), **behind}


def try_command(runs, pool, words, text, status):
    """How many runs are as they should be, and what is wrong with the others."""
    right = runs.answer(words, text)
    if right[0] != status:
        return 0, [f"{words}: status {right[0]} where nothing fails, {right[1]!r:.200}, {right[2]!r:.200}"]
    counts = runs.counts(words, text)
    if counts[0] == 0 or counts[2] == 0 and right[1] + right[2]:
        return 0, [f"{words}: the library counts {counts} calls, so none of them is made to fail"]
    tried = list(failings(counts))
    passed, wrong = 0, []
    for (sort, failing), got in zip(tried, pool.map(lambda it: runs.answer(words, text, **it[1]), tried)):
        if got == right if sort is None else is_allowed(sort, right, got):
            passed += 1
            continue
        what = "one byte for each call" if sort is None else f"{SORTS[sort][0]} {failing['FAIL_AT']}" + (" and all behind" if "FAIL_ALL" in failing else "")
        wrong.append(f"{words or 'no words'}, {what}: status {got[0]}, {got[1]!r:.200}, {got[2]!r:.200}")
    print(f"{words or 'no words'}: {counts[0]} allocations, {counts[1]} reads, {counts[2]} writes; {len(tried)} runs", flush=True)
    return passed, wrong


def build_library(folder):
    """The library's file, or None without a C compiler."""
    compiler = next((it for it in map(shutil.which, ("cc", "gcc", "clang")) if it), None)
    if compiler is None:
        return None
    library = os.path.join(folder, "failing.so")
    subprocess.run([compiler, "-O1", "-shared", "-fPIC", "-o", library, os.path.join(HERE, "fail_each.c")], check=True)
    return library


def built(program):
    """The program itself, where the launcher is given: the library must not be before the shell."""
    with open(program, "rb") as file:
        is_launcher = file.read(2) == b"#!"
    if not is_launcher:
        return program
    subprocess.run([program], capture_output=True, timeout=7200)
    return os.path.join(os.path.dirname(program), "crates", "lisa", "out", "lisa")


def main(words):
    if len(words) != 1:
        print(__doc__)
        return 2
    passed, failed = 0, 0
    with tempfile.TemporaryDirectory() as folder, ThreadPoolExecutor(len(os.sched_getaffinity(0))) as pool:
        library = build_library(folder)
        if library is None:
            print("no C compiler is there (cc, gcc or clang), so no call is made to fail")
            print("0 passed, 0 failed")
            return 0
        program = built(os.path.abspath(words[0]))
        write_files(folder, program)
        runs = Runs(program, library, folder)
        for command in COMMANDS:
            right, wrong = try_command(runs, pool, *command)
            passed, failed = passed + right, failed + len(wrong)
            print("".join(line + "\n" for line in wrong[:SHOWN]), end="")
    print(f"{passed} passed, {failed} failed")
    return 1 if failed else 0


if __name__ == "__main__":
    sys.exit(main(sys.argv[1:]))
