#!/usr/bin/env python3
"""Worked rows: what the program prints for given files, words and input.

rows.py PROGRAM            all rows
rows.py PROGRAM WORD ..    only the rows whose names have one of these words
rows.py --list             the rows' names

Each row runs the program in a fresh folder with the row's files. A row's steps run one after the other; what a step
prints may be saved as a file for the next ones."""

import hashlib
import os
import re
import subprocess
import sys
import tempfile

from descriptions import ALL as DESCRIPTIONS

HERE = os.path.dirname(os.path.abspath(__file__))


def example(name):
    with open(os.path.join(HERE, "..", "examples", name), encoding="latin-1") as file:
        return file.read()


def swap(text, *pairs):
    for old, new in pairs:
        assert text.count(old) == 1, (old, text.count(old))
        text = text.replace(old, new)
    return text


def lines(*all):
    return "".join(line + "\n" for line in all)


def step(words, out="", err="", status=None, save=None, same=None, input=""):
    """`out` and `err` are texts, or compiled patterns for the whole, or None where anything may stand. The status is 1
    where `err` is given and nothing else is said. `same` names a file that must be what is printed."""
    words = words.split() if isinstance(words, str) else words
    status = (1 if err != "" else 0) if status is None else status
    return dict(words=words, out=out, err=err, status=status, save=save, same=same, input=input)


ROWS = []


def row(name, files, *steps):
    ROWS.append((name, files, steps))


def digest(description):
    """The digest of a description: of its canonical text, which the program prints; it stands where the program is known."""
    return f"<digest of {description.encode('latin-1').hex()}>"


A = example("a.lisa")
SAMPLES = {name: example(name) for name in ("a.lisa", "b.lisa", "c.lisa", "d.lisa", "e.lisa", "f.lisa")}
USAGE = "usage: lisa check|fmt|verilog|run|trace|clock|clocktrace|asm|link|dis|debug|vdebug|gen|soak|tohex|fromhex|tomem|frommem|vcd|vvcd|unvcd|occupancy|board|vboard ..\n"

# ---------------------------------------------------------------- the words

row("no words", {}, step([], err=USAGE, status=2))
row("an unknown command", {"A": A}, step("runs A - - 3", err=USAGE, status=2))
row("too many edges", {"A": A}, step("run A - - 1000001", err=USAGE, status=2))
row("edges with a leading zero", {"A": A}, step("run A - - 03", err=USAGE, status=2))
row("a dash where a file stands", {"A": A}, step("run - - - 3", err=USAGE, status=2))
row("an empty word where a file stands", {"A": A}, step(["run", "", "-", "-", "3"], err=USAGE, status=2))
for name, words in [("a dash where a description stands", "verilog -"), ("a dash where a module stands", "soak A - 7 4 1"),
                    ("too many instructions", "gen A 7 65537"), ("a number of 65 bits to draw from", "gen A 18446744073709551616 4"),
                    ("a number to draw from with a leading zero", "gen A 07 4"), ("no number of instructions", "gen A 7"),
                    ("too many instructions of a soak", "soak A A 7 65537 1"), ("too many edges of a soak", "soak A A 7 4 1000001"),
                    ("no number of edges of a soak", "soak A A 7 4"),
                    ("a dash where an image is exported", "tohex A - m"), ("a dash where a memory's file stands", "frommem A - m"), ("no memory to import", "fromhex A A"),
                    ("a dash where a dump stands", "unvcd -"), ("no dump", "unvcd"), ("too many edges of a dump", "vcd A - - 10001"),
                    ("too many edges of a module's dump", "vvcd A - - 10001"), ("too many edges of occupancy", "occupancy A - - 1000001"), ("no number of edges of occupancy", "occupancy A - -"),
                    ("a dash where a board stands", "board A - - 4"), ("a dash where a module's board stands", "vboard A - - 4"), ("too many edges on a board", "board A - A 1000001"),
                    ("no number of edges on a board", "board A - A")]:
    row(name, {"A": A}, step(words, err=USAGE, status=2))
row("a memory without a name", {"A": A}, step(["tohex", "A", "A", ""], err=USAGE, status=2), step(["frommem", "A", "A", ""], err=USAGE, status=2))

# ---------------------------------------------------------------- run

row("counter after 3 edges", {"A": A}, step("run A - - 3", lines("edge 3", "n 0x8")))
row("counter after no edge", {"A": A}, step("run A - - 0", lines("edge 0", "n 0x5")))
row("counter past its width", {"A": A}, step("run A - - 257", lines("edge 257", "n 0x6")))
row("run of a missing file", {}, step("run G - - 3", err="lisa: read fault\n", status=3))
row("run of a product", {"A": swap(A, ("n + 1", "n * 2"))}, step("run A - - 3", lines("edge 3", "n 0x28")))
row("run below 0", {"A": swap(A, ("uint8", "uint64"), ("n = 5;", "n = 0;"), ("n + 1", "n - 1"))},
    step("run A - - 1", lines("edge 1", "n 0xffffffffffffffff")))
row("run of a file over its limit", {"A": A + " " * (1048577 - len(A))},
    step("run A - - 3", err="lisa: file 1 TooLong name=A\n"))
row("run of a file at its limit", {"A": A + " " * (1048576 - len(A))},
    step("run A - - 3", lines("edge 3", "n 0x8")))

# ---------------------------------------------------------------- fmt

SQUEEZED = "RESOURCE{REGISTER uint8 n;}OPERATION main{BEHAVIOR{n=(n+1)*2;}}\n"
SPREAD = lines("RESOURCE {", "  REGISTER uint8 n;", "}", "OPERATION main {", "  BEHAVIOR {", "    n = (n + 1) * 2;", "  }", "}")


def up_to(head, limit):
    """A pattern for a line that ends in a number from 0 to `limit`."""
    return re.compile(re.escape(head) + "(" + "|".join(str(k) for k in range(limit + 1)) + ")\n")


row("canonical text", {"X": SQUEEZED}, step("fmt X", SPREAD, save="Y"), step("fmt Y", SPREAD))
for name, text in SAMPLES.items():
    row(f"canonical text of {name} and of that again", {"X": text}, step("fmt X", None, save="Y"), step("fmt Y", same="Y"))
for name, text, fault in [("a bad byte", "RESOURCE { REGISTER uint8 n; } @", "1 BadByte at=31"),
                          ("no description", "", "5 NotADescription at=0"),
                          ("65 brackets", "(" * 65, "4 TooDeep at=64"),
                          ("a number of 65 bits", "18446744073709551616", "2 NumberTooWide at=0"),
                          ("a name of 65 bytes", "a" * 65, "3 NameTooLong at=0")]:
    row(f"fmt of {name}", {"X": text}, step("fmt X", err=f"lisa: description {fault}\n"))


def nested(count, semantics):
    """Indexes in each other, behind a SEMANTICS section."""
    value = "m[" * count + "n" + "]" * count
    return f"RESOURCE {{ MEMORY uint8 m[2]; REGISTER uint8 n; }} OPERATION a {{ SEMANTICS {{ {semantics} }} BEHAVIOR {{ n = {value}; }} }}"


def nested_text(count):
    value = "m[" * count + "n" + "]" * count
    return lines("RESOURCE {", "  MEMORY uint8 m[2];", "  REGISTER uint8 n;", "}", "OPERATION a {", "  BEHAVIOR {", f"    n = {value};", "  }", "}")


for count, semantics in [(62, ") )"), (62, ") ("), (62, "( SEMANTICS { ) }")]:
    row(f"{count} indexes behind {semantics} are read again", {"X": nested(count, semantics)}, step("fmt X", nested_text(count), save="Y"), step("fmt Y", same="Y"))
DEEP = nested_text(63)
row("63 indexes behind brackets that close others are printed and not read again", {"X": nested(63, ") )")},
    step("fmt X", DEEP, save="Y"), step("fmt Y", err=f"lisa: description 4 TooDeep at={DEEP.index('m[m') + 2 * 63 - 1}\n"))
row("fmt of 64 brackets", {"X": "(" * 64}, step("fmt X", err=up_to("lisa: description 5 NotADescription at=", 64)))
for word in ("ALIAS", "CLOCKED"):
    row(f"{word} is no name", {"X": swap(A, ("uint8 n;", f"uint8 {word};"))},
        step("fmt X", err=up_to("lisa: description 5 NotADescription at=", len(A) + 10)))
for name, text, fault in [("0x alone", "0x", "1 BadByte at=1"), ("0b alone", "0b", "1 BadByte at=1"), ("a letter behind a number", "1a", "1 BadByte at=1"),
                          ("another format", "#Q", "1 BadByte at=0"), ("half a comment", " /*/", "1 BadByte at=1"), ("an open comment with a bad byte", "/*\x01", "1 BadByte at=0"),
                          ("a comment with a bad byte", "/*a\x7f*/", "1 BadByte at=3"), ("a line's comment with a bad byte", "//a\x80", "1 BadByte at=3"),
                          ("half a string", ' "a', "1 BadByte at=1"), ("a string with a semicolon", '"a;"', "1 BadByte at=2"),
                          ("a name of 65 bytes in its place", "RESOURCE { REGISTER uint8 " + "a" * 65 + "; }", "3 NameTooLong at=26")]:
    row(f"fmt of {name}", {"X": text}, step("fmt X", err=f"lisa: description {fault}\n"))


def not_read(name, text):
    row(f"fmt of {name}", {"X": text}, step("fmt X", err=up_to("lisa: description 5 NotADescription at=", len(text))))


def formatted(name, section, *inner):
    """How a section of an operation is printed, and that it is printed as it stands then."""
    text = lines("RESOURCE {", "}", "OPERATION f {", *("  " + line for line in inner), "}")
    row(f"fmt of {name}", {"X": "RESOURCE { } OPERATION f { " + section + " }"}, step("fmt X", text, save="Y"), step("fmt Y", text))


def behavior(name, statements, *inner):
    formatted(name, "BEHAVIOR { " + statements + " }", "BEHAVIOR {", *("  " + line for line in inner), "}")


not_read("an operation without its end", "RESOURCE { } OPERATION main { ")
not_read("a sign behind a description", "RESOURCE { } OPERATION main { } ;")
not_read("a slash", "RESOURCE { / }")
LONG_NAME = "a" * 64
row("fmt of a name of 64 bytes", {"X": f"RESOURCE{{REGISTER uint8 {LONG_NAME};}}"},
    step("fmt X", lines("RESOURCE {", f"  REGISTER uint8 {LONG_NAME};", "}")))
row("fmt of a name that begins with a reserved word", {"X": "RESOURCE{REGISTER uint8 CLOCKED_;}"},
    step("fmt X", lines("RESOURCE {", "  REGISTER uint8 CLOCKED_;", "}")))
row("fmt without SEMANTICS", {"X": "RESOURCE { CLOCKED REGISTER uint8 n; } ALIAS OPERATION m IN p.x { SEMANTICS { { if } ; } BEHAVIOR { n = 1; } SEMANTICS { } }"},
    step("fmt X", lines("RESOURCE {", "  CLOCKED REGISTER uint8 n;", "}", "ALIAS OPERATION m IN p.x {", "  BEHAVIOR {", "    n = 1;", "  }", "}")))
for last in ("B", "B;"):
    row(f"fmt of stages up to {last}", {"X": "RESOURCE { PIPELINE p = { A; " + last + " }; PIPELINE_REGISTER IN p { uint8 x; } }"},
        step("fmt X", lines("RESOURCE {", "  PIPELINE p = {", "    A;", "    B };", "  PIPELINE_REGISTER IN p {", "    uint8 x;", "  };", "}")))
row("fmt of an array's depth", {"X": "RESOURCE{REGISTER int12 r[0x10];MEMORY uint1 m[007];}"},
    step("fmt X", lines("RESOURCE {", "  REGISTER int12 r[16];", "  MEMORY uint1 m[7];", "}")))
formatted("declarations", "DECLARE { GROUP d, s = { reg }; GROUP i = { add || load }; INSTANCE a, b = c, x = x; LABEL n; REFERENCE r, q; }",
          "DECLARE {", "  GROUP d, s = {", "    reg };", "  GROUP i = {", "    add || load };", "  INSTANCE a, b = c, x;", "  LABEL n;", "  REFERENCE r, q;", "}")
formatted("a coding", "CODING { 0b0001 i=0bxx reg 0bx[065535] }", "CODING {", "  0b0001 i = 0bxx reg 0bx[65535] }")
formatted("a root over a field", "CODING { IN.code==instruction }", "CODING {", "  IN.code == instruction }")
formatted("a root over a register", "CODING { code==instruction }", "CODING {", "  code == instruction }")
for coding in ("0bx[0]", "0bx[65536]", "0b00[65535]", "", "IN.code"):
    not_read(f"the coding '{coding}'", "RESOURCE { } OPERATION f { CODING { " + coding + " } }")
formatted("a syntax", 'SYNTAX { "ADD" reg~"," n=#S m=#U~k=#X }', "SYNTAX {", '  "ADD" reg ~ "," n = #S m = #U ~ k = #X }')
not_read("a syntax that begins with a joint", 'RESOURCE { } OPERATION f { SYNTAX { ~ "ADD" } }')
formatted("an activation", "ACTIVATION { c, if(decoded){a,b}else{} }",
          "ACTIVATION {", "  c, if (decoded) {", "    a, b }", "  else {", "  }", "}")
behavior("differences", "n = a - b - c; n = (a - b) - c; n = a - (b - c);", "n = a - b - c;", "n = a - b - c;", "n = a - (b - c);")
behavior("a complement of a cast", "n = a - (b - ~(uint8)c); n = ~(a - b); n = !(~n);", "n = a - (b - ~ (uint8) c);", "n = ~ (a - b);", "n = ! ~ n;")
behavior("each operator", "n = a<<b>>c<d<=e>f>=g==h!=i&&j||k&l|m^o+p-q*r;",
         "n = a << b >> c < d <= e > f >= g == h != i && j || k & l | m ^ o + p - q * r;")
behavior("choices", "n = (a ? b : (n + 1) * 2) ? 0xBEEF : (d ? 0b0110 : decoded);", "n = (a ? b : (n + 1) * 2) ? 0xbeef : d ? 0b110 : decoded;")
behavior("numbers and comments", "n = 007/***/+0xFf\t+0b01// n\n; /* ; */", "n = 7 + 0xff + 0b1;")
behavior("an else of the nearest if", "if (a) if (b) ; else ;", "if (a) if (b);", "else;")
behavior("an else of the outer if", "if (a) { if (b) ; } else ;", "if (a) {", "  if (b);", "}", "else;")
behavior("an if with blocks", "if(a);if(a){}else{;}child();", "if (a);", "if (a) {", "}", "else {", "  ;", "}", "child ();")
behavior("loops", "while(a);for(uint8 i=0;i<3;i=i+1)n=n+i;", "while (a);", "for (uint8 i = 0; i < 3; i = i + 1) n = n + i;")
behavior("locals and control", "uint8 x;uint4 y=1;OUT.f=r[1];p.A.stall();p.B.flush();p.execute();p.shift();n=PIPELINE_REGISTER(p,A/B).f;",
         "uint8 x;", "uint4 y = 1;", "OUT.f = r[1];", "p.A.stall ();", "p.B.flush ();", "p.execute ();", "p.shift ();",
         "n = PIPELINE_REGISTER (p, A / B).f;")
for depth, is_read in ((126, True), (127, False)):
    text = "RESOURCE { REGISTER uint8 n; } OPERATION main { BEHAVIOR { n = " + "~" * depth + "n; } }"
    if is_read:
        row("fmt of the deepest behaviour", {"X": text}, step("fmt X", None))
    else:
        not_read("a deeper behaviour", text)
row("fmt of a missing file", {}, step("fmt G", err="lisa: read fault\n", status=3))
row("fmt of two files", {"A": A}, step("fmt A A", err=USAGE, status=2))

# ---------------------------------------------------------------- modules

V = example("v.v")


def at_most(line, text):
    """A pattern for a line that ends in a number up to the length of a text."""
    digits = str(len(text))
    least = "|".join(digits[:k] + f"[0-{int(digits[k]) - 1}]" + f"\\d{{{len(digits) - k - 1}}}"
                     for k in range(len(digits)) if digits[k] != "0")
    return re.compile(re.escape(line) + f"(\\d{{1,{len(digits) - 1}}}|{least}|{digits})\n")


def with_array(depth, index):
    return swap(V, ("reg [15:0] s;", f"reg [15:0] s; reg [7:0] m [0:{depth - 1}];"), ("s <= a + b;", f"s <= m[{index}];"))


row("clock of a module", {"V": V}, step("clock V - - 1", lines("edge 1", "a 0xc8", "b 0x64", "s 0x12c")))
row("clocktrace of a module", {"V": V}, step(
    "clocktrace V - - 2", lines("edge 0", "a 0xc8", "b 0x64", "s 0x0", "edge 1", "s 0x12c", "edge 2")))
COUNTER = lines("module t (input clk);", "reg [7:0] n;", "initial n = 8'd5;", "always @(posedge clk) n <= n + 8'd1;", "endmodule")
row("clock of a counter", {"W": COUNTER}, step("clock W - - 3", lines("edge 3", "n 0x8")))
row("clocktrace of a counter", {"W": COUNTER}, step("clocktrace W - - 2", lines("edge 0", "n 0x5", "edge 1", "n 0x6", "edge 2", "n 0x7")))
SHARED = lines("module t (input clk);", "reg [7:0] a;", "reg [7:0] b;", "wire [7:0] x = a + b;", "initial begin a = 8'd1; b = 8'd0; end",
               "always @(posedge clk) begin b <= x - 8'd1; a <= x + 8'd2; end", "endmodule")
row("clock of a module with a wire", {"W": SHARED}, step("clock W - - 3", lines("edge 3", "a 0x9", "b 0x6")))
row("clock of a module without members", {"W": "module t (input c); endmodule"}, step("clock W - - 2", "edge 2\n"))
for number, (added, result) in enumerate([("(a + b) >> 1'd1", "0x96"), ("{a + b} >> 1'd1", "0x16"), ("a ^ ~b", "0xff53"),
                                          ("~(~a)", "0xc8")]):
    row(f"widths of a module's operators {number + 1}", {"V": swap(V, ("a + b", added))},
        step("clock V - - 1", lines("edge 1", "a 0xc8", "b 0x64", f"s {result}")))
for added in ("a ^~ b", "~~a"):
    whole = swap(V, ("a + b", added))
    row(f"{added} is outside the subset", {"V": whole}, step("clock V - - 1", err=at_most("lisa: verilog 3 NotInSubset at=", whole)))
for name, text, fault in [
        ("an index that is too narrow", with_array(16, "3'd1"), "8 IndexWidth name=m width=3 needed=4"),
        ("a register without a value", swap(V, (" s = 16'd0;", "")), "7 NoInitial name=s"),
        ("a register twice", swap(V, ("  reg [7:0] a;\n", "  reg [7:0] a;\n  reg [7:0] a;\n")), "4 DuplicateName name=a"),
        ("a depth that is no power of two", swap(V, ("reg [15:0] s;", "reg [15:0] s; reg [7:0] m [0:2];")),
         "11 TooMany what=depth count=3 limit=1048576"),
        ("an unknown name", swap(V, ("a + b", "a + c")), "5 UsedBeforeDeclared name=c"),
        ("an assignment to the clock", swap(V, ("a <= b;", "clk <= b;")), "6 WrongUse name=clk"),
        ("a sum of 65 bits", swap(V, ("a + b", "{s, s, s, s, 1'd1}")), f"9 TooWide at={V.index('a + b')}"),
        ("two drivers", swap(V, ("endmodule", "  always @(posedge clk) s <= a;\nendmodule")), "10 TwoDrivers name=s"),
        ("65 brackets", "(" * 65, "2 TooDeep at=64"),
        ("a bad byte", "module \x01", "1 BadByte at=7"),
        ("an open comment with a bad byte", "module /*\x01", "1 BadByte at=7"),
        ("a question directly behind a binary number", swap(V, ("a + b", "1'b1?a:b")), f"1 BadByte at={V.index('a + b') + 4}"),
        ("a question directly behind a hexadecimal number", swap(V, ("a + b", "4'hf?a:b")), f"1 BadByte at={V.index('a + b') + 4}")]:
    row(f"clock of {name}", {"V": text}, step("clock V - - 1", err=f"lisa: verilog {fault}\n"))



def value(name, expression, result):
    """What the register s of 16 bits takes of an expression over a, which is 200, and b, which is 100, of 8 bits each."""
    row(f"value of {name}", {"V": swap(V, ("a + b", expression))}, step("clock V - - 1", lines("edge 1", "a 0xc8", "b 0x64", f"s {result}")))


value("sums and products", "a+b*8'd3+8'd1", "0x1f5")
value("differences", "a-b-b-8'd1", "0xffff")
value("a bracketed sum", "(a+b)*8'd2", "0x258")
value("a bracketed difference", "a-(b-8'd1)", "0x65")
value("a shifted sum", "a+b<<2'd1", "0x258")
value("a comparison of sums", "a+8'd1>b+8'd2", "0x1")
value("equal comparisons", "a<b==8'd0>b", "0x1")
value("and, or and exclusive or", "a|b^8'd255&b", "0xc8")
value("logical and, and or", "1'd1||1'd0&&1'd0", "0x1")
value("choices to the right", "1'd0?a:1'd1?b:a", "0x64")
value("a choice in a choice", "1'd1?1'd0?a:b:a", "0x64")
value("a concatenation", "{a,b[3],b[7:4]}", "0x1906")
value("a replication", "{3{b[3:1]}}", "0x92")
value("a negation of a complement", "!(~a)", "0x0")
value("a question behind a decimal number", "1'd1?a:b", "0xc8")
value("a question apart from a binary number", "1'b0 ?a:b", "0x64")
value("numbers of other bases", "8'hC_8+8'B1_0+8'D1", "0xcb")


def module(*members, inputs="input c"):
    return "module t (" + inputs + "); " + " ".join(members) + " endmodule"


def clocked(name, text, edges, *told, schedule=None):
    files = {"W": text} if schedule is None else {"W": text, "H": schedule}
    row(f"clock of {name}", files, step(f"clock W - {'-' if schedule is None else 'H'} {edges}", lines(f"edge {edges}", *told)))


BLOCKS = ("reg [7:0] a;", "reg [7:0] b;", "initial begin a = 8'd1; b = 8'd2; end")
clocked("blocks in blocks", module(*BLOCKS, "always @(posedge c) begin begin a <= b; end begin end begin if (1'd1) begin b <= a; end end end"), 1, "a 0x2", "b 0x1")
clocked("an else of the nearest if", module(*BLOCKS, "always @(posedge c) if (1'd1) if (1'd0) a <= 8'd3; else b <= 8'd4;"), 1, "a 0x1", "b 0x4")
clocked("an else of the outer if", module(*BLOCKS, "always @(posedge c) if (1'd1) begin if (1'd0) a <= 8'd3; end else b <= 8'd4;"), 1, "a 0x1", "b 0x2")
clocked("each kind of member", module(
    "reg [7:0] r;", "reg s;", "reg [7:0] m [0:7];", "wire [7:0] w = r + a;", "initial r = 8'd5;", "initial begin s = 1'd0; end",
    "always @(posedge c) r <= w;", "always @(posedge c) begin s <= b; m[r[2:0]] <= a; end", inputs="input wire c, input [7:0] a, input wire b"), 2,
    "r 0xb", "s 0x1", "m[0] 0x3", "m[5] 0x3", schedule="1 a=3 b=1\n")
clocked("escaped names", module("reg [7:0] \\a.b ;", "initial \\a.b = 8'd7;", "always @(posedge c) \\a.b <= \\a.b + 8'd1;"), 1, "a.b 0x8")
clocked("a word that is reserved elsewhere", module("wire assign = 1'd1;"), 1)
clocked("a bit of what has no range", module("reg a;", "initial a = 1'd1;", "always @(posedge c) a <= !a[0];"), 1, "a 0x0")
for depth, is_read in ((126, True), (127, False)):
    text = swap(V, ("a + b", "a?b:" * depth + "a"))
    row(f"clock of {depth} choices", {"V": text}, step("clock V - - 1", lines("edge 1", "a 0xc8", "b 0x64", "s 0x64")) if is_read
        else step("clock V - - 1", err=at_most("lisa: verilog 3 NotInSubset at=", text)))
for name, text in [("no end", "module m (input c);"), ("two ends", "module m (input c); endmodule endmodule"), ("nothing", ""),
                   ("a sign behind it", "module t (input c); endmodule ;"), ("64 brackets", "(" * 64),
                   ("a range that ends at 1", module("reg [7:1] r;")), ("an array from 1 on", module("reg [7:0] r [1:7];")),
                   ("a block without end", module("always @(posedge c) begin")), ("no semicolon", module("wire w = 1'd1")),
                   ("a replication of none", swap(V, ("a + b", "{0{a}}"))), ("an index by a plain", swap(V, ("a <= b;", "a[0] <= b;")))]:
    row(f"clock of {name}", {"W": text}, step("clock W - - 1", err=at_most("lisa: verilog 3 NotInSubset at=", text) if text else "lisa: verilog 3 NotInSubset at=0\n"))
for name, text, fault in [
        ("a bad byte behind a module", "module t (input c); #", "1 BadByte at=20"),
        ("a number that is too great for its size", "a 8'd256", "1 BadByte at=2"),
        ("a digit of another base", "4'b12", "1 BadByte at=4"),
        ("an escaped name without its end", "a \\b", "1 BadByte at=2"),
        ("a plain of 32 bits", "[2147483648]", "1 BadByte at=1"),
        ("an input named as a register", module("reg i;", inputs="input c, input i"), "4 DuplicateName name=i"),
        ("a wire of itself", module("wire w = w;"), "5 UsedBeforeDeclared name=w"),
        ("a wire of a later one", module("wire a = b;", "wire b = 1'd1;"), "5 UsedBeforeDeclared name=b"),
        ("an assignment to an input", module("always @(posedge c) i <= i;", inputs="input c, input i"), "6 WrongUse name=i"),
        ("an array without its index", module("reg [7:0] a [0:3];", "wire [7:0] w = a;"), "6 WrongUse name=a"),
        ("a clock that is read", module("wire a = c;"), "6 WrongUse name=c"),
        ("an initial value of an input", module("initial i = 1'd1;", inputs="input c, input i"), "7 NoInitial name=i"),
        ("two initial values", module("reg a;", "initial a = 1'd1;", "initial a = 1'd0;"), "7 NoInitial name=a"),
        ("an index of 1 bit", module("reg [7:0] m [0:3];", "wire [7:0] w = m[1'd0];"), "8 IndexWidth name=m width=1 needed=2"),
        ("an index of very many bits", module("reg [7:0] m [0:3];", "wire [7:0] w = m[{1000000{{1000000{1'd0}}}}];"), "8 IndexWidth name=m width=4294967295 needed=2"),
        ("a range of 65 bits", module("wire [64:0] w = 1'd0;"), "9 TooWide at=25"),
        ("a replication of 65 bits", module("wire w = 1'd0 == ({65{1'd0}});"), "9 TooWide at=37"),
        ("a depth of 12", module("reg [7:0] m [0:11];"), "11 TooMany what=depth count=12 limit=1048576"),
        ("65 pins", module(inputs="input c, " + ", ".join(f"input i{k}" for k in range(65))), "11 TooMany what=pins count=65 limit=64"),
        ("names before sizes", module("reg [64:0] a;", "reg m [0:2];", "wire a = b;"), "4 DuplicateName name=a"),
        ("uses before sizes", module("reg [64:0] a;", "reg m [0:2];", "wire b = c;"), "6 WrongUse name=c")]:
    row(f"clock of {name}", {"W": text}, step("clock W - - 1", err=f"lisa: verilog {fault}\n"))

MEMORY = lines("module t (input clk, input [3:0] step);", "  reg [7:0] n;", "  reg [7:0] m [0:3];", "  initial n = 8'd0;",
               "  always @(posedge clk) begin n <= n + step; m[n[1:0]] <= n; end", "endmodule")
DIGEST = "0" * 64
IMAGE = lines(f"image 1 {DIGEST}", "memory m 8 4 3", "1", "2", "3", "end")
row("clocktrace with an image and a schedule", {"W": MEMORY, "I": IMAGE, "H": lines("2 step=3", "3 step=0")}, step(
    "clocktrace W I H 3", lines("edge 0", "n 0x0", "m[0] 0x1", "m[1] 0x2", "m[2] 0x3", "edge 1", "m[0] 0x0", "edge 2", "n 0x3",
                                "edge 3", "m[3] 0x3")))
row("clock with an image alone", {"W": MEMORY, "I": IMAGE}, step(
    "clock W I - 0", lines("edge 0", "n 0x0", "m[0] 0x1", "m[1] 0x2", "m[2] 0x3")))
row("an image of another memory", {"W": MEMORY, "I": swap(IMAGE, ("memory m 8 4", "memory k 8 4"))},
    step("clock W I - 1", err="lisa: image 3 NoSuchMemory name=k\n"))
row("an image without its end", {"W": MEMORY, "I": swap(IMAGE, ("end\n", ""))},
    step("clock W I - 1", err=re.compile("lisa: image 1 NotAnImage line=[0-6]\n")))
IRQ = module(inputs="input c, input irq, input hold")
for name, text, fault in [("an edge twice", "1 irq=1\n1 irq=0\n", "3 NotRising line=2"), ("edge 0", "0 irq=1\n", "3 NotRising line=1"),
                          ("two blanks", "1  irq=1\n", "1 BadLine line=1"), ("a pin twice", "\n1 irq=1 irq=0", "1 BadLine line=2"),
                          ("an unknown pin twice", "1 stop=1 irq=1 stop=1", "1 BadLine line=1"),
                          ("an unknown pin", "1 stop=1 halt=1 irq=2", "2 UnknownPin line=1 name=stop"), ("a value of 2 bits", "5 irq=2\n", "4 PinRange line=1 name=irq value=2")]:
    row(f"a schedule with {name}", {"W": IRQ, "H": text}, step("clock W - H 1", err=f"lisa: schedule {fault}\n"))
HELD = module("reg [3:0] n;", "initial n = 4'd0;", "always @(posedge c) n <= in;", inputs="input c, input [3:0] in")
row("pins hold their values from an edge on", {"W": HELD, "H": "2 in=0xB\r\n\n4 in=1"},
    step("clocktrace W - H 5", lines("edge 0", "n 0x0", "edge 1", "edge 2", "n 0xb", "edge 3", "edge 4", "n 0x1", "edge 5")))
row("an image of another width", {"W": MEMORY, "I": swap(IMAGE, ("memory m 8 4", "memory m 4 4"))},
    step("clock W I - 1", err="lisa: image 3 NoSuchMemory name=m\n"))
row("a schedule of another pin", {"W": MEMORY, "H": "1 stop=1\n"},
    step("clock W - H 1", err="lisa: schedule 2 UnknownPin line=1 name=stop\n"))
row("a pin twice in a schedule's line", {"W": MEMORY, "H": "1 step=1 step=1\n"},
    step("clock W - H 1", err="lisa: schedule 1 BadLine line=1\n"))
row("a name that no pin has twice in a schedule's line", {"W": MEMORY, "H": "1 step=1\n2 stop=1 step=2 stop=1\n"},
    step("clock W - H 1", err="lisa: schedule 1 BadLine line=2\n"))
row("a schedule's value out of range", {"W": MEMORY, "H": "\n1 step=16\n"},
    step("clock W - H 1", err="lisa: schedule 4 PinRange line=2 name=step value=16\n"))
BAD = {"W": "(" * 65, "I": "image", "H": "x"}
row("the module is read first", BAD, step("clock W I H 1", err="lisa: verilog 2 TooDeep at=64\n"))
row("then the image", dict(BAD, W=MEMORY), step("clock W I H 1", err=re.compile("lisa: image 1 NotAnImage line=[01]\n")))
row("then its memories", dict(BAD, W=MEMORY, I=swap(IMAGE, ("memory m 8 4", "memory m 8 8"))),
    step("clock W I H 1", err="lisa: image 3 NoSuchMemory name=m\n"))
row("then the schedule", dict(BAD, W=MEMORY, I=IMAGE), step("clock W I H 1", err="lisa: schedule 1 BadLine line=1\n"))
row("a missing file before a bad one", {"W": "("}, step("clock W G - 1", err="lisa: read fault\n", status=3))
for number, words in enumerate(["clocktrace V - - 10001", "clock V - - 1000001", "clock V - -", "vdebug V - - 1", "clock - - - 1",
                                "vdebug V -", "clock V - - 01"]):
    row(f"words of a module's commands {number + 1}", {"V": V}, step(words, err=USAGE, status=2))

row("trace of a counter", {"A": A}, step("trace A - - 2", lines("edge 0", "n 0x5", "edge 1", "n 0x6", "edge 2", "n 0x7")))
row("too many edges of a trace", {"A": A}, step("trace A - - 10001", err=USAGE, status=2))
row("debug", {"A": A}, step(
    "debug A - -",
    lines("edge 5", "n 0xa", "edge 3", "edge 4 met", "edge 6 not met", "refused 2 UnknownName", "refused 4 NoEarlierEdge"),
    input=lines("step 5", "show n", "back 2", "until n 0x9 10", "until n 0x0 2", "show zz", "back 9", "quit")))
row("debug of what is refused takes no input", {"X": swap(A, ("n + 1", "m"))},
    step("debug X - -", err="lisa: description 7 Unknown operation=main name=m\n", input="where\n"))
row("debug without quit and a last line feed", {"A": A}, step("debug A - -", lines("edge 1", "edge 1"), input="step 1\nwhere"))
row("debug without lines", {"A": A}, step("debug A - -"))
row("debug of no description", {"A": "@"}, step("debug A - -", err="lisa: description 1 BadByte at=0\n", input="where\n"))
row("debug of a missing file", {}, step("debug G - -", err="lisa: read fault\n", status=3, input="where\n"))
for number, words in enumerate(["debug A - - 1", "debug A -", "debug - - -", "trace A - -", "run A - 1", "run A - - -1"]):
    row(f"words of trace and debug {number + 1}", {"A": A}, step(words, err=USAGE, status=2, input="where\n"))
row("vdebug", {"V": V}, step("vdebug V - -", lines("edge 1", "s 0x12c"), input=lines("step 1", "show s")))
row("vdebug back and on again", {"W": MEMORY, "I": IMAGE, "H": "1 step=5\n"}, step(
    "vdebug W I H", lines("edge 3", "n 0xf", "edge 2", "edge 1", "n 0x5", "m[1] 0x2", "edge 4", "n 0x14", "m[1] 0x5"),
    input=lines("step 3", "show n", "back 1", "back 1", "show n", "cell m 1", "step 3", "show n", "cell m 1", "quit", "where")))
row("vdebug of a bad schedule takes no input", {"V": V, "H": "x"},
    step("vdebug V - H", err="lisa: schedule 1 BadLine line=1\n", input="where\n"))
LONG = "where\n" + "\n" * (1048577 - 6)
row("vdebug of too long an input", {"V": V}, step(
    "vdebug V - -", "edge 0\n" + "refused 1 BadCommand\n" * (1048577 - 6), err="lisa: input 1 TooLong\n", input=LONG))
row("vdebug of the longest input", {"V": V}, step(
    "vdebug V - -", "edge 0\n" + "refused 1 BadCommand\n" * (1048576 - 6), input=LONG[:-1]))
row("vdebug of a long input behind quit", {"V": V}, step("vdebug V - -", "edge 0\n", input="where\nquit\n" + LONG))


# a counter that puts its pin into an array
COUNTED = module("reg [7:0] count;", "reg [3:0] last;", "reg [7:0] M [0:3];", "initial begin count = 8'd0; last = 4'd0; end",
                 "always @(posedge c) begin count <= count + 8'd1; last <= in; M[count[1:0]] <= in; end", inputs="input c, input [3:0] in")
row("trace of what changes", {"W": COUNTED, "H": "1 in=5\n5 in=0\n"}, step(
    "clocktrace W - H 5", lines("edge 0", "count 0x0", "last 0x0", "edge 1", "count 0x1", "last 0x5", "M[0] 0x5", "edge 2", "count 0x2", "M[1] 0x5",
                                "edge 3", "count 0x3", "M[2] 0x5", "edge 4", "count 0x4", "M[3] 0x5", "edge 5", "count 0x5", "last 0x0", "M[0] 0x0")))
for number, (input, told) in enumerate([
        (lines("step 5", "show count", "back 2", "until count 0x4 10", "until count 0x0 2", "show zz", "back 9", "quit"),
         lines("edge 5", "count 0x5", "edge 3", "edge 4 met", "edge 6 not met", "refused 2 UnknownName", "refused 4 NoEarlierEdge")),
        (lines("step 1", "show last"), lines("edge 1", "last 0x7")),
        ("step 2\nback 1\ncell M 0\ncell M 1", lines("edge 2", "edge 1", "M[0] 0x7", "M[1] 0x0")),
        (lines("step 3", "back 1", "step 2", "show count"), lines("edge 3", "edge 2", "edge 4", "count 0x4")),
        (lines("list", "show"), lines("count 8", "last 4", "edge 0", "count 0x0", "last 0x0")),
        (lines("until count 0x0 0", "until count 1 0"), lines("edge 0 met", "edge 0 not met")),
        ("step 2\r\nquit\r\nstep 1\n", "edge 2\n"), ("quit", ""),
        (lines("", "where"), lines("refused 1 BadCommand", "edge 0")),
        ("step 1\nstep  1\nwhere \nwhere", lines("edge 1", "refused 1 BadCommand", "refused 1 BadCommand", "edge 1")),
        (lines("step 10001", "where"), lines("refused 3 EdgeLimit", "edge 0")),
        (lines("step 1", "step 10000", "where"), lines("edge 1", "refused 3 EdgeLimit", "edge 1")),
        (lines("cell M 4", "cell N 0", "cell M x"), lines("refused 2 UnknownName", "refused 2 UnknownName", "refused 1 BadCommand")),
        ("Where\nstep\nback 1 1\nstep -1\n\r\n", "refused 1 BadCommand\n" * 5),
        ("show " + "z" * 251, "refused 2 UnknownName\n"), ("show " + "z" * 251 + "\r", "refused 2 UnknownName\n"),
        ("show " + "z" * 251 + "\rz\n", "refused 1 BadCommand\n")]):
    row(f"answers of a session {number + 1}", {"W": COUNTED, "H": "1 in=7\n"}, step("vdebug W - H", told, input=input))

# ---------------------------------------------------------------- descriptions that run

B, C, D, E = (SAMPLES[name] for name in ("b.lisa", "c.lisa", "d.lisa", "e.lisa"))


def slashed(text):
    """Line ends for the slashes; § stands for a slash that is one."""
    return text.replace("/", "\n").replace("§", "/")


def with_image(name, files, words, out="", err=""):
    """A row whose files and refusals may have {DIGEST}, the digest of the description D, or {DIGEST:F}, that of the file F."""
    def filled(text):
        return re.sub(r"\{DIGEST(?::(\w+))?\}", lambda found: digest(files[found[1] or "D"]), text)
    row(name, {key: filled(text) for key, text in files.items()}, step(words, out, filled(err) if isinstance(err, str) else err))


row("run of sums that widen", {"B": B}, step("run B - - 1", slashed("edge 1/a 0xc8/b 0x1/c 0xffc9/d 0x0/")))
row("run of what narrows", {"B": swap(B, ("c = a + b; d = a < b;", "a = b;"))},
    step("run B - - 1", err="lisa: description 11 Narrowing operation=main from=16 to=8\n"))
for number, (loop, out, err) in enumerate([
        ("while (n) n = n + 1;", "", "lisa: description 12 LoopWithoutBound operation=main\n"),
        ("for (uint8 i = 0; i < 256; i = i + 1) n = n + 1;", slashed("edge 1/n 0x5/"), ""),
        ("for (uint16 i = 0; i < 257; i = i + 1) n = n + 1;", "", "lisa: description 13 LoopTooLong operation=main turns=257\n")]):
    row(f"run of a loop {number + 1}", {"A": swap(A, ("n = n + 1;", loop))}, step("run A - - 1", out, err))
I7 = slashed("image 1 {DIGEST}/memory prog 8 16 1/67/end/")
ROW7 = slashed("edge 0/pc 0x0/FE§DC.ir 0x0/DC§EX.ir 0x0/EX.word 0x0/DC.decode.2 0x0/EX.addi.3 0x0/EX.nop.4 0x0/EX.br.5 0x0/prog[0] 0x67/"
               "edge 1/pc 0x1/FE§DC.ir 0x67/DC.decode.2 0x1/edge 2/pc 0x2/FE§DC.ir 0x0/DC§EX.ir 0x67/EX.word 0x67/EX.addi.3 0x1/"
               "edge 3/pc 0x3/DC§EX.ir 0x0/EX.word 0x0/EX.addi.3 0x0/EX.nop.4 0x1/R[1] 0x7/")
with_image("trace of an instruction", {"D": C, "I": I7}, "trace D I - 3", ROW7)
row("trace of two stages", {"D": D}, step(
    "trace D - - 2", slashed("edge 0/x 0x0/B.b.2 0x0/edge 1/x 0xa/B.b.2 0x1/M[0] 0x2/edge 2/x 0xd/M[0] 0x5/")))
ROW9 = [slashed(text) for text in (
    "edge 0/t 0x0/last 0x0/A§B.v 0x0/B§C.v 0x0/B.b.2 0x0/C.c.3 0x0/", "edge 1/t 0x1/A§B.v 0x1/B.b.2 0x1/",
    "edge 2/t 0x2/A§B.v 0x2/B§C.v 0x1/C.c.3 0x1/", "edge 3/last 0x1/B§C.v 0x0/C.c.3 0x0/", "edge 4/t 0x3/A§B.v 0x3/B§C.v 0x2/C.c.3 0x1/")]
row("trace of a stall", {"E": E}, step("trace E - - 4", "".join(ROW9)))
row("trace of a stage that is held and flushed", {"E": E, "H": slashed("2 hold=1 kill=1/3 hold=0 kill=0/")}, step(
    "trace E - H 3", "".join(ROW9[:2]) + slashed("edge 2/B.b.2 0x0/edge 3/t 0x2/A§B.v 0x2/B§C.v 0x1/B.b.2 0x1/")))
row("trace of an interrupt", {"E": E, "H": slashed("3 irq=1/4 irq=0/")}, step(
    "trace E - H 4", "".join(ROW9[:3]) + slashed("edge 3/t 0x8/last 0x1/A§B.v 0x0/B§C.v 0x0/B.b.2 0x0/C.c.3 0x0/edge 4/t 0x9/A§B.v 0x9/B.b.2 0x1/")))
with_image("trace of a branch", {"D": C, "I": slashed("image 1 {DIGEST}/memory prog 8 16 1/82/end/")}, "trace D I - 4", slashed(
    "edge 0/pc 0x0/FE§DC.ir 0x0/DC§EX.ir 0x0/EX.word 0x0/DC.decode.2 0x0/EX.addi.3 0x0/EX.nop.4 0x0/EX.br.5 0x0/prog[0] 0x82/"
    "edge 1/pc 0x1/FE§DC.ir 0x82/DC.decode.2 0x1/edge 2/pc 0x2/FE§DC.ir 0x0/DC§EX.ir 0x82/EX.word 0x82/EX.br.5 0x1/"
    "edge 3/pc 0x4/DC§EX.ir 0x0/EX.word 0x0/DC.decode.2 0x0/EX.br.5 0x0/edge 4/pc 0x5/DC.decode.2 0x1/"))
with_image("trace of a branch behind an instruction", {"D": C, "I": slashed("image 1 {DIGEST}/memory prog 8 16 2/67/82/end/")}, "trace D I - 4",
           re.compile("(?s).*" + re.escape(slashed("edge 3/pc 0x3/FE§DC.ir 0x0/DC§EX.ir 0x82/EX.word 0x82/EX.addi.3 0x0/EX.br.5 0x1/R[1] 0x7/"
                                                   "edge 4/pc 0x5/DC§EX.ir 0x0/EX.word 0x0/DC.decode.2 0x0/EX.br.5 0x0/"))))
K = """RESOURCE { REGISTER uint4 pc; REGISTER uint4 acc; PIPELINE p = { D; X; W }; }
OPERATION main { DECLARE { INSTANCE root; } ACTIVATION { root } }
OPERATION root IN p.D { DECLARE { GROUP g = { add }; }
  CODING { pc == g } BEHAVIOR { pc = pc + 1; } ACTIVATION { g } }
OPERATION add IN p.W { DECLARE { LABEL n; } CODING { n=0bx[4] }
  SYNTAX { "ADD" n=#U } BEHAVIOR { acc = acc + n; } }
"""
row("trace of words that move two stages", {"K": K}, step("trace K - - 4", slashed(
    "edge 0/pc 0x0/acc 0x0/X.word 0x0/W.word 0x0/X.add.2 0x0/W.add.2 0x0/edge 1/pc 0x1/X.add.2 0x1/edge 2/pc 0x2/X.word 0x1/W.add.2 0x1/"
    "edge 3/pc 0x3/X.word 0x2/W.word 0x1/edge 4/pc 0x4/acc 0x1/X.word 0x3/W.word 0x2/")))
G = """RESOURCE { REGISTER uint4 ir; REGISTER uint4 x; }
OPERATION main { DECLARE { INSTANCE decode; } ACTIVATION { decode } }
OPERATION decode { DECLARE { GROUP i = { p || q }; }
  CODING { ir == i } BEHAVIOR { ir = ir + 1; } ACTIVATION { i } }
OPERATION p { DECLARE { LABEL n; } CODING { 0b0 n=0bx[3] } SYNTAX { "P" n=#U } BEHAVIOR { x = x + n; } }
OPERATION q { CODING { 0b1111 } SYNTAX { "Q" } BEHAVIOR { x = 0; } }
"""
row("run of instructions without a pipeline", {"G": G}, step("run G - - 8", slashed("edge 8/ir 0x8/x 0xc/")),
    step("run G - - 15", slashed("edge 15/ir 0xf/x 0xc/")), step("run G - - 16", slashed("edge 16/ir 0x0/x 0x0/")))
S = """RESOURCE { REGISTER uint8 s; REGISTER uint2 i; PIN uint4 step; MEMORY uint8 m[4]; }
OPERATION main { BEHAVIOR { s = s + m[i]; m[i] = s; i = i + 1; if (step != 0) s = s + step; } }
"""
IS = slashed("image 1 {DIGEST}/memory m 8 4 3/1/2/3/end/")
HS = slashed("2 step=3/3 step=0/")
with_image("trace with an image and a schedule", {"D": S, "I": IS, "H": HS}, "trace D I H 4", slashed(
    "edge 0/s 0x0/i 0x0/m[0] 0x1/m[1] 0x2/m[2] 0x3/edge 1/s 0x1/i 0x1/edge 2/s 0x6/i 0x2/m[1] 0x3/edge 3/s 0x9/i 0x3/m[2] 0x9/edge 4/i 0x0/m[3] 0x9/"))
with_image("trace with a memory that is deeper", {"D": S, "I": slashed("image 1 {DIGEST}/memory m 8 8 3/1/2/3/end/"), "H": HS}, "trace D I H 4",
           err="lisa: image 3 NoSuchMemory name=m\n")
with_image("trace with another pin", {"D": S, "I": IS, "H": "1 stop=1\n"}, "trace D I H 4", err="lisa: schedule 2 UnknownPin line=1 name=stop\n")
with_image("run with the image of another description", {"D": A, "C": C, "I": slashed("image 1 {DIGEST:C}/memory prog 8 16 1/67/end/")}, "run D I - 1",
           err="lisa: image 2 OtherDescription kept={DIGEST:C} expected={DIGEST}\n")
with_image("run with too many cells", {"D": C, "I": slashed("image 1 {DIGEST}/memory prog 8 16 17/" + "1/" * 17 + "end/")}, "run D I - 1",
           err=up_to("lisa: image 1 NotAnImage line=", 21))
for number, (text, fault) in enumerate([
        ("5 irq=2/", "4 PinRange line=1 name=irq value=2"), ("1 irq=1/1 irq=0/", "3 NotRising line=2"), ("0 irq=1/", "3 NotRising line=1"),
        ("1  irq=1/", "1 BadLine line=1")]):
    row(f"run with a bad schedule {number + 1}", {"E": E, "H": slashed(text)}, step("run E - H 1", err=f"lisa: schedule {fault}\n"))
WRONG = {"D": "@", "I": "x\n", "H": "x\n"}
row("a description is read first", WRONG, step("run D I H 1", err="lisa: description 1 BadByte at=0\n"))
row("then it is checked", dict(WRONG, D=swap(C, ("0b00 0bx[6]", "0b01100111"))),
    step("run D I H 1", err="lisa: description 24 Overlap first=addi(reg) second=nop word=0x67\n"))
row("then its texts", dict(WRONG, D=SAMPLES["f.lisa"]), step("run D I H 1", err='lisa: description 25 Ambiguous first=p second=q text="R1"\n'))
row("then its image", dict(WRONG, D=C), step("run D I H 1", err=up_to("lisa: image 1 NotAnImage line=", 2)))
with_image("then the digest", dict(WRONG, D=A, C=C, I=IS.replace("DIGEST", "DIGEST:C")), "run D I H 1",
           err="lisa: image 2 OtherDescription kept={DIGEST:C} expected={DIGEST}\n")
with_image("then the memories", dict(WRONG, D=A, I=IS), "run D I H 1", err="lisa: image 3 NoSuchMemory name=m\n")
with_image("then its schedule", dict(WRONG, D=S, I=IS), "run D I H 1", err="lisa: schedule 1 BadLine line=1\n")
row("an image that isn't there", {"A": A}, step("run A I - 1", err="lisa: read fault\n", status=3))
row("debug of two stages", {"D": D}, step("debug D - -", slashed("edge 2/edge 1/M[0] 0x2/"), input=slashed("step 2/back 1/cell M 0/")))
row("debug of a stall", {"E": E}, step("debug E - -", slashed("edge 3/edge 2/edge 4/t 0x3/"), input=slashed("step 3/back 1/step 2/show t/")))
CLOCKED = """RESOURCE { CLOCKED REGISTER uint8 a; CLOCKED REGISTER uint8 b; }
OPERATION reset { BEHAVIOR { a = 1; b = 2; } }
OPERATION main { BEHAVIOR { a = b; b = a; } }
"""
row("run of clocked registers", {"X": CLOCKED}, step("run X - - 1", slashed("edge 1/a 0x2/b 0x1/")), step("run X - - 2", slashed("edge 2/a 0x1/b 0x2/")))
row("run of a clocked register that is assigned twice", {"X": swap(CLOCKED, ("a = b; b = a;", "a = a + 1; a = a + 1;"))},
    step("run X - - 3", slashed("edge 3/a 0x4/b 0x2/")))
row("trace of a clocked register", {"D": swap(D, ("REGISTER uint8 x;", "CLOCKED REGISTER uint8 x;"))},
    step("trace D - - 2", slashed("edge 0/x 0x0/B.b.2 0x0/edge 1/x 0xa/B.b.2 0x1/M[0] 0x2/edge 2/x 0x14/M[0] 0xc/")))
row("run of a value that is read again", {"X": """RESOURCE { REGISTER uint8 a; REGISTER uint8 b; }
OPERATION reset { BEHAVIOR { a = 1; } }
OPERATION main { BEHAVIOR { a = a + b; b = a - 1; a = a + 2; } }
"""}, step("run X - - 3", slashed("edge 3/a 0x9/b 0x6/")))
def machine(resources, *operations):
    return "RESOURCE { " + resources + " }\n" + "\n".join(operations) + "\n"


def behaves(resources, statements, reset=""):
    """A machine whose `main` does these statements in each edge."""
    return machine(resources, *(["OPERATION reset { BEHAVIOR { " + reset + " } }"] if reset else []), "OPERATION main { BEHAVIOR { " + statements + " } }")


# What one edge does where it is easily done wrong.
row("a test whose branch changes it", {"X": behaves("REGISTER uint4 n;", "if (n == 0) n = 1; else n = 2;")},
    step("trace X - - 2", slashed("edge 0/n 0x0/edge 1/n 0x1/edge 2/n 0x2/")))
row("a test of an activation that what it activates changes", {"X": machine(
    "REGISTER uint4 n;", "OPERATION main { DECLARE { INSTANCE a, b; } ACTIVATION { if (n == 0) { a } else { b } } }",
    "OPERATION a { BEHAVIOR { n = 1; } }", "OPERATION b { BEHAVIOR { n = 2; } }")}, step("trace X - - 2", slashed("edge 0/n 0x0/edge 1/n 0x1/edge 2/n 0x2/")))
row("a local that is assigned in a branch", {"X": behaves("PIN uint1 p; REGISTER uint8 n;", "uint8 x = 1; if (p) x = 2; n = x;"), "H": "2 p=1\n"},
    step("trace X - H 2", slashed("edge 0/n 0x0/edge 1/n 0x1/edge 2/n 0x2/")))
row("a local without value in each turn", {"X": behaves("REGISTER uint8 n;", "for (uint4 i = 0; i < 3; i = i + 1) { uint8 t; n = n + t; t = 5; }")},
    step("run X - - 1", slashed("edge 1/n 0x0/")))
row("an index and an amount below 0", {"X": behaves("REGISTER int2 i; REGISTER uint8 n; REGISTER uint8 M[8];", "M[i] = 1; n = n << i;", "i = (int2) 3; n = 1;")},
    step("run X - - 1", slashed("edge 1/i 0x3/n 0x8/M[3] 0x1/")))
ROOTED = ["OPERATION main { DECLARE { INSTANCE root; } BEHAVIOR { if (h) { p.B.stall(); p.B.flush(); } } ACTIVATION { root } }",
          "OPERATION root IN p.A { DECLARE { GROUP g = { x }; } CODING { ir == g } BEHAVIOR { ir = ir + 1; } ACTIVATION { g } }",
          'OPERATION x IN p.B { DECLARE { LABEL k; } CODING { 0b0 k=0bx[3] } SYNTAX { "X" k=#U } BEHAVIOR { n = n + k; } }']
PARTS = "PIN uint1 h; REGISTER uint4 ir; REGISTER uint4 n; PIPELINE p = { A; B };"
row("the root's word is that as it begins", {"X": machine(PARTS, "OPERATION reset { BEHAVIOR { ir = 5; } }", *ROOTED)}, step("trace X - - 4", slashed(
    "edge 0/ir 0x5/n 0x0/B.word 0x0/B.x.2 0x0/edge 1/ir 0x6/B.word 0x5/B.x.2 0x1/edge 2/ir 0x7/n 0x5/B.word 0x6/edge 3/ir 0x8/n 0xb/B.word 0x7/"
    "edge 4/ir 0x9/n 0x2/B.word 0x0/B.x.2 0x0/")))
row("the only alternative of the root's group", {"X": machine(PARTS, "OPERATION reset { BEHAVIOR { ir = 8; } }", *ROOTED)},
    step("trace X - - 1", slashed("edge 0/ir 0x8/n 0x0/B.word 0x0/B.x.2 0x0/edge 1/ir 0x9/")))
row("a word whose stage is held and flushed", {"X": machine(PARTS, "OPERATION reset { BEHAVIOR { ir = 5; } }", *ROOTED), "H": "2 h=1\n3 h=0\n"}, step(
    "trace X - H 3", slashed("edge 0/ir 0x5/n 0x0/B.word 0x0/B.x.2 0x0/edge 1/ir 0x6/B.word 0x5/B.x.2 0x1/edge 2/B.word 0x0/B.x.2 0x0/edge 3/ir 0x7/B.word 0x6/B.x.2 0x1/")))
with_image("a word that is of no instruction", {"D": C, "I": slashed("image 1 {DIGEST}/memory prog 8 16 1/c0/end/")}, "trace D I - 3", slashed(
    "edge 0/pc 0x0/FE§DC.ir 0x0/DC§EX.ir 0x0/EX.word 0x0/DC.decode.2 0x0/EX.addi.3 0x0/EX.nop.4 0x0/EX.br.5 0x0/prog[0] 0xc0/"
    "edge 1/pc 0x1/FE§DC.ir 0xc0/DC.decode.2 0x1/edge 2/pc 0x2/FE§DC.ir 0x0/DC§EX.ir 0xc0/edge 3/pc 0x3/DC§EX.ir 0x0/EX.nop.4 0x1/"))
row("the last of several writes to a boundary", {"X": machine(
    "REGISTER uint4 n; PIPELINE p = { A; B }; PIPELINE_REGISTER IN p { uint4 v; };", "OPERATION main { DECLARE { INSTANCE a; } ACTIVATION { a } }",
    "OPERATION a IN p.A { DECLARE { INSTANCE b; } BEHAVIOR { OUT.v = 1; OUT.v = 2; } ACTIVATION { b } }", "OPERATION b IN p.B { BEHAVIOR { n = IN.v; } }")},
    step("trace X - - 2", slashed("edge 0/n 0x0/A§B.v 0x0/B.b.2 0x0/edge 1/A§B.v 0x2/B.b.2 0x1/edge 2/n 0x2/")))
row("a call of a group in a branch that isn't taken", {"X": machine(
    "REGISTER uint4 ir; REGISTER uint4 n;", "OPERATION main { DECLARE { INSTANCE root; } ACTIVATION { root } }",
    "OPERATION root { DECLARE { GROUP g = { x }; } CODING { ir == g } BEHAVIOR { ir = ir + 1; } ACTIVATION { g } }",
    'OPERATION x { DECLARE { GROUP c = { u || v }; } CODING { 0b0 c 0bx[2] } SYNTAX { "X" c } BEHAVIOR { if (n == 1) c(); n = n + 1; } }',
    'OPERATION u { CODING { 0b0 } SYNTAX { "U" } BEHAVIOR { n = n + 4; } }', 'OPERATION v { CODING { 0b1 } SYNTAX { "V" } BEHAVIOR { n = n + 8; } }')},
    step("trace X - - 3", slashed("edge 0/ir 0x0/n 0x0/edge 1/ir 0x1/n 0x1/edge 2/ir 0x2/n 0x6/edge 3/ir 0x3/n 0x7/")))
row("run of 126 signs", {"A": swap(A, ("n = n + 1;", "n = " + "~" * 126 + "n;"))}, step("run A - - 1", slashed("edge 1/n 0x5/")))
row("run of a name of 64 bytes", {"A": A.replace("uint8 n;", f"uint8 {LONG_NAME};").replace("n = 5", f"{LONG_NAME} = 5").replace("n = n + 1", f"{LONG_NAME} = {LONG_NAME} + 1")},
    step("run A - - 1", f"edge 1\n{LONG_NAME} 0x6\n"))

# ---------------------------------------------------------------- waves, occupancy and boards


def dumped(variables, *rest):
    """The text of a dump: its variables as widths, codes and names, and what is behind them."""
    return lines("$timescale 1 ns $end", "$scope module machine $end", *(f"$var reg {width} {code} {name} $end" for width, code, name in variables),
                 "$upscope $end", "$enddefinitions $end", *rest)


WAVES = dumped([(8, "!", "n")], "#0", "$dumpvars", "b101 !", "$end", "#1", "b110 !", "#2", "b111 !")
row("a dump of a counter", {"A": A}, step("vcd A - - 2", WAVES, save="X"), step("unvcd X", lines("edge 0", "n 0x5", "edge 1", "n 0x6", "edge 2", "n 0x7")))
row("a dump without edges", {"A": A}, step("vcd A - - 0", WAVES[:WAVES.index("#1")], save="X"), step("unvcd X", lines("edge 0", "n 0x5")))
row("a dump of two stages is their trace but for cells", {"D": D}, step("vcd D - - 2", dumped(
    [(8, "!", "x"), (1, '"', "B.b.2")], "#0", "$dumpvars", "b0 !", '0"', "$end", "#1", "b1010 !", '1"', "#2", "b1101 !"), save="X"),
    step("unvcd X", slashed("edge 0/x 0x0/B.b.2 0x0/edge 1/x 0xa/B.b.2 0x1/edge 2/x 0xd/")))
row("a dump of 95 items", {"X": "RESOURCE { " + "".join(f"REGISTER uint1 r{k}; " for k in range(95)) + "} OPERATION main { BEHAVIOR { r94 = 1; } }"}, step("vcd X - - 1", dumped(
    [*((1, chr(33 + k), f"r{k}") for k in range(94)), (1, '!"', "r94")], "#0", "$dumpvars", *("0" + chr(33 + k) for k in range(94)), '0!"', "$end", "#1", '1!"'), save="Y"),
    step("unvcd Y", lines("edge 0", *(f"r{k} 0x0" for k in range(95)), "edge 1", "r94 0x1")))
row("a dump of a bit and of two", {"X": "RESOURCE { REGISTER uint1 b; REGISTER uint2 c; } OPERATION reset { BEHAVIOR { c = 2; } } OPERATION main { BEHAVIOR { b = b + 1; c = 0; } }"},
    step("vcd X - - 2", dumped([(1, "!", "b"), (2, '"', "c")], "#0", "$dumpvars", "0!", 'b10 "', "$end", "#1", "1!", 'b0 "', "#2", "0!")))
row("a dump of nothing", {"X": "RESOURCE { } OPERATION main { }"}, step("vcd X - - 1", dumped([], "#0", "$dumpvars", "$end", "#1"), save="Y"), step("unvcd Y", lines("edge 0", "edge 1")))
WIDE = swap(WAVES, ("b111 !", "b1000000000 !"))
TWO = swap(WAVES, ("$upscope", '$var wire 8 ! m [7:0] $end\n$var wire 1 + k $end\n$upscope'))
for name, text, fault in [
        ("a value of ten digits", WIDE, f"5 ValueWidth at={WIDE.index('b1000000000')}"), ("a code without variable", swap(WAVES, ("b111 !", "b111 +")), f"2 UnknownCode at={WAVES.index('b111')}"),
        ("a width of 65", swap(WAVES, ("reg 8", "reg 65")), "3 BadWidth name=n width=65"), ("no width", swap(WAVES, ("reg 8", "reg 0")), "3 BadWidth name=n width=0"),
        ("a code of two widths", swap(WAVES, ("$upscope", "$var reg 4 ! m $end $upscope")), "3 BadWidth name=m width=4"),
        ("a time that falls", swap(WAVES, ("#2", "#1")), f"4 NotRising at={WAVES.index('#2')}"), ("a variable without value", TWO, "6 NoFirst name=k"),
        ("a variable and no time", WAVES[:WAVES.index("#0")], "6 NoFirst name=n"), ("the first time without a value", swap(WAVES, ("b101 !\n", "")), "6 NoFirst name=n"),
        ("a value with x", swap(WAVES, ("b101", "b1x1")), "1 BadToken"), ("no declarations' end", swap(WAVES, ("$enddefinitions $end\n", "")), "1 BadToken"),
        ("an open scope", swap(WAVES, ("$upscope $end\n", "")), "1 BadToken"), ("a time of 2^64", swap(WAVES, ("#2", "#18446744073709551616")), "1 BadToken"), ("nothing", "", "1 BadToken"),
        ("8,193 items", swap(WAVES, ("$upscope", "$var reg 8 ! n $end " * 8192 + "$upscope")), "7 TooMany what=items count=8193 limit=8192"),
        ("10,002 times", WAVES + "".join(f"#{k}\n" for k in range(3, 10002)), "7 TooMany what=times count=10002 limit=10001")]:
    row(f"unvcd of {name}", {"X": text}, step("unvcd X", err=up_to("lisa: vcd 1 BadToken at=", len(text)) if fault == "1 BadToken" else f"lisa: vcd {fault}\n"))
row("unvcd of as many times as there may be", {"X": WAVES + "".join(f"#{k}\n" for k in range(3, 10001))},
    step("unvcd X", lines("edge 0", "n 0x5", "edge 1", "n 0x6", "edge 2", "n 0x7", *(f"edge {k}" for k in range(3, 10001)))))
row("unvcd of variables that share a code", {"X": swap(TWO, ("b101 !\n", "b101 !\n1+\n"))}, step("unvcd X", slashed("edge 0/n 0x5/m 0x5/k 0x1/edge 1/n 0x6/m 0x6/edge 2/n 0x7/m 0x7/")))
row("unvcd of another tool's dump", {"X": """$date today $end $version a tool 1.0 $end
$scope module top $end $scope begin inner $end $var integer 4 ab n [3:0] $end $upscope $end $comment of inner $end $upscope $end
$var reg 1 # k $end $enddefinitions $end
$dumpvars B0011 ab 1# $comment again $end 0# $end #7 $dumpall b11 ab $end 1# #18446744073709551615 b0000 ab b1 #"""},
    step("unvcd X", slashed("edge 7/n 0x3/k 0x1/edge 18446744073709551615/n 0x0/")))
row("unvcd of a missing file", {}, step("unvcd X", err="lisa: read fault\n", status=3))
row("occupancy of a stall", {"E": E}, step("occupancy E - - 4", slashed("A executed 3 held 1 flushed 0/B executed 2 held 1 flushed 0/C executed 1 held 0 flushed 0/")))
row("occupancy of a stage that is held and flushed", {"E": E, "H": slashed("2 hold=1 kill=1/3 hold=0 kill=0/")},
    step("occupancy E - H 3", slashed("A executed 2 held 1 flushed 0/B executed 0 held 1 flushed 1/C executed 0 held 0 flushed 0/")))
row("occupancy after no edge", {"E": E}, step("occupancy E - - 0", slashed("A executed 0 held 0 flushed 0/B executed 0 held 0 flushed 0/C executed 0 held 0 flushed 0/")))
row("occupancy without stages", {"A": A}, step("occupancy A - - 5"))
for words in ("vcd D I H 1", "occupancy D I H 1"):
    row(f"{words.split()[0]} reads a description first", WRONG, step(words, err="lisa: description 1 BadByte at=0\n"))
    row(f"{words.split()[0]} reads an image then", dict(WRONG, D=C), step(words, err=up_to("lisa: image 1 NotAnImage line=", 2)))
    with_image(f"{words.split()[0]} reads a schedule then", dict(WRONG, D=S, I=IS), words, err="lisa: schedule 1 BadLine line=1\n")

TIMED = """RESOURCE { REGISTER uint8 load; REGISTER uint8 hits; REGISTER uint1 taken; PIN uint1 tick; PIN uint8 byte; PIN uint1 valid; }
OPERATION reset { BEHAVIOR { load = 3; hits = 64; } }
OPERATION main { BEHAVIOR { if (tick) hits = hits + 1; } }
"""
TIMER = lines("timer load tick", "console hits hits byte valid taken")
ECHO = """RESOURCE { REGISTER uint8 d; REGISTER uint1 s; REGISTER uint1 t; PIN uint8 byte; PIN uint1 valid; }
OPERATION main { BEHAVIOR { if (valid) { d = byte; s = s + 1; t = t + 1; } } }
"""
CONSOLE = "console d s byte valid t\n"
row("a board with a timer", {"T": TIMED, "B": TIMER}, step("board T - B 12", "ABC"), step("board T - B 11", "AB"), step("board T - B 3"), step("board T - B 0"))
row("a board with a console", {"U": ECHO, "B": CONSOLE}, step("board U - B 5", "hi", input="hi"), step("board U - B 1", "h", input="hi"), step("board U - B 9"))
row("a board's file as it may be written", {"U": ECHO, "B": "\r\n\nconsole d s byte valid t\r"}, step("board U - B 5", "hi", input="hi"))
row("a board without devices", {"U": ECHO, "B": ""}, step("board U - B 5", input="hi"))
row("a board's input at its limit", {"U": ECHO, "B": CONSOLE}, step("board U - B 2", "ab", input="ab" * 524288))
row("a board's input over its limit", {"U": ECHO, "B": CONSOLE}, step("board U - B 2", err="lisa: input 1 TooLong\n", input="ab" * 524288 + "a"))
row("a board over its limit", {"U": ECHO, "B": "\n" * 1048577}, step("board U - B 2", err="lisa: file 1 TooLong name=B\n"))
row("a board that isn't there", {"U": ECHO}, step("board U - B 2", err="lisa: read fault\n", status=3))
MANY = "RESOURCE { REGISTER uint8 n; " + "".join(f"PIN uint8 p{k}; " for k in range(9)) + "} OPERATION main { }"
for name, description, text, fault in [
        ("a pin that two timers drive", TIMED, "timer load tick/timer hits tick/", "4 PinTaken line=2 name=tick"), ("two blanks", TIMED, "timer  load tick/", "1 BadLine line=1"),
        ("another device", TIMED, "/clock load tick/", "1 BadLine line=2"), ("a console of four words", TIMED, "console hits hits byte/", "1 BadLine line=1"),
        ("another item", TIMED, "timer tick load/", "2 UnknownItem line=1 name=tick"), ("another pin", TIMED, "timer load hits/", "3 UnknownPin line=1 name=hits"),
        ("a console's item before its pins", TIMED, "console hits hits no none gone/", "2 UnknownItem line=1 name=gone"), ("one pin for both", TIMED, "console hits hits byte byte taken/", "4 PinTaken line=1 name=byte"),
        ("a byte of one bit", TIMED, "console hits hits tick valid taken/", "5 PinWidth line=1 name=tick width=1"),
        ("nine timers", MANY, "".join(f"timer n p{k}/" for k in range(9)), "6 TooMany line=9 what=timer limit=8"),
        ("two consoles", MANY, "console n n p0 p1 n/console n n p2 p3 n/", "6 TooMany line=2 what=console limit=1")]:
    row(f"a board with {name}", {"T": description, "B": slashed(text)}, step("board T - B 5", err=f"lisa: board {fault}\n"))
row("a board with eight timers", {"T": MANY, "B": "".join(f"timer n p{k}\n" for k in range(8))}, step("board T - B 5"))
row("a board is read behind an image", {"D": C, "I": "x\n", "B": "x\n"}, step("board D I B 1", err=up_to("lisa: image 1 NotAnImage line=", 2)), step("board D - B 1", err="lisa: board 1 BadLine line=1\n"))

# ---------------------------------------------------------------- the modules of descriptions

BY_MODULE = {"run": "clock", "trace": "clocktrace", "debug": "vdebug", "vcd": "vvcd", "board": "vboard"}


def by_module(name, files, steps):
    """What a row shows of a description, once more by the module that is written for it."""
    shown = [it for it in steps if it["status"] == 0 and it["words"][0] in BY_MODULE]
    if shown:
        words = [[BY_MODULE[it["words"][0]], "the module", *it["words"][2:]] for it in shown]
        row(f"by its module: {name}", files, step(["verilog", shown[0]["words"][1]], None, save="the module"),
            *(dict(it, words=some) for it, some in zip(shown, words)))


INC = swap(C, ("{ addi || nop", "{ addi || inc || nop"),
           ("OPERATION reg {", 'ALIAS OPERATION inc { DECLARE { GROUP dst = { reg }; } CODING { 0b01 dst 0b00001 } SYNTAX { "INC" dst } }\nOPERATION reg {'))
with_image("trace of an instruction with a second text", {"D": INC, "I": slashed("image 1 {DIGEST}/memory prog 8 16 1/67/end/")}, "trace D I - 3", ROW7)
row("run of nothing", {"X": "RESOURCE { } OPERATION main { }"}, step("run X - - 2", "edge 2\n"))
for one in list(ROWS):
    by_module(*one)


def heavy(statements):
    return "RESOURCE { REGISTER uint8 M[2]; REGISTER uint8 n; }\nOPERATION main { BEHAVIOR { " + statements + "} }\n"


for name, statements, weight in [("a product of reads and writes", "M[0] = M[0] + 1; " * 221, 50388),
                                 ("one more than the limit", "M[0] = M[0] + 1; " * 220 + "n = n; " * 20 + ";", 50001)]:
    row(f"a description that is too heavy: {name}", {"X": heavy(statements)},
        step("verilog X", err=f"lisa: netlist 1 TooMany what=weight count={weight} limit=50000\n"),
        step("run X - - 1", None))
for name, statements in [("less", ""), ("as much as it may", "n = n; " * 20)]:
    row(f"a description that weighs {name}", {"X": heavy("M[0] = M[0] + 1; " * 220 + statements)}, step("verilog X", None, save="W"),
        step("clock W - - 1", slashed("edge 1/n 0x0/M[0] 0xdc/")), step("run X - - 1", slashed("edge 1/n 0x0/M[0] 0xdc/")))
row("a sum that is shared", {"X": "RESOURCE { REGISTER uint8 a; REGISTER uint8 b; REGISTER uint8 c; }\nOPERATION main { BEHAVIOR { b = a + 1; c = a + 1; } }\n"},
    step("verilog X", re.compile(r"[^+]*\+[^+]*"), save="W"), step("clock W - - 1", slashed("edge 1/a 0x0/b 0x1/c 0x1/")))
row("verilog of what is read and not accepted", {"F": SAMPLES["f.lisa"]}, step("verilog F", err='lisa: description 25 Ambiguous first=p second=q text="R1"\n'))
row("a fault goes before the weight", {"X": heavy("M[0] = M[0] + 1; " * 221 + "n = z; ")}, step("verilog X", err="lisa: description 7 Unknown operation=main name=z\n"))
row("verilog of no description", {"X": "@"}, step("verilog X", err="lisa: description 1 BadByte at=0\n"))
row("verilog of a missing file", {}, step("verilog G", err="lisa: read fault\n", status=3))
row("verilog of a file over its limit", {"A": A + " " * (1048577 - len(A))}, step("verilog A", err="lisa: file 1 TooLong name=A\n"))
for number, words in enumerate(["verilog", "verilog A A", "verilog -", "verilog A - - 1"]):
    row(f"words of verilog {number + 1}", {"A": A}, step(words, err=USAGE, status=2))

# ---------------------------------------------------------------- checks of descriptions



def counts(operations, forms, occurrences, items):
    return lines(f"operations {operations}", f"forms {forms}", f"occurrences {occurrences}", f"items {items}")


for name, told in (("a.lisa", counts(2, 0, 1, 1)), ("b.lisa", counts(2, 0, 1, 4)), ("c.lisa", counts(7, 3, 6, 8)),
                   ("d.lisa", counts(3, 0, 3, 2)), ("e.lisa", counts(4, 0, 4, 6))):
    row(f"check of the sample {name}", {"X": SAMPLES[name]}, step("check X", told))
for name, text, out, err in DESCRIPTIONS:
    row(f"check: {name}", {"X": text}, step("check X", out, err))
row("a value that is too wide for its register", {"B": swap(SAMPLES["b.lisa"], ("c = a + b; d = a < b;", "a = b;"))},
    step("check B", err="lisa: description 11 Narrowing operation=main from=16 to=8\n"))
row("a loop without bound", {"A": swap(A, ("n = n + 1;", "while (n) n = n + 1;"))},
    step("check A", err="lisa: description 12 LoopWithoutBound operation=main\n"))
row("a loop of 256 turns is accepted", {"A": swap(A, ("n = n + 1;", "for (uint8 i = 0; i < 256; i = i + 1) n = n + 1;"))},
    step("check A", counts(2, 0, 1, 1)))
row("a loop that is too long", {"A": swap(A, ("n = n + 1;", "for (uint16 i = 0; i < 257; i = i + 1) n = n + 1;"))},
    step("check A", err="lisa: description 13 LoopTooLong operation=main turns=257\n"))
row("a stall of the first stage in it", {"D": swap(SAMPLES["d.lisa"], ("{ M[0] = M[0] + 2;", "{ p.A.stall(); M[0] = M[0] + 2;"))},
    step("check D", err="lisa: description 16 Control operation=a stage=A\n"))
C = SAMPLES["c.lisa"]
row("an instruction that is too short", {"C": swap(C, ("0b00 0bx[6]", "0b00 0bx[5]"))},
    step("check C", err="lisa: description 19 GroupWidth operation=decode name=instr\n"))
row("a field that the text lacks", {"C": swap(C, ('SYNTAX { "BR" off=#S }', 'SYNTAX { "BR" }'))},
    step("check C", err="lisa: description 20 NotWritten operation=br name=off\n"))
F = SAMPLES["f.lisa"]
row("check of the pipeline of five stages", {"X": example("five.lisa")}, step("check X", counts(7, 2, 6, 17)))
row("check of instructions of MIPS I", {"X": example("mips.lisa")}, step("check X", counts(59, 48, 76, 126)))
row("two texts that differ", {"F": swap(F, ('SYNTAX { "R1" }', 'SYNTAX { "R16" }'))}, step("check F", counts(4, 2, 1, 1)))
row("a number that stands apart", {"F": swap(F, ('"R" ~ n=#U', '"R" n=#U'), ('SYNTAX { "R1" }', 'SYNTAX { "R" "16" }'))},
    step("check F", counts(4, 2, 1, 1)))
row("two forms with one word", {"C": swap(C, ("0b00 0bx[6]", "0b01100111"))},
    step("check C", err="lisa: description 24 Overlap first=addi(reg) second=nop word=0x67\n"))
row("two forms with one text", {"F": F}, step("check F", err='lisa: description 25 Ambiguous first=p second=q text="R1"\n'))
row("a negative number and a sign", {"F": swap(F, ('"R" ~ n=#U', '"ADD" n=#S'), ('OPERATION q { CODING { 0b1000 } SYNTAX { "R1" } }',
    'OPERATION q { DECLARE { LABEL m; } CODING { 0b1 m=0bx[3] } SYNTAX { "ADD" "-" ~ m=#U } }'))},
    step("check F", err=re.compile(r'lisa: description 25 Ambiguous first=p second=q text="ADD-[1-4]"\n')))


def alias(coding, syntax):
    return swap(C, ("addi || nop || br }", "addi || nop || br || inc }")) + (
        f"ALIAS OPERATION inc {{ DECLARE {{ GROUP dst = {{ reg }}; }} CODING {{ {coding} }} SYNTAX {{ {syntax} }} }}\n")


row("a second text for an instruction", {"C": alias("0b01 dst 0b00001", '"INC" dst')}, step("check C", counts(8, 4, 6, 8)))
row("an alias of nothing", {"C": alias("0b11 dst 0b00001", '"INC" dst')},
    step("check C", err="lisa: description 26 NotAnAlias form=inc(reg)\n"))
row("an alias with a text that stands already", {"C": alias("0b01 dst 0b00001", '"ADDI" dst ~ "," "1"')},
    step("check C", err=re.compile(r'lisa: description 25 Ambiguous first=addi\(reg\) second=inc\(reg\) text="ADDI R[01],1"\n')))
row("a cell too many", {"X": "RESOURCE { " + "".join(f"MEMORY uint8 m{k}[1048576]; " for k in range(4)) + "REGISTER uint8 r[2]; } OPERATION main { }"},
    step("check X", err="lisa: description 22 TooMany what=cells count=4194306 limit=4194304\n"))
row("a statement too many", {"X": "RESOURCE { REGISTER uint8 n; } OPERATION main { BEHAVIOR { " + "n = n; " * 4097 + "} }"},
    step("check X", err="lisa: description 22 TooMany what=statements count=4097 limit=4096\n"))


def doubled(last):
    """Each value is the sum of the one before with itself."""
    chain = "".join(f"OPERATION e{k} {{ DECLARE {{ INSTANCE p = e{k - 1}; }} EXPRESSION {{ p + p }} }} " for k in range(1, 22))
    return ("RESOURCE { REGISTER uint8 n; } OPERATION e0 { EXPRESSION { n } } " + chain
            + f"OPERATION main {{ DECLARE {{ INSTANCE x = e{last}; }} BEHAVIOR {{ n = x; }} }}")


row("a value that doubles too often", {"X": doubled(21)},
    step("check X", err="lisa: description 22 TooMany what=nodes count=8388608 limit=4194304\n"))
row("a value that doubles once less", {"X": doubled(20)}, step("check X", counts(23, 0, 1, 1)))
row("check of bytes that spell no description", {"X": "RESOURCE { } OPERATION"}, step("check X", err=up_to("lisa: description 5 NotADescription at=", 22)))
row("check reads before it checks", {"X": "RESOURCE { REGISTER uint65 n; } @"}, step("check X", err="lisa: description 1 BadByte at=32\n"))
row("check of no file", {}, step("check X", err="lisa: read fault\n", status=3))
row("check of two words", {"A": A}, step("check A A", err=USAGE, status=2))
row("check of too long a file", {"A": A + " " * 1048576}, step("check A", err="lisa: file 1 TooLong name=A\n"))

# ---------------------------------------------------------------- link, dis

C = SAMPLES["c.lisa"]


def image_of(description, *memories):
    return lines(f"image 1 {digest(description)}", *memories, "end")


def object_of(description, *rest):
    return lines(f"object 1 {digest(description)}", *rest, "end")


CALLER = object_of(C, "section prog 8", "global start", "label start", "cell 80", "fix 0 6 s -2 +far -$")
CALLED = object_of(C, "section prog 8", "global far", "space 3", "label far", "cell 0")
BRANCH = ["section prog 8", "cell 80"]

row("a listing", {"C": C, "I": image_of(C, "memory prog 8 16 3", "67", "c0", "5")},
    step("dis C I", lines(".section prog", "ADDI R1,7", ".word 0xc0", ".word 0x5 ; NOP")))
row("objects that use each other", {"C": C, "O": CALLER, "P": CALLED},
    step("link C O P", image_of(C, "memory prog 8 16 5", "82", "0", "0", "0", "0")),
    step("link C O", err="lisa: link 4 Undefined object=1 name=far\n"),
    step("link C O O", err="lisa: link 2 DuplicateGlobal name=start\n"),
    step("link C " + "O " * 33, err=USAGE, status=2), step("link C", err=USAGE, status=2), step("link C -", err=USAGE, status=2))
row("a branch within its field", {"C": C, "O": object_of(C, *BRANCH, "fix 0 6 s 31")}, step("link C O", image_of(C, "memory prog 8 16 1", "9f")))
row("a branch past its field", {"C": C, "O": object_of(C, *BRANCH, "fix 0 6 s 32")},
    step("link C O", err="lisa: link 5 FieldRange object=1 memory=prog address=0 value=32 width=6\n"))
row("a branch below its field", {"C": C, "O": object_of(C, *BRANCH, "fix 0 6 s -33")},
    step("link C O", err="lisa: link 5 FieldRange object=1 memory=prog address=0 value=-33 width=6\n"))
row("too many cells", {"C": C, "O": object_of(C, "section prog 8", "space 17")}, step("link C O", err="lisa: link 3 DoesNotFit memory=prog cells=17 depth=16\n"))
row("a section of no memory", {"C": C, "O": object_of(C, "section prog 4")}, step("link C O", err="lisa: link 1 NoSuchMemory name=prog\n"))
CELL = ["section prog 8", "cell 0"]
for name, rest in (
        ("a cell before a section", ["cell 0"]), ("a label before a section", ["label a"]), ("space before a section", ["space 1"]),
        ("a section of 65 bits", ["section prog 65"]), ("too much space", ["section prog 8", "space 1048577"]),
        ("a cell past its width", ["section prog 8", "cell 100"]), ("a cell in upper case", ["section prog 8", "cell A"]),
        ("a leading zero", ["section prog 8", "cell 00"]), ("two blanks", ["section prog 8", "cell  0"]),
        ("a name twice", ["section prog 8", "label a", "label a"]), ("a name of a label and a number", ["equ a 1", "section prog 8", "label a"]),
        ("a number below 0 that is 0", ["equ a -0"]), ("a number of 2 ^ 64", ["equ a 18446744073709551616"]),
        ("a name of 65 bytes", ["global " + "a" * 65]), ("a fix of no bits", [*CELL, "fix 0 0 u 0"]), ("a fix past its cell", [*CELL, "fix 1 8 u 0"]),
        ("a fix by rising bits", [*CELL, "fix 0 1 u 0", "fix 4 1 u 0"]), ("two fixes of one bit", [*CELL, "fix 4 4 u 0", "fix 3 2 u 0"]),
        ("a fix of a bit that isn't 0", ["section prog 8", "cell 1", "fix 0 1 u 0"]), ("a fix behind a label", [*CELL, "label a", "fix 0 8 w 0"]),
        ("a word from bit 1", [*CELL, "fix 1 7 w 0"]), ("a word of a part of its cell", [*CELL, "fix 0 7 w 0"]),
        ("a fix of nine terms", [*CELL, "fix 0 8 w 0" + " +a" * 9]), ("a fix of an unknown kind", [*CELL, "fix 0 8 x 0"]),
        ("a constant past eight numbers", [*CELL, f"fix 0 8 w {8 * (2 ** 64 - 1) + 1}"])):
    row(f"an object with {name}", {"C": C, "O": object_of(C, *rest)}, step("link C O", err=re.compile("lisa: object 1 NotAnObject object=1 line=[0-9]+\n")))
row("an object with all that it may have", {"C": C, "O": object_of(C, "global a", "global a", f"equ a {2 ** 64 - 1}", "equ b -1", "equ c 1", "section prog 8", "space 0", "cell 0",
                                                                    "fix 4 4 s 7", f"fix 0 4 u -{8 * (2 ** 64 - 1) - 8} +a +a +a +a +a +a +a +a",
                                                                    "cell 0", "fix 0 8 w 0 +a -a -$ +$ +b -c +b -c")},
    step("link C O", image_of(C, "memory prog 8 16 2", "78", "fc")))
row("an object of another description behind one that is none", {"C": C, "A": A, "O": object_of(A), "P": object_of(C) + "\n"},
    step("link C O P", err=re.compile("lisa: object 1 NotAnObject object=2 line=[0-9]\n")),
    step("link C O", err=f"lisa: object 2 OtherDescription object=1 kept={digest(A)} expected={digest(C)}\n"))
row("an image of another description", {"C": C, "I": image_of(A)}, step("dis C I", err=f"lisa: image 2 OtherDescription kept={digest(A)} expected={digest(C)}\n"))
row("an image with a register array", {"C": C, "I": image_of(C, "memory R 8 2 1", "1")}, step("dis C I", err="lisa: image 3 NoSuchMemory name=R\n"))
row("a listing of no image", {"C": C}, step("dis C -", err=USAGE, status=2))
row("a linked object over its limit", {"C": C, "O": " " * 50331649}, step("link C O", err="lisa: file 1 TooLong name=O\n"))

# ---------------------------------------------------------------- memories for other tools


def record(kind, address, *data):
    """A line of Intel HEX."""
    held = [len(data), address >> 8, address & 255, kind, *data]
    return ":" + bytes([*held, -sum(held) & 255]).hex().upper()


ENDED = ":00000001FF"
STORED = image_of(C, "memory prog 8 16 3", "67", "c0", "5")
row("a memory to Intel HEX and back", {"C": C, "I": STORED}, step("tohex C I prog", lines(":0300000067C005D1", ENDED), save="X"), step("fromhex C X prog", None, same="I"))
row("a memory for $readmemh and back", {"C": C, "I": STORED}, step("tomem C I prog", lines("67", "c0", "05"), save="X"), step("frommem C X prog", None, same="I"))
row("a memory that an image lacks", {"C": C, "I": image_of(C)}, step("tohex C I prog", lines(ENDED), save="X"), step("fromhex C X prog", None, same="I"),
    step("tomem C I prog", save="Y"), step("frommem C Y prog", None, same="I"))
LARGE = "RESOURCE { MEMORY uint32 m[32768]; } OPERATION main { }"
row("a memory of more than 65,536 bytes", {"D": LARGE, "I": image_of(LARGE, "memory m 32 32768 16385", *["0"] * 16384, "1")}, step("tohex D I m", lines(
    *(record(0, 16 * k, *[0] * 16) for k in range(4096)), ":020000040001F9", ":0400000001000000FB", ENDED), save="X"), step("fromhex D X m", None, same="I"))
row("a cell in words of $readmemh", {"C": C, "X": lines("@2 5 // x", "ff")}, step("frommem C X prog", image_of(C, "memory prog 8 16 4", "0", "0", "5", "ff")))
row("a cell that is given twice", {"C": C, "X": "@f 1_0 @0 /* @1 */ A\r\n\t@f 0_0_2b", "Y": lines(record(0, 0, 1, 2), "", record(0, 1, 3).lower() + "\r", ENDED)},
    step("frommem C X prog", image_of(C, "memory prog 8 16 16", "a", *["0"] * 14, "2b")), step("fromhex C Y prog", image_of(C, "memory prog 8 16 2", "1", "3")))
row("bases and records that are skipped", {"D": LARGE, "X": lines(record(2, 0, 0x10, 0), record(3, 0, 1, 2, 3, 4), record(0, 4, 5), record(4, 9, 0, 1), record(5, 0, 1, 2, 3, 4), record(0, 1, 6), ENDED)[:-1]},
    step("fromhex D X m", image_of(LARGE, "memory m 32 32768 16386", *["0"] * 16384, "600", "5")))
NIBBLES = "RESOURCE { MEMORY uint4 m[4]; } OPERATION main { }"
for name, text, fault in [
        ("a wrong sum", lines(":0300000067C005D0", ENDED), "3 BadSum line=1 kept=208 expected=209"), ("a type of 6", lines(record(6, 0), ENDED), "4 RecordType line=1 kind=6"),
        ("no record", lines(ENDED, "x"), "2 BadRecord line=2"), ("a record behind the end", lines(ENDED, "", ENDED), "5 AfterEnd line=3"),
        ("a byte behind the memory", lines(record(0, 15, 1, 2), ENDED), "6 PastEnd line=1 address=16 bytes=16"), ("a base behind the memory", lines(record(2, 0, 0, 1), record(0, 0, 1), ENDED), "6 PastEnd line=2 address=16 bytes=16"),
        ("data past its 16 bits", lines(record(0, 65535, 1, 2), ENDED), "2 BadRecord line=1"), ("an end with data", lines(record(1, 0, 1)), "2 BadRecord line=1"),
        ("no end", lines(record(0, 0, 1)), "7 NoEnd"), ("nothing", "", "7 NoEnd")]:
    row(f"fromhex of {name}", {"C": C, "X": text}, step("fromhex C X prog", err=f"lisa: hex {fault}\n"))
row("fromhex of a cell that doesn't fit", {"D": NIBBLES, "X": lines(record(0, 1, 15, 16), ENDED)}, step("fromhex D X m", err="lisa: hex 8 CellRange index=2 value=16 width=4\n"))
for name, text, fault in [
        ("a cell of nine bits", "100", "3 CellRange index=0 value=256 width=8"), ("a digit x", "5 x", "2 BadWord at=2"), ("a digit of 65 bits", "10000000000000000", "2 BadWord at=0"),
        ("a cell behind the memory", "@10 1", "4 PastEnd index=16 depth=16"), ("a cell behind the last", "@f 1 2", "4 PastEnd index=16 depth=16"), ("an open comment", "1 /* 2", "2 BadWord at=2")]:
    row(f"frommem of {name}", {"C": C, "X": text}, step("frommem C X prog", err=f"lisa: memh {fault}\n"))
row("an index behind the memory without a word", {"C": C, "X": "5 @10"}, step("frommem C X prog", image_of(C, "memory prog 8 16 1", "5")))
row("a register array is no memory", {"C": C, "I": STORED}, step("tohex C I R", err="lisa: hex 1 NoSuchMemory name=R\n"), step("tomem C I -", err="lisa: memh 1 NoSuchMemory name=-\n"),
    step("fromhex C I R", err="lisa: hex 1 NoSuchMemory name=R\n"), step("frommem C I none", err="lisa: memh 1 NoSuchMemory name=none\n"))
row("a description before a memory's file", {"F": SAMPLES["f.lisa"], "X": "x"}, step("fromhex F X m", err='lisa: description 25 Ambiguous first=p second=q text="R1"\n'),
    step("tomem F X m", err='lisa: description 25 Ambiguous first=p second=q text="R1"\n'))
row("an image before a memory's name", {"A": A, "C": C, "I": image_of(A), "J": image_of(C, "memory R 8 4 1", "1"), "X": "x"}, step("tohex C X no", err=up_to("lisa: image 1 NotAnImage line=", 1)),
    step("tohex C I no", err=f"lisa: image 2 OtherDescription kept={digest(A)} expected={digest(C)}\n"), step("tomem C J no", err="lisa: image 3 NoSuchMemory name=R\n"))
row("a memory's file that isn't there", {"C": C}, step("frommem C X no", err="lisa: read fault\n", status=3), step("tohex C X prog", err="lisa: read fault\n", status=3))

# ---------------------------------------------------------------- asm

CALLING = lines(".section prog", ".global start", "start: BR @(far-$-2)")
SPLIT = """RESOURCE { MEMORY uint8 prog[16]; MEMORY uint4 nib[4]; REGISTER uint8 ir; REGISTER uint8 R[4]; }
OPERATION main { }
OPERATION root { DECLARE { GROUP g = { one || two }; } CODING { ir == g } }
OPERATION one { DECLARE { LABEL n; } CODING { 0b0 n=0bx[7] } SYNTAX { "R" ~ n=#U } }
OPERATION two { DECLARE { LABEL m; INSTANCE low; } CODING { 0b1 low m=0bx[4] } SYNTAX { "R" ~ m=#X "," low } }
OPERATION low { DECLARE { LABEL k; } CODING { k=0bx[3] } SYNTAX { k=#S } }
"""

row("sources that use each other", {"C": C, "S": CALLING, "T": lines(".section prog", ".global far", ".space 3", "far: NOP")},
    step("asm C S", CALLER, save="O"), step("asm C T", CALLED, save="P"),
    step("link C O P", image_of(C, "memory prog 8 16 5", "82", "0", "0", "0", "0")))
row("a listing that is assembled again", {"C": C, "I": image_of(C, "memory prog 8 16 3", "67", "c0", "5")},
    step("dis C I", None, save="S"), step("asm C S", None, save="O"), step("link C O", same="I", out=None))
row("an alias that is assembled", {"C": INC, "S": lines(".section prog", "INC R1")},
    step("asm C S", object_of(INC, "section prog 8", "cell 61"), save="O"), step("link C O", image_of(INC, "memory prog 8 16 1", "61"), save="I"),
    step("dis C I", lines(".section prog", "ADDI R1,1")))
row("a source of nothing", {"C": C, "S": ""}, step("asm C S", object_of(C)))
row("blanks in an instruction", {"C": C, "S": lines(".section prog", "ADDI  R1 , 7")}, step("asm C S", object_of(C, "section prog 8", "cell 67")))
row("numbers in a source", {"C": C, "S": lines(".section prog", ".word 007, 0xfF", "a" * 64 + ": .word 0x000000000000000000fF")},
    step("asm C S", object_of(C, "section prog 8", "cell 7", "cell ff", "label " + "a" * 64, "cell ff")))
row("a value below 0", {"C": C, "S": lines(".section prog", ".word -128")}, step("asm C S", object_of(C, "section prog 8", "cell 80")))
row("two operands of one instruction", {"C": C, "S": lines(".section prog", "x: ADDI R@x,@(y-1)", ".equ y -2")},
    step("asm C S", object_of(C, "section prog 8", "label x", "cell 40", "fix 5 1 u 0 +x", "fix 0 5 u -1 +y", "equ y -2")))
row("labels in a section that ends", {"D": SPLIT, "S": lines(".section prog", "a: .section nib", "b: .word @$,@$,@a")},
    step("asm D S", object_of(SPLIT, "section prog 8", "label a", "section nib 4", "label b",
                              *["cell 0", "fix 0 4 w 0 +$"] * 2, "cell 0", "fix 0 4 w 0 +a")))
for name, description, source, err in (
        ("a word of another source", C, ".section prog/HALT/", "7 NoInstruction line=2"),
        ("a value past its field", C, ".section prog/ADDI R2,7/", "7 NoInstruction line=2"),
        ("a branch too far back", C, ".section prog/BR -33/", "7 NoInstruction line=2"),
        ("a label that is no name", C, ".section prog/9a: NOP/", "1 BadLine line=2"),
        ("too much space", C, ".space 1048577/", "1 BadLine line=1"),
        ("an unknown directive", C, "x: .foo 1/", "2 UnknownDirective line=1"),
        ("a sum that ends early", C, "BR @(1+)/", "3 BadExpression line=1"),
        ("an instruction before a section", C, "NOP/", "4 NoSection line=1"),
        ("a label before a section of its line", C, "a: .section bad/", "4 NoSection line=1"),
        ("space before a section", C, "/.space 0/", "4 NoSection line=2"),
        ("a section of no memory", C, ".section mem/", "5 UnknownMemory line=1 name=mem"),
        ("a section of a register array", C, ".section R/", "5 UnknownMemory line=1 name=R"),
        ("an instruction in another memory", SPLIT, ".section nib/R1/", "6 NotProgram line=2"),
        ("a line of two instructions", swap(SPLIT, (' "," low', ""), (" INSTANCE low;", ""), ("low m=0bx[4]", "m=0bx[7]")),
         ".section prog/R@1/", "8 TwoInstructions line=2 first=one second=two"),
        ("a name twice", C, ".section prog/a: NOP/a: NOP/", "9 DuplicateLabel line=3 name=a"),
        ("a name of a number twice", C, ".equ a 1/.section prog/a: NOP/", "9 DuplicateLabel line=3 name=a"),
        ("a number with X in upper case", C, ".section prog/.word 0X1/", "1 BadLine line=2"),
        ("two operands without a comma", C, ".section prog/.word @x 5/", "1 BadLine line=2"),
        ("a label of 65 bytes", C, ".section prog/" + "a" * 65 + ": NOP/", "1 BadLine line=2"),
        ("a bad byte in a comment", C, ".section prog/; \x01/", "1 BadLine line=2"),
        ("a value that is too large", C, ".section prog/.word 1, 256/", "10 FieldRange line=2 value=256 width=8"),
        ("a value that is too small", C, ".section prog/.word -129/", "10 FieldRange line=2 value=-129 width=8"),
        ("a name twice before a line of no instruction", C, ".section prog/a: a: FOO/", "7 NoInstruction line=2"),
        ("a name twice before a value that is too large", C, ".section prog/a: a: .word 300/", "9 DuplicateLabel line=2 name=a"),
        ("a value that is too large before a name twice", C, ".section prog/a: .word 300/a: NOP/", "10 FieldRange line=2 value=300 width=8"),
        ("an unknown directive behind a fault of a line", C, "NOP/.foo/", "2 UnknownDirective line=2")):
    row(f"asm: {name}", {"D": description, "S": lines(*source.split("/")[:-1])}, step("asm D S", err=f"lisa: source {err}\n"))
row("asm without a source", {"C": C}, step("asm C", err=USAGE, status=2), step("asm C -", err=USAGE, status=2), step("asm C S", err="lisa: read fault\n", status=3))
row("asm of too long a source", {"C": C, "S": " " * 4194305}, step("asm C S", err="lisa: file 1 TooLong name=S\n"))
row("asm of a refused description", {"F": SAMPLES["f.lisa"], "S": "\x80"},
    step("asm F S", err=re.compile('lisa: description 25 Ambiguous first=p second=q text="R1"\n')))

# ---------------------------------------------------------------- gen, soak


def soaked(count, edges, clock):
    """The summary of a soak: the digests of the image `I`, of the state text `R`, and of the state text `clock`."""
    return lines(f"cells {count}", f"edges {edges}", "image <digest of the file I>", "state <digest of the file R>", f"clock <digest of the file {clock}>")


def program_of(description, number, count):
    """Steps that write the image `I` of a program of the description."""
    return (step(f"gen {description} {number} {count}", None, save="S"), step(f"asm {description} S", None, save="O"), step(f"link {description} O", None, save="I"))


DRAWN = r"(ADDI R[01],\d+|NOP|BR( |-)\d+)\n"
BARE = "module t (input clk); reg [7:0] prog [0:15]; endmodule\n"
NARROW = "module t (input clk); reg [6:0] prog [0:15]; endmodule\n"
SHALLOW = "module t (input clk); reg [7:0] prog [0:7]; endmodule\n"

row("a program of no instruction", {"C": C}, step("gen C 7 0", lines(".section prog")))
row("a program without instructions", {"A": A}, step("gen A 1 4", err="lisa: program 1 NoProgram\n"), step("gen A 1 0", err="lisa: program 1 NoProgram\n"))
row("a program by its numbers", {"C": C},
    step("gen C 18446744073709551615 65536", re.compile(r"\.section prog\n(?:[A-Z].*\n){65536}")), step("gen C 18446744073709551616 1", err=USAGE, status=2),
    step("gen C 1 65537", err=USAGE, status=2), step("gen C 01 1", err=USAGE, status=2), step("gen C 1", err=USAGE, status=2), step("gen - 1 1", err=USAGE, status=2))
row("programs that are drawn", {"C": C, "D": INC}, step("gen C 7 16", re.compile(r"\.section prog\n(" + DRAWN + "){16}"), save="S"), step("gen C 7 16", same="S"),
    step("gen D 7 400", re.compile(r"\.section prog\n(" + DRAWN + "){400}")))
row("gen of a refused description", {"F": SAMPLES["f.lisa"]}, step("gen F 1 4", err=re.compile('lisa: description 25 Ambiguous first=p second=q text="R1"\n')))
row("a soak of a description and its module", {"C": C, "V": V}, *program_of("C", 7, 16), step("run C I - 100", None, save="R"),
    step("verilog C", None, save="W"), step("clock W I - 100", None, same="R"), step("soak C W 7 16 100", soaked(16, 100, "R"), save="T"),
    step("soak C W 7 16 100", None, same="T"), step("soak C V 7 16 100", err="lisa: image 3 NoSuchMemory name=prog\n"))
row("a soak of another module", {"C": C, "T": BARE}, *program_of("C", 7, 16), step("run C I - 100", None, save="R"),
    step("clock T I - 100", None, save="K"), step("soak C T 7 16 100", soaked(16, 100, "K")))
row("a soak of the large sample", {"M": example("mips.lisa")}, *program_of("M", 11, 1024), step("run M I - 1000", None, save="R"), step("verilog M", None, save="W"),
    step("soak M W 11 1024 1000", soaked(1024, 1000, "R"), save="T"), step("soak M W 11 1024 1000", None, same="T"))
for name, edges, ends in (("sieve", 25000, "R[2] 0xa8\n"), ("ticks", 700, "R[2] 0x13ba\n"), ("suite", 130000, "R[2] 0x34\nR[3] 0x34\n")):
    row(f"{name} by the large sample and by its module", {"M": example("mips.lisa"), "S": example(f"{name}.s"), "J": example(f"{name}.image")},
        step("asm M S", None, save="O"), step("link M O", None, same="J"), step(f"run M J - {edges}", re.compile(rf"(?s)edge {edges}\n.*" + re.escape(ends) + ".*"), save="R"),
        step("verilog M", None, save="W"), step(f"clock W J - {edges}", None, same="R"),
        step("dis M J", None, save="T"), step("asm M T", None, save="Q"), step("link M Q", None, same="J"))
row("a soak of no instruction", {"C": C, "V": V}, *program_of("C", 7, 0), step("run C I - 9", None, save="R"),
    step("clock V I - 9", None, save="K"), step("soak C V 7 0 9", soaked(0, 9, "K")))
row("a soak of no edge", {"C": C, "T": BARE}, *program_of("C", 1, 3), step("run C I - 0", None, save="R"),
    step("clock T I - 0", None, save="K"), step("soak C T 1 3 0", soaked(3, 0, "K")))
row("a soak that doesn't fit", {"C": C, "V": V, "W": "("}, step("soak C W 7 17 100", err=up_to("lisa: verilog 3 NotInSubset at=", 1)), step("soak C V 7 17 100", err="lisa: link 3 DoesNotFit memory=prog cells=17 depth=16\n"))
row("a soak of a module without the memory", {"C": C, "N": NARROW, "S": SHALLOW},
    step("soak C N 7 16 1", err="lisa: image 3 NoSuchMemory name=prog\n"), step("soak C S 7 4 1", err="lisa: image 3 NoSuchMemory name=prog\n"))
row("a soak reads the description, and then the module", {"A": A, "F": SAMPLES["f.lisa"], "X": "module t (input clk);", "V": V},
    step("soak F X 1 4 1", err=re.compile('lisa: description 25 Ambiguous first=p second=q text="R1"\n')), step("soak A X 1 4 1", err=at_most("lisa: verilog 3 NotInSubset at=", "module t (input clk);")),
    step("soak A V 1 4 1", err="lisa: program 1 NoProgram\n"))
row("a soak by its numbers", {"C": C, "V": V}, step("soak C V 1 4 1000001", err=USAGE, status=2), step("soak C V 1 65537 1", err=USAGE, status=2),
    step("soak C V 18446744073709551616 1 1", err=USAGE, status=2), step("soak C V 1 4", err=USAGE, status=2), step("soak C - 1 4 1", err=USAGE, status=2),
    step("soak C G 1 4 1", err="lisa: read fault\n", status=3))

# ---------------------------------------------------------------- running


def canonical_digest(program, description):
    """The digest of the canonical text, as `fmt` prints it."""
    with tempfile.TemporaryDirectory() as folder:
        with open(os.path.join(folder, "D"), "wb") as file:
            file.write(description)
        text = subprocess.run([program, "fmt", "D"], cwd=folder, capture_output=True, timeout=600).stdout
    return hashlib.sha256(text).hexdigest()


def with_digests(program, text, held):
    """What stands for digests in a text: of a description's canonical text, and of a file that is held."""
    text = re.sub("<digest of ([0-9a-f]*)>", lambda found: canonical_digest(program, bytes.fromhex(found[1])), text)
    return re.sub(r"<digest of the file (\w+)>", lambda found: hashlib.sha256(held[found[1]]).hexdigest(), text)


def run_row(program, files, steps):
    held = {name: with_digests(program, text, {}).encode("latin-1") for name, text in files.items()}
    for number, one in enumerate(steps):
        with tempfile.TemporaryDirectory() as folder:
            for name, data in held.items():
                with open(os.path.join(folder, name), "wb") as file:
                    file.write(data)
            done = subprocess.run([program] + one["words"], cwd=folder, input=one["input"].encode("latin-1"),
                                  capture_output=True, timeout=600)
        if one["save"]:
            held[one["save"]] = done.stdout
        got = [done.returncode, done.stdout.decode("latin-1"), done.stderr.decode("latin-1")]
        want = [one["status"], held[one["same"]].decode("latin-1") if one["same"] else one["out"], one["err"]]
        want = [with_digests(program, it, held) if isinstance(it, str) else it for it in want]
        if not all(matches(w, g) for w, g in zip(want, got)):
            return f"step {number + 1}, {' '.join(one['words'])}\n  got    {got!r:.2000}\n  wanted {want!r:.2000}"
    return None


def matches(want, got):
    if want is None:
        return True
    return bool(want.fullmatch(got)) if isinstance(want, re.Pattern) else want == got


def main(words):
    if words[:1] == ["--list"]:
        print("\n".join(name for name, _, _ in ROWS))
        return 0
    if not words:
        print(__doc__)
        return 2
    program = os.path.abspath(words[0])
    passed = failed = 0
    for name, files, steps in ROWS:
        if words[1:] and not any(word in name for word in words[1:]):
            continue
        wrong = run_row(program, files, steps)
        if wrong:
            print(f"row '{name}': {wrong}")
        failed += bool(wrong)
        passed += not wrong
    print(f"{passed} passed, {failed} failed")
    return 1 if failed else 0


if __name__ == "__main__":
    sys.exit(main(sys.argv[1:]))
