"""Small descriptions with what `check` says of each: the line of its first fault, or how many operations, forms,
occurrences and items it has.

Each way in which a condition can be broken stands here once, beside descriptions that only look like it."""

ALL = []


def refused(name, text, line):
    ALL.append((name, text, "", f"lisa: description {line}\n"))


def accepted(name, text, operations, forms, occurrences, items):
    ALL.append((name, text, f"operations {operations}\nforms {forms}\noccurrences {occurrences}\nitems {items}\n", ""))


MAIN = "OPERATION main { }"
REGS = "RESOURCE { REGISTER uint8 a; REGISTER uint16 b; REGISTER uint8 r[4]; MEMORY uint8 m[16]; PIN uint1 i; CLOCKED REGISTER uint8 c; } "
PIPE = "RESOURCE { REGISTER uint8 a; PIPELINE p = { A; B; C }; PIPELINE_REGISTER IN p { uint8 f; }; } "


def behavior(statements, resources=REGS):
    return resources + "OPERATION main { BEHAVIOR { " + statements + " } }"


def staged(stage, section, declares="", more=""):
    """A description whose operation x of a stage has a section."""
    return PIPE + f"{MAIN} OPERATION x IN p.{stage} {{ {declares} {section} }} {more}"


# ---------------------------------------------------------------- 6: two things of one class share a name

refused("two registers", "RESOURCE { REGISTER uint8 a; REGISTER uint4 a; } " + MAIN, "6 Duplicate name=a")
refused("a pin named as a memory", "RESOURCE { MEMORY uint8 a[4]; PIN uint4 a; } " + MAIN, "6 Duplicate name=a")
refused("a pipeline named as a register", "RESOURCE { REGISTER uint8 p; PIPELINE p = { A }; } " + MAIN, "6 Duplicate name=p")
refused("two pipelines", "RESOURCE { PIPELINE p = { A }; PIPELINE q = { A }; } " + MAIN, "6 Duplicate name=q")
refused("fields of boundaries twice", "RESOURCE { PIPELINE p = { A; B }; PIPELINE_REGISTER IN p { uint1 f; }; PIPELINE_REGISTER IN p { uint1 g; }; } " + MAIN, "6 Duplicate name=p")
refused("two stages", "RESOURCE { PIPELINE p = { A; B; A }; } " + MAIN, "6 Duplicate name=A")
refused("two fields", "RESOURCE { PIPELINE p = { A; B }; PIPELINE_REGISTER IN p { uint1 f; uint2 f; }; } " + MAIN, "6 Duplicate name=f")
refused("two operations", "RESOURCE { } " + MAIN + " OPERATION x { } OPERATION x { }", "6 Duplicate name=x")
refused("an operation named as a register", "RESOURCE { REGISTER uint8 x; } " + MAIN + " OPERATION x { }", "6 Duplicate name=x")
refused("two behaviours", "RESOURCE { } OPERATION main { BEHAVIOR { } BEHAVIOR { } }", "6 Duplicate name=main")
refused("two declarations of names", "RESOURCE { } OPERATION main { DECLARE { } } OPERATION x { DECLARE { LABEL a; } DECLARE { LABEL b; } }", "6 Duplicate name=x")
refused("a label twice", "RESOURCE { } " + MAIN + " OPERATION x { DECLARE { LABEL a, b, a; } }", "6 Duplicate name=a")
refused("a label named as an instance", "RESOURCE { } OPERATION main { DECLARE { INSTANCE a = x; LABEL a; } } OPERATION x { }", "6 Duplicate name=a")
refused("two alternatives", "RESOURCE { } OPERATION main { DECLARE { GROUP g = { x || y || x }; } } OPERATION x { } OPERATION y { }", "6 Duplicate name=x")
refused("a declared name of a register", REGS + MAIN + " OPERATION x { DECLARE { LABEL a; } }", "6 Duplicate name=a")
refused("a local of a register's name", behavior("uint8 a;"), "6 Duplicate name=a")
refused("a local of a declared name", "RESOURCE { } OPERATION main { DECLARE { LABEL l; } BEHAVIOR { uint8 l; } }", "6 Duplicate name=l")
refused("a local twice", behavior("uint8 x; { uint4 x; }"), "6 Duplicate name=x")
refused("a loop's variable of a local's name", behavior("uint8 x; for (uint8 x = 0; x < 2; x = x + 1) ;"), "6 Duplicate name=x")
accepted("a local in two blocks", behavior("{ uint8 x; } { uint4 x; } if (a) uint8 x; uint8 x;"), 1, 0, 1, 3)
accepted("stages and operations share names", "RESOURCE { PIPELINE p = { main; x }; } " + MAIN + " OPERATION x { }", 2, 0, 1, 0)

# ---------------------------------------------------------------- 7: a name stands for nothing

refused("an unknown register", behavior("a = zz;"), "7 Unknown operation=main name=zz")
refused("an unknown target", behavior("zz = 1;"), "7 Unknown operation=main name=zz")
refused("an unknown index", behavior("a = r[zz];"), "7 Unknown operation=main name=zz")
refused("a local behind its block", behavior("{ uint8 x; } x = 1;"), "7 Unknown operation=main name=x")
refused("a local in its own value", behavior("uint8 x = x;"), "7 Unknown operation=main name=x")
refused("a loop's variable behind the loop", behavior("for (uint8 x = 0; x < 2; x = x + 1) ; a = x;"), "7 Unknown operation=main name=x")
refused("a whole body's local", behavior("if (a) uint8 x; x = 1;"), "7 Unknown operation=main name=x")
refused("an unknown call", behavior("zz();"), "7 Unknown operation=main name=zz")
refused("an operation that isn't declared", "RESOURCE { } OPERATION main { BEHAVIOR { x(); } } OPERATION x { }", "7 Unknown operation=main name=x")
refused("an unknown alternative", "RESOURCE { } OPERATION main { DECLARE { GROUP g = { x || zz }; } } OPERATION x { }", "7 Unknown operation=main name=zz")
refused("an unknown instance", "RESOURCE { } OPERATION main { DECLARE { INSTANCE zz; } }", "7 Unknown operation=main name=zz")
refused("an unknown pipeline of a stage", "RESOURCE { } " + MAIN + " OPERATION x IN q.A { }", "7 Unknown operation=x name=q")
refused("an unknown stage", PIPE + MAIN + " OPERATION x IN p.D { }", "7 Unknown operation=x name=D")
refused("a stage of a register", REGS + MAIN + " OPERATION x IN a.A { }", "7 Unknown operation=x name=A")
refused("fields of no pipeline", "RESOURCE { PIPELINE_REGISTER IN q { uint8 f; }; } " + MAIN, "7 Unknown operation= name=q")
refused("an unknown stalled stage", PIPE + "OPERATION main { BEHAVIOR { p.D.stall(); } }", "7 Unknown operation=main name=D")
refused("an unknown field", staged("B", "BEHAVIOR { a = IN.g; }"), "7 Unknown operation=x name=g")
refused("an unknown boundary", PIPE + "OPERATION main { BEHAVIOR { a = PIPELINE_REGISTER(p, A/D).f; } }", "7 Unknown operation=main name=D")
refused("an unknown shifted pipeline", behavior("q.shift();"), "7 Unknown operation=main name=q")
refused("an unknown item", "RESOURCE { } OPERATION main { ACTIVATION { zz } }", "7 Unknown operation=main name=zz")
refused("an unknown field of a coding", "RESOURCE { } " + MAIN + " OPERATION x { CODING { zz=0bx } }", "7 Unknown operation=x name=zz")
refused("an unknown child of a syntax", "RESOURCE { } " + MAIN + " OPERATION x { SYNTAX { zz } }", "7 Unknown operation=x name=zz")
refused("a root over an unknown register", "RESOURCE { } " + MAIN + " OPERATION x { DECLARE { GROUP g = { y }; } CODING { zz == g } } OPERATION y { CODING { 0b1 } }", "7 Unknown operation=x name=zz")
refused("a reference that one operation above lacks",
        "RESOURCE { } OPERATION main { DECLARE { INSTANCE y, z; } } OPERATION y { DECLARE { INSTANCE x; LABEL l; } } OPERATION z { DECLARE { INSTANCE x; } } OPERATION x { DECLARE { REFERENCE l; } }",
        "7 Unknown operation=x name=l")
refused("a reference with nothing above", "RESOURCE { } " + MAIN + " OPERATION x { DECLARE { REFERENCE l; } }", "7 Unknown operation=x name=l")
refused("a reference in main", "RESOURCE { } OPERATION main { DECLARE { REFERENCE l; } } OPERATION x { DECLARE { INSTANCE main; LABEL l; } }", "7 Unknown operation=main name=l")
refused("a reference of which only an alias has the name",
        "RESOURCE { } " + MAIN + " ALIAS OPERATION y { DECLARE { INSTANCE x; LABEL l; } CODING { x l=0bx } } OPERATION x { DECLARE { REFERENCE l; } CODING { 0b1 } }",
        "7 Unknown operation=x name=l")

# ---------------------------------------------------------------- 8: a name is used against its declaration

refused("an array without its index", behavior("a = r;"), "8 WrongKind operation=main name=r")
refused("a memory assigned without its index", behavior("m = 1;"), "8 WrongKind operation=main name=m")
refused("an index behind a register", behavior("a = b[0];"), "8 WrongKind operation=main name=b")
refused("an index behind a local", behavior("uint8 x; x[0] = 1;"), "8 WrongKind operation=main name=x")
refused("a pin assigned", behavior("i = 1;"), "8 WrongKind operation=main name=i")
refused("a loop's variable assigned", behavior("for (uint8 x = 0; x < 2; x = x + 1) x = 0;"), "8 WrongKind operation=main name=x")
refused("a pipeline as a value", PIPE + "OPERATION main { BEHAVIOR { a = p; } }", "8 WrongKind operation=main name=p")
refused("IN without a stage", PIPE + "OPERATION main { BEHAVIOR { a = IN.f; } }", "8 WrongKind operation=main name=f")
refused("IN in the first stage", staged("A", "BEHAVIOR { a = IN.f; }"), "8 WrongKind operation=x name=f")
refused("OUT without a stage", PIPE + "OPERATION main { BEHAVIOR { OUT.f = 1; } }", "8 WrongKind operation=main name=f")
refused("OUT in the last stage", staged("C", "BEHAVIOR { OUT.f = 1; }"), "8 WrongKind operation=x name=f")
accepted("IN and OUT in the middle", staged("B", "BEHAVIOR { OUT.f = IN.f; }"), 2, 0, 1, 3)
refused("a boundary of stages apart", PIPE + "OPERATION main { BEHAVIOR { a = PIPELINE_REGISTER(p, A/C).f; } }", "8 WrongKind operation=main name=f")
accepted("a boundary of neighbours", PIPE + "OPERATION main { BEHAVIOR { a = PIPELINE_REGISTER(p, B/C).f; } }", 1, 0, 1, 3)
refused("decoded outside of the root", behavior("a = decoded;"), "8 WrongKind operation=main name=decoded")
refused("shift of a register", behavior("a.shift();"), "8 WrongKind operation=main name=a")
refused("fields of a register", "RESOURCE { REGISTER uint8 a; PIPELINE_REGISTER IN a { uint8 f; }; } " + MAIN, "8 WrongKind operation= name=a")
refused("a call of a register", behavior("a();"), "8 WrongKind operation=main name=a")
refused("a call of a label", "RESOURCE { } OPERATION main { DECLARE { LABEL l; } BEHAVIOR { l(); } }", "8 WrongKind operation=main name=l")
refused("an activated register", REGS + "OPERATION main { ACTIVATION { a } }", "8 WrongKind operation=main name=a")
refused("a label without field", REGS + "OPERATION main { DECLARE { LABEL l; } BEHAVIOR { a = l; } }", "8 WrongKind operation=main name=l")
refused("a number of a label without field", "RESOURCE { } " + MAIN + " OPERATION x { DECLARE { LABEL l; } SYNTAX { l=#U } }", "8 WrongKind operation=x name=l")
refused("a field with a digit", "RESOURCE { } " + MAIN + " OPERATION x { DECLARE { LABEL l; } CODING { l=0bx1 } }", "8 WrongKind operation=x name=l")
refused("a field of an instance", "RESOURCE { } " + MAIN + " OPERATION x { DECLARE { INSTANCE y; } CODING { y=0bx } } OPERATION y { CODING { 0b1 } }", "8 WrongKind operation=x name=y")
refused("a label as a child of a coding", "RESOURCE { } " + MAIN + " OPERATION x { DECLARE { LABEL l; } CODING { l } }", "8 WrongKind operation=x name=l")
refused("a register as a child of a syntax", REGS + MAIN + " OPERATION x { SYNTAX { a } }", "8 WrongKind operation=x name=a")
refused("a label assigned", REGS + MAIN + " OPERATION x { DECLARE { LABEL l; } CODING { l=0bx } SYNTAX { l=#U } BEHAVIOR { l = 1; } }", "8 WrongKind operation=x name=l")

GROUPED = REGS + "OPERATION main { DECLARE { GROUP g = { x || y }; } CODING { g } BEHAVIOR { %s } } "
refused("a child without expression", GROUPED % "a = g;" + "OPERATION x { CODING { 0b0 } EXPRESSION { a } } OPERATION y { CODING { 0b1 } }", "8 WrongKind operation=main name=g")
refused("alternatives of two types", GROUPED % "a = g;" + "OPERATION x { CODING { 0b0 } EXPRESSION { a } } OPERATION y { CODING { 0b1 } EXPRESSION { b } }", "8 WrongKind operation=main name=g")
refused("an alternative that can't be assigned", GROUPED % "g = 1;" + "OPERATION x { CODING { 0b0 } EXPRESSION { a } } OPERATION y { CODING { 0b1 } EXPRESSION { a + c } }", "8 WrongKind operation=main name=g")
# what has an open alternative is open, whatever the others are; a missing expression is told all the same
OPEN = "OPERATION %s { DECLARE { INSTANCE n = k; } CODING { 0b%s } EXPRESSION { n } } OPERATION k { DECLARE { INSTANCE n = k; } EXPRESSION { n } }"
THREE = REGS + "OPERATION main { DECLARE { GROUP g = { x || y || z }; } CODING { g } BEHAVIOR { a = g; } } "
refused("a missing expression beside an open alternative", GROUPED % "a = g;" + "OPERATION x { CODING { 0b0 } } " + OPEN % ("y", "1"), "8 WrongKind operation=main name=g")
refused("a missing expression behind an open alternative", GROUPED % "a = g;" + "OPERATION y { CODING { 0b0 } } " + OPEN % ("x", "1"), "8 WrongKind operation=main name=g")
refused("two types before an open alternative",
        THREE + "OPERATION x { CODING { 0b00 } EXPRESSION { a } } OPERATION y { CODING { 0b01 } EXPRESSION { b } } " + OPEN % ("z", "10"), "14 Circular operation=k")
refused("two types on both sides of an open alternative",
        THREE + "OPERATION x { CODING { 0b00 } EXPRESSION { a } } OPERATION z { CODING { 0b01 } EXPRESSION { b } } " + OPEN % ("y", "10"), "14 Circular operation=k")
refused("a number assigned beside an open alternative", GROUPED % "g = 1;" + "OPERATION x { CODING { 0b0 } EXPRESSION { 1 } } " + OPEN % ("y", "1"), "14 Circular operation=k")
refused("an open alternative that is read", GROUPED % "a = g;" + "OPERATION x { CODING { 0b0 } EXPRESSION { a } } " + OPEN % ("y", "1"), "14 Circular operation=k")
refused("an open alternative that is assigned", GROUPED % "g = 1;" + "OPERATION x { CODING { 0b0 } EXPRESSION { a } } " + OPEN % ("y", "1"), "14 Circular operation=k")
ROUND = "RESOURCE { REGISTER uint8 a; REGISTER uint16 b; PIN uint8 q; } OPERATION main { DECLARE { GROUP g = { y || z || w }; } CODING { g } SYNTAX { g } BEHAVIOR { %s } } OPERATION y { CODING { 0b0 } EXPRESSION { a } } OPERATION z { CODING { 0b1 } EXPRESSION { %s } } OPERATION w { DECLARE { INSTANCE v = w; } EXPRESSION { v } }"
refused("a pin that is assigned beside an open alternative", ROUND % ("g = 1;", "q"), "14 Circular operation=w")
refused("two types that are read beside an open alternative", ROUND % ("a = g;", "b"), "14 Circular operation=w")
refused("a group outside of the coding that is read",
        REGS + "OPERATION main { DECLARE { GROUP g = { x || y }; } BEHAVIOR { a = g; } } OPERATION x { EXPRESSION { a } } OPERATION y { EXPRESSION { c } }", "8 WrongKind operation=main name=g")
refused("a group outside of the coding that is called", "RESOURCE { } OPERATION main { DECLARE { GROUP g = { x || y }; } BEHAVIOR { g(); } } OPERATION x { } OPERATION y { }", "8 WrongKind operation=main name=g")
refused("a group outside of the coding that is activated", "RESOURCE { } OPERATION main { DECLARE { GROUP g = { x || y }; } ACTIVATION { g } } OPERATION x { } OPERATION y { }", "8 WrongKind operation=main name=g")
accepted("a group of one", "RESOURCE { } OPERATION main { DECLARE { GROUP g = { x }; } ACTIVATION { g } } OPERATION x { }", 2, 0, 2, 0)
refused("a call into a stage", PIPE + "OPERATION main { DECLARE { INSTANCE x; } BEHAVIOR { x(); } } OPERATION x IN p.A { }", "8 WrongKind operation=main name=x")
refused("a staged operand", PIPE + MAIN + " OPERATION x { DECLARE { INSTANCE y; } CODING { y } } OPERATION y IN p.B { CODING { 0b1 } }", "8 WrongKind operation=x name=y")
refused("a coded operation outside of the coding", "RESOURCE { } OPERATION main { DECLARE { INSTANCE x; } } OPERATION x { CODING { 0b1 } }", "8 WrongKind operation=main name=x")

ROOT = "RESOURCE { REGISTER uint4 ir; REGISTER uint4 t; } OPERATION main { DECLARE { INSTANCE d; } ACTIVATION { d } } OPERATION d { DECLARE { GROUP g = { x || y }; } CODING { %s } %s } OPERATION x { CODING { 0b0000 } SYNTAX { \"X\" } } OPERATION y { CODING { 0b1111 } SYNTAX { \"Y\" } }"
accepted("decoded in the root", ROOT % ("ir == g", "BEHAVIOR { t = decoded; } ACTIVATION { if (decoded) { g } }"), 4, 2, 4, 2)
refused("decoded in the root's expression", ROOT % ("ir == g", "EXPRESSION { decoded }"), "8 WrongKind operation=d name=decoded")
refused("the root's group called", ROOT % ("ir == g", "BEHAVIOR { g(); }"), "8 WrongKind operation=d name=g")
refused("the root's group in a syntax", ROOT % ("ir == g", "SYNTAX { g }"), "8 WrongKind operation=d name=g")
refused("a root over a register array", "RESOURCE { REGISTER uint4 ir[2]; } " + MAIN + " OPERATION d { DECLARE { GROUP g = { x }; } CODING { ir == g } } OPERATION x { CODING { 0b0000 } }", "8 WrongKind operation=d name=ir")
refused("a root of an instance", "RESOURCE { REGISTER uint4 ir; } " + MAIN + " OPERATION d { DECLARE { INSTANCE x; } CODING { ir == x } } OPERATION x { CODING { 0b0000 } }", "8 WrongKind operation=d name=x")
refused("a root over IN without a stage", PIPE + MAIN + " OPERATION d { DECLARE { GROUP g = { x }; } CODING { IN.f == g } } OPERATION x { CODING { 0b00000000 } }", "8 WrongKind operation=d name=f")
refused("a root that is called", "RESOURCE { REGISTER uint4 ir; } OPERATION main { DECLARE { INSTANCE d; } BEHAVIOR { d(); } } OPERATION d { DECLARE { GROUP g = { x }; } CODING { ir == g } } OPERATION x { CODING { 0b0000 } }", "8 WrongKind operation=main name=d")

ABOVE = REGS + "OPERATION main { DECLARE { INSTANCE y, z; } ACTIVATION { y, z } } OPERATION y { DECLARE { INSTANCE x; %s } ACTIVATION { x } } OPERATION z { DECLARE { INSTANCE x; %s } ACTIVATION { x } } OPERATION x { DECLARE { REFERENCE n; } %s } OPERATION u { EXPRESSION { a } } OPERATION v { EXPRESSION { c } } OPERATION w { EXPRESSION { b } } OPERATION k { EXPRESSION { a + c } } "
accepted("a reference to children of one type", ABOVE % ("INSTANCE n = u;", "INSTANCE n = v;", "BEHAVIOR { a = n; }"), 8, 0, 5, 3)
refused("a reference of two types", ABOVE % ("INSTANCE n = u;", "INSTANCE n = w;", ""), "8 WrongKind operation=x name=n")
refused("a reference to a label or a child", ABOVE % ("INSTANCE n = u;", "LABEL n;", ""), "8 WrongKind operation=x name=n")
refused("a reference of which one can be assigned", ABOVE % ("INSTANCE n = u;", "INSTANCE n = k;", ""), "8 WrongKind operation=x name=n")
refused("an expression by a reference of which one can be assigned",
        REGS + "OPERATION main { DECLARE { INSTANCE y, h = x, n = u; } BEHAVIOR { h = 1; } } OPERATION y { DECLARE { INSTANCE x, n = k; } } OPERATION x { DECLARE { REFERENCE n; } EXPRESSION { n } } OPERATION u { EXPRESSION { a } } OPERATION k { EXPRESSION { a + c } }",
        "8 WrongKind operation=x name=n")
refused("a reference that is activated", ABOVE % ("INSTANCE n = u;", "INSTANCE n = v;", "ACTIVATION { n }"), "8 WrongKind operation=x name=n")

# a use that is refused itself makes nothing else at fault by what its expression would be
PIPED = PIPE + "OPERATION main { DECLARE { GROUP g = { x || y }; } CODING { g } BEHAVIOR { a = g; } } OPERATION y { CODING { 0b1 } EXPRESSION { (uint16) a } } "
WRONG = PIPED + "OPERATION x { CODING { 0b0 } EXPRESSION { %s } }"
refused("an alternative that reads no boundary", WRONG % "IN.f", "8 WrongKind operation=x name=f")
refused("an alternative that reads a boundary of stages apart", WRONG % "PIPELINE_REGISTER(p, A/C).f", "8 WrongKind operation=x name=f")
refused("an alternative of decoded", WRONG % "decoded", "8 WrongKind operation=x name=decoded")
refused("an alternative that rests on no boundary", WRONG % "a > 1 ? 1 + ~IN.f : a", "8 WrongKind operation=x name=f")
refused("an alternative that casts no boundary", WRONG % "(uint8) IN.f", "8 WrongKind operation=main name=g")
refused("an alternative that is shifted by no boundary", WRONG % "a << IN.f", "8 WrongKind operation=main name=g")
refused("an alternative that compares no boundary", WRONG % "IN.f == 1", "8 WrongKind operation=main name=g")
refused("an alternative that reads a child of a stage",
        PIPED + "OPERATION x { DECLARE { INSTANCE s; } CODING { 0b0 } EXPRESSION { s } } OPERATION s IN p.B { EXPRESSION { a } }", "8 WrongKind operation=x name=s")
refused("an alternative that reads a group outside of its coding",
        PIPED + "OPERATION x { DECLARE { GROUP h = { u || v }; } CODING { 0b0 } EXPRESSION { h } } OPERATION u { EXPRESSION { a } } OPERATION v { EXPRESSION { a } }",
        "8 WrongKind operation=x name=h")
BESIDE_REFUSED = PIPE + "OPERATION main { DECLARE { GROUP g = { x || y || z }; } CODING { g } BEHAVIOR { a = g; } } OPERATION x { DECLARE { INSTANCE n = k; } CODING { 0b00 } EXPRESSION { %s } } OPERATION y { CODING { 0b01 } EXPRESSION { a } } OPERATION z { CODING { 0b10 } EXPRESSION { (uint16) a } } OPERATION k { DECLARE { INSTANCE n = k; } EXPRESSION { n } }"
refused("two types beside a refused alternative", BESIDE_REFUSED % "IN.f", "8 WrongKind operation=main name=g")
refused("two types beside one that is open and refused", BESIDE_REFUSED % "IN.f + n", "8 WrongKind operation=x name=f")
refused("two types beside one that casts what is open", BESIDE_REFUSED % "(uint8) n", "8 WrongKind operation=main name=g")
ASSIGNED = PIPE + "OPERATION main { DECLARE { INSTANCE x; } BEHAVIOR { x = 1; } } OPERATION x { DECLARE { INSTANCE y; } EXPRESSION { %s } } OPERATION y { } "
refused("no boundary that is assigned through a child", ASSIGNED % "IN.f", "8 WrongKind operation=x name=f")
refused("decoded that is assigned through a child", ASSIGNED % "decoded", "8 WrongKind operation=x name=decoded")
refused("a child without expression that is assigned through a child", ASSIGNED % "y", "8 WrongKind operation=x name=y")
refused("a sum with no boundary that is assigned through a child", ASSIGNED % "a + IN.f", "8 WrongKind operation=main name=x")

# each declaration that a reference may mean is used by itself; those among which one is open differ neither in type nor in being assignable
BESIDE = REGS + MAIN + " OPERATION y { DECLARE { INSTANCE x; %s } } OPERATION z { DECLARE { INSTANCE x, n = o; } } OPERATION t { DECLARE { INSTANCE x; %s } } OPERATION x { DECLARE { REFERENCE n; } %s } OPERATION o { DECLARE { INSTANCE n = o; } EXPRESSION { n } } OPERATION u { EXPRESSION { a } } OPERATION w { EXPRESSION { b } } OPERATION k { EXPRESSION { a + c } } OPERATION e { } "
refused("declarations of one type beside an open one", BESIDE % ("INSTANCE n = u;", "INSTANCE n = u;", "BEHAVIOR { a = n; n = 1; }"), "14 Circular operation=o")
refused("a declaration without expression beside an open one", BESIDE % ("INSTANCE n = e;", "INSTANCE n = e;", "BEHAVIOR { a = n; }"), "8 WrongKind operation=x name=n")
refused("a sum assigned beside an open declaration", BESIDE % ("INSTANCE n = k;", "INSTANCE n = k;", "BEHAVIOR { n = 1; }"), "14 Circular operation=o")
refused("a declaration without expression assigned beside an open one", BESIDE % ("INSTANCE n = e;", "INSTANCE n = e;", "BEHAVIOR { n = 1; }"), "8 WrongKind operation=x name=n")
refused("two types beside an open declaration", BESIDE % ("INSTANCE n = u;", "INSTANCE n = w;", ""), "14 Circular operation=o")
refused("a type and none beside an open declaration", BESIDE % ("INSTANCE n = u;", "INSTANCE n = e;", ""), "14 Circular operation=o")
refused("one that can be assigned beside an open declaration", BESIDE % ("INSTANCE n = u;", "INSTANCE n = k;", ""), "14 Circular operation=o")
refused("a label or a child beside an open declaration", BESIDE % ("INSTANCE n = u;", "LABEL n;", ""), "8 WrongKind operation=x name=n")
GROUPED = REGS + "OPERATION main { DECLARE { INSTANCE x; GROUP n = { u || %s }; } CODING { n } } OPERATION z { DECLARE { INSTANCE x, n = z; } EXPRESSION { n } } OPERATION x { DECLARE { REFERENCE n; } BEHAVIOR { a = n; } } OPERATION u { EXPRESSION { a } } OPERATION w { EXPRESSION { b } } OPERATION e { } "
refused("a group of two types beside an open declaration", GROUPED % "w", "14 Circular operation=z")
refused("a group without an expression beside an open declaration", GROUPED % "e", "8 WrongKind operation=x name=n")
OPENED = REGS + "OPERATION main { DECLARE { GROUP g = { x || k }; INSTANCE n = e; } CODING { g } BEHAVIOR { g = 1; } } OPERATION z { DECLARE { INSTANCE x, n = z; } EXPRESSION { n } } OPERATION k { EXPRESSION { 1 } } OPERATION e { } "
refused("an alternative that rests on an open reference, assigned", OPENED + "OPERATION x { DECLARE { REFERENCE n; } EXPRESSION { n } }", "8 WrongKind operation=x name=n")
refused("an alternative that rests on a group without an expression, assigned", OPENED + "OPERATION x { DECLARE { GROUP h = { e || z }; } CODING { h } EXPRESSION { h } }", "8 WrongKind operation=main name=g")
refused("a call into a stage beside references in a circle",
        "RESOURCE { PIPELINE p = { A; B }; } OPERATION main { } OPERATION y { DECLARE { INSTANCE x, n = s; } } OPERATION z { DECLARE { INSTANCE x, t; REFERENCE n; } } OPERATION t { DECLARE { INSTANCE z; REFERENCE n; } } OPERATION x { DECLARE { REFERENCE n; } BEHAVIOR { n(); } } OPERATION s IN p.A { }",
        "8 WrongKind operation=x name=n")

ALIASED = "RESOURCE { REGISTER uint4 ir; PIPELINE p = { A; B }; } OPERATION main { } OPERATION d { DECLARE { GROUP g = { x || y }; } CODING { ir == g } } OPERATION x { CODING { 0b0000 } SYNTAX { \"X\" } } "
accepted("an alias", ALIASED + "ALIAS OPERATION y { CODING { 0b0000 } SYNTAX { \"Y\" } }", 4, 2, 1, 1)
refused("an alias of a stage", ALIASED + "ALIAS OPERATION y IN p.B { CODING { 0b0000 } }", "8 WrongKind operation=y name=y")
refused("an alias with a behaviour", ALIASED + "ALIAS OPERATION y { CODING { 0b0000 } BEHAVIOR { } }", "8 WrongKind operation=y name=y")
refused("an alias without a coding", ALIASED + "ALIAS OPERATION y { SYNTAX { \"Y\" } }", "8 WrongKind operation=y name=y")
refused("main as an alias", "RESOURCE { } ALIAS OPERATION main { CODING { 0b1 } }", "8 WrongKind operation=main name=main")
refused("an instance of an alias", "RESOURCE { } " + MAIN + " OPERATION x { DECLARE { INSTANCE y; } CODING { y } } ALIAS OPERATION y { CODING { 0b1 } }", "8 WrongKind operation=x name=y")
refused("a group of aliases alone", "RESOURCE { } " + MAIN + " OPERATION x { DECLARE { GROUP g = { y || z }; } CODING { g } } ALIAS OPERATION y { CODING { 0b1 } } ALIAS OPERATION z { CODING { 0b0 } }", "8 WrongKind operation=x name=g")

refused("an alias with an expression", ALIASED + "ALIAS OPERATION y { CODING { 0b0000 } EXPRESSION { ir } }", "8 WrongKind operation=y name=y")
refused("an alias with an activation", ALIASED + "ALIAS OPERATION y { CODING { 0b0000 } ACTIVATION { } }", "8 WrongKind operation=y name=y")
refused("an alias with a root in the root's group", ALIASED + "ALIAS OPERATION y { DECLARE { GROUP h = { x }; } CODING { ir == h } }", "8 WrongKind operation=d name=g")
refused("an alias with a root", "RESOURCE { REGISTER uint4 ir; } OPERATION main { } OPERATION x { CODING { 0b0000 } } ALIAS OPERATION y { DECLARE { GROUP h = { x }; } CODING { ir == h } }", "8 WrongKind operation=y name=y")
IN_CODING = PIPE + 'OPERATION main { DECLARE { GROUP g = { y || z }; } CODING { g } SYNTAX { g } } OPERATION z { CODING { 0b0 } SYNTAX { "Z" } } '
refused("an alias with a stage in a coding", IN_CODING + "ALIAS OPERATION y IN p.A { CODING { 0b1 } SYNTAX { \"Y\" } }", "8 WrongKind operation=main name=g")
refused("an alias with a root in a coding", IN_CODING + "ALIAS OPERATION y { DECLARE { GROUP h = { z }; } CODING { a == h } }", "8 WrongKind operation=main name=g")
refused("an alias with a reference", ALIASED + "ALIAS OPERATION y { DECLARE { REFERENCE g; } CODING { 0b0000 } }", "8 WrongKind operation=y name=y")
accepted("a group of one operation and an alias", REGS + MAIN + " OPERATION w { DECLARE { GROUP g = { x || y }; } CODING { g } SYNTAX { g } BEHAVIOR { a = g; } } OPERATION x { CODING { 0b0 } EXPRESSION { a } } ALIAS OPERATION y { CODING { 0b0 } }", 4, 0, 1, 3)
refused("the root's group called through a reference",
        "RESOURCE { REGISTER uint4 ir; } OPERATION main { } OPERATION d { DECLARE { GROUP g = { x }; } CODING { ir == g } } OPERATION x { DECLARE { REFERENCE g; } CODING { 0b0000 } BEHAVIOR { g(); } }",
        "8 WrongKind operation=x name=g")
refused("execute of a register", behavior("a.execute();"), "8 WrongKind operation=main name=a")
refused("an array that a loop assigns first", behavior("for (r = 0; a < 3; a = a + 1) ;"), "8 WrongKind operation=main name=r")
refused("an array that a loop steps", behavior("for (uint8 x = 0; x < 3; r = x + 1) ;"), "8 WrongKind operation=main name=r")
refused("a memory that a loop steps", behavior("for (uint8 x = 0; x < 3; m = x + 1) ;"), "8 WrongKind operation=main name=m")
refused("an array in the test of a loop", behavior("for (uint8 x = 0; r < 3; x = x + 1) ;"), "8 WrongKind operation=main name=r")
refused("an array in the first value of a loop", behavior("for (uint8 x = r; x < 3; x = x + 1) ;"), "8 WrongKind operation=main name=r")
refused("a memory in the step of a loop", behavior("for (uint8 x = 0; x < 3; x = x + m) ;"), "8 WrongKind operation=main name=m")
refused("a pipeline in the test of a loop", PIPE + "OPERATION main { BEHAVIOR { for (uint8 x = 0; p < 3; x = x + 1) ; } }", "8 WrongKind operation=main name=p")
refused("a pipeline that a loop assigns first", PIPE + "OPERATION main { BEHAVIOR { for (p = 0; a < 3; a = a + 1) ; } }", "8 WrongKind operation=main name=p")
refused("a pipeline that a loop steps", PIPE + "OPERATION main { BEHAVIOR { for (uint8 x = 0; x < 3; p = x + 1) ; } }", "8 WrongKind operation=main name=p")
refused("a pin that a loop steps", behavior("for (uint8 x = 0; x < 3; i = x + 1) ;"), "12 LoopWithoutBound operation=main")
refused("a boundary of a register", PIPE + "OPERATION main { BEHAVIOR { a = PIPELINE_REGISTER(a, A/B).f; } }", "7 Unknown operation=main name=A")
refused("a call into a stage through a reference",
        "RESOURCE { PIPELINE p = { A; B }; } OPERATION main { DECLARE { INSTANCE x, n = y; } ACTIVATION { x } } OPERATION x { DECLARE { REFERENCE n; } BEHAVIOR { n(); } } OPERATION y IN p.A { }",
        "8 WrongKind operation=x name=n")

# ---------------------------------------------------------------- 9, 10: widths and depths

refused("a register of 65 bits", "RESOURCE { REGISTER uint65 n; } " + MAIN, "9 BadWidth name=n width=65")
refused("a local of 99 bits", behavior("int99 x;"), "9 BadWidth name=x width=99")
refused("a cast to 70 bits", behavior("a = (uint8)(uint70)b;"), "9 BadWidth name= width=70")
refused("a field of 65 bits", "RESOURCE { } " + MAIN + " OPERATION x { DECLARE { LABEL l; } CODING { l=0bx[65] } }", "9 BadWidth name=l width=65")
refused("a loop's variable that is too narrow", behavior("for (uint4 x = 0; x < 17; x = x + 1) ;"), "9 BadWidth name=x width=4")
refused("a signed loop's variable that is too narrow", behavior("for (int8 x = 0; x < 129; x = x + 1) ;"), "9 BadWidth name=x width=8")
accepted("a signed loop's variable that just fits", behavior("for (int8 x = 0; x < 128; x = x + 1) ;"), 1, 0, 1, 3)
accepted("a loop's variable that just fits", behavior("for (uint4 x = 0; x < 16; x = x + 1) ;"), 1, 0, 1, 3)
accepted("a loop without turns", behavior("for (uint1 x = 9; x < 9; x = x + 1) ;"), 1, 0, 1, 3)
refused("three registers", "RESOURCE { REGISTER uint8 r[3]; } " + MAIN, "10 BadDepth name=r depth=3")
refused("a memory of one cell", "RESOURCE { MEMORY uint8 m[1]; } " + MAIN, "10 BadDepth name=m depth=1")
refused("a memory that is too deep", "RESOURCE { MEMORY uint8 m[2097152]; } " + MAIN, "10 BadDepth name=m depth=2097152")
accepted("the deepest memory", "RESOURCE { MEMORY uint8 m[1048576]; } " + MAIN, 1, 0, 1, 0)

# ---------------------------------------------------------------- 11: a value wider than its place

refused("a wide value", behavior("a = b;"), "11 Narrowing operation=main from=16 to=8")
refused("a wide sum", behavior("a = a + b;"), "11 Narrowing operation=main from=16 to=8")
refused("a wide literal", behavior("a = 256;"), "11 Narrowing operation=main from=9 to=8")
refused("a wide first value", behavior("uint4 x = a;"), "11 Narrowing operation=main from=8 to=4")
refused("a literal that wants a sign bit", behavior("int8 x = 128;"), "11 Narrowing operation=main from=9 to=8")
refused("a literal beside a signed word", behavior("int8 x; int8 y; y = x + 128;"), "11 Narrowing operation=main from=9 to=8")
refused("a literal that would need 65 bits in the signed kind", behavior("int8 x = 0xffffffffffffffff;"), "11 Narrowing operation=main from=64 to=8")
accepted("a literal that fits", behavior("int8 x = 127; a = 255; a = (uint8)b; b = a; a = b == a; a = 300 < b;"), 1, 0, 1, 3)
accepted("a literal shifted", behavior("a = 1 << b;"), 1, 0, 1, 3)
refused("a wide field", staged("B", "BEHAVIOR { OUT.f = IN.f * 512; }"), "11 Narrowing operation=x from=10 to=8")
refused("a wide value of a child", REGS + "OPERATION main { DECLARE { INSTANCE x; } BEHAVIOR { a = x; } } OPERATION x { EXPRESSION { b } }", "11 Narrowing operation=main from=16 to=8")
refused("a wide value for a child", REGS + "OPERATION main { DECLARE { INSTANCE x; } BEHAVIOR { x = b; } } OPERATION x { EXPRESSION { r[0] } }", "11 Narrowing operation=main from=16 to=8")

# ---------------------------------------------------------------- 12, 13: loops

refused("a while", behavior("while (a) ;"), "12 LoopWithoutBound operation=main")
refused("a loop without a type", behavior("for (a = 0; a < 2; a = a + 1) ;"), "12 LoopWithoutBound operation=main")
refused("a loop to a register", behavior("for (uint8 x = 0; x < a; x = x + 1) ;"), "12 LoopWithoutBound operation=main")
refused("a loop up to and with its limit", behavior("for (uint8 x = 0; x <= 2; x = x + 1) ;"), "12 LoopWithoutBound operation=main")
refused("a loop that steps another register", behavior("for (uint8 x = 0; x < 2; a = x + 1) ;"), "12 LoopWithoutBound operation=main")
refused("a loop with a step of 0", behavior("for (uint8 x = 0; x < 2; x = x + 0) ;"), "12 LoopWithoutBound operation=main")
refused("a loop of 257 turns", behavior("for (uint16 x = 0; x < 257; x = x + 1) ;"), "13 LoopTooLong operation=main turns=257")
refused("a loop of 257 turns by threes", behavior("for (uint16 x = 0; x < 769; x = x + 3) ;"), "13 LoopTooLong operation=main turns=257")
refused("the longest loop", behavior("for (uint64 x = 0; x < 0xffffffffffffffff; x = x + 1) ;"), "13 LoopTooLong operation=main turns=18446744073709551615")
accepted("a loop of 256 turns", behavior("for (uint16 x = 0; x < 256; x = x + 1) ; for (uint16 x = 1; x < 0x300; x = x + 0b11) ;"), 1, 0, 1, 3)

# ---------------------------------------------------------------- 14, 15: operations that reach themselves, and stages

refused("an operation in itself", "RESOURCE { } " + MAIN + " OPERATION x { DECLARE { INSTANCE x; } }", "14 Circular operation=x")
refused("two operations in each other", "RESOURCE { } OPERATION main { DECLARE { INSTANCE a; } ACTIVATION { a } } OPERATION a { DECLARE { INSTANCE main; } }", "14 Circular operation=main")
refused("a chain between two circles",
        "RESOURCE { } " + MAIN + " OPERATION a { DECLARE { INSTANCE b; } } OPERATION b { DECLARE { INSTANCE y; } } OPERATION x { DECLARE { INSTANCE x, a; } } OPERATION y { DECLARE { INSTANCE y; } }",
        "14 Circular operation=x")
refused("a circle through a reference",
        "RESOURCE { } " + MAIN + " OPERATION x { DECLARE { INSTANCE y; INSTANCE n = z; } } OPERATION y { DECLARE { REFERENCE n; } } OPERATION z { DECLARE { INSTANCE y; INSTANCE n = k; } } OPERATION k { }",
        "14 Circular operation=y")
refused("an earlier stage", PIPE + "OPERATION main { DECLARE { INSTANCE y; } ACTIVATION { y } } OPERATION y IN p.B { DECLARE { INSTANCE x; } ACTIVATION { x } } OPERATION x IN p.A { }", "15 Backward activator=y activated=x")
refused("an earlier stage through an operation without a stage",
        PIPE + "OPERATION main { DECLARE { INSTANCE z, y; } ACTIVATION { z, y } } OPERATION z { DECLARE { INSTANCE x; } ACTIVATION { if (a) { x } } } OPERATION y IN p.C { DECLARE { INSTANCE z; } ACTIVATION { z } } OPERATION x IN p.A { }",
        "15 Backward activator=z activated=x")
accepted("an earlier stage that isn't activated", PIPE + MAIN + " OPERATION y IN p.B { DECLARE { INSTANCE x; } ACTIVATION { x } } OPERATION x IN p.A { }", 3, 0, 1, 3)
accepted("the own stage", PIPE + "OPERATION main { DECLARE { INSTANCE y; } ACTIVATION { y } } OPERATION y IN p.A { DECLARE { INSTANCE x; } ACTIVATION { x } } OPERATION x IN p.A { }", 3, 0, 3, 3)

# ---------------------------------------------------------------- 16, 17, 18: stalls, main and reset

refused("a stall of the own stage", staged("B", "BEHAVIOR { p.B.stall(); }"), "16 Control operation=x stage=B")
refused("a flush of a later stage", staged("B", "BEHAVIOR { p.C.flush(); }"), "16 Control operation=x stage=C")
refused("a stall without a stage", PIPE + MAIN + " OPERATION x { BEHAVIOR { p.A.stall(); } }", "16 Control operation=x stage=A")
accepted("stalls of earlier stages", PIPE + "OPERATION main { BEHAVIOR { p.C.stall(); } } OPERATION x IN p.C { BEHAVIOR { p.A.stall(); p.B.flush(); } }", 2, 0, 1, 3)
refused("no main", "RESOURCE { } OPERATION x { }", "17 BadMain")
refused("main in a stage", PIPE + "OPERATION main IN p.A { }", "17 BadMain")
refused("main with a coding", "RESOURCE { } OPERATION main { CODING { 0b1 } }", "17 BadMain")
refused("execute outside of main", PIPE + MAIN + " OPERATION x { BEHAVIOR { p.execute(); } }", "17 BadMain")
refused("execute in a block", PIPE + "OPERATION main { BEHAVIOR { { p.execute(); } } }", "17 BadMain")
refused("a statement behind shift", PIPE + "OPERATION main { BEHAVIOR { p.shift(); a = 1; } }", "17 BadMain")
refused("an empty statement behind shift", PIPE + "OPERATION main { BEHAVIOR { p.shift(); ; } }", "17 BadMain")
accepted("execute and shift", PIPE + "OPERATION main { BEHAVIOR { a = 1; p.execute(); p.shift(); } }", 1, 0, 1, 3)
refused("a later stage than the first from none", PIPE + "OPERATION main { DECLARE { INSTANCE x; } ACTIVATION { x } } OPERATION x IN p.B { }", "17 BadMain")
refused("reset in a stage", PIPE + MAIN + " OPERATION reset IN p.B { }", "18 BadReset")
refused("reset with declarations", "RESOURCE { } " + MAIN + " OPERATION reset { DECLARE { } }", "18 BadReset")
refused("reset that reads a pin", REGS + MAIN + " OPERATION reset { BEHAVIOR { a = i; } }", "18 BadReset")
refused("reset that writes an array", REGS + MAIN + " OPERATION reset { BEHAVIOR { r[0] = 1; } }", "18 BadReset")
refused("reset that reads a boundary", PIPE + MAIN + " OPERATION reset { BEHAVIOR { a = PIPELINE_REGISTER(p, A/B).f; } }", "18 BadReset")
accepted("reset of registers and locals", REGS + MAIN + " OPERATION reset { BEHAVIOR { uint8 x = 3; for (uint8 k = 0; k < 4; k = k + 1) { x = (uint8)(x + k); } a = x; c = a; } }", 2, 0, 1, 3)

refused("an earlier stage through operations without one",
        PIPE + "OPERATION main { DECLARE { INSTANCE x; } ACTIVATION { x } } OPERATION x IN p.A { DECLARE { INSTANCE u, c; } ACTIVATION { u, c } } OPERATION c IN p.C { DECLARE { INSTANCE u; } ACTIVATION { u } } OPERATION u { DECLARE { INSTANCE b; } ACTIVATION { b } } OPERATION b IN p.B { BEHAVIOR { a = 1; } }",
        "15 Backward activator=u activated=b")
refused("a stall in what isn't activated", PIPE + MAIN + " OPERATION b IN p.B { BEHAVIOR { p.B.stall(); } }", "16 Control operation=b stage=B")
refused("a later stage from none through an operation without one",
        PIPE + "OPERATION main { DECLARE { INSTANCE u; } ACTIVATION { u } } OPERATION u { DECLARE { INSTANCE x; } ACTIVATION { x } } OPERATION x IN p.B { }", "17 BadMain")

# ---------------------------------------------------------------- the order of faults

refused("the lower number first", behavior("a = b; zz = 1;"), "7 Unknown operation=main name=zz")
refused("the earlier place first", behavior("a = yy; a = zz;"), "7 Unknown operation=main name=yy")
refused("resources before operations", "RESOURCE { PIPELINE_REGISTER IN q { uint8 f; }; } OPERATION main { BEHAVIOR { zz(); } }", "7 Unknown operation= name=q")
refused("sections as they stand", REGS + "OPERATION main { ACTIVATION { yy } BEHAVIOR { zz(); } }", "7 Unknown operation=main name=yy")

# ---------------------------------------------------------------- 19, 20: widths, and names that aren't written once

CODED = "RESOURCE { REGISTER uint4 ir; } " + MAIN + " OPERATION d { DECLARE { GROUP g = { x }; } CODING { ir == g } } OPERATION x { %s } "


def operation(name, width, text):
    """An operation whose coding is so many zeros."""
    return f'OPERATION {name} {{ CODING {{ 0b{"0" * width} }} SYNTAX {{ "{text}" }} }} '


accepted("an instruction", CODED % 'CODING { 0b0000 } SYNTAX { "X" }', 3, 1, 1, 1)
refused("an instruction narrower than its register", CODED % 'CODING { 0b000 } SYNTAX { "X" }', "19 GroupWidth operation=d name=g")
refused("an instruction without a coding", CODED % 'SYNTAX { "X" }', "19 GroupWidth operation=d name=g")
refused("alternatives of two widths", CODED % 'DECLARE { GROUP h = { y || z }; } CODING { 0b00 h } SYNTAX { h }' + operation("y", 2, "Y") + operation("z", 3, "Z"), "19 GroupWidth operation=x name=h")
refused("a child of 65 bits", CODED % 'DECLARE { GROUP h = { y }; } CODING { h } SYNTAX { h }' + "OPERATION y { CODING { 0bx[64] 0b0 } SYNTAX { \"Y\" } }", "19 GroupWidth operation=x name=h")
refused("a label that isn't written", CODED % 'DECLARE { LABEL l; } CODING { 0b0000 } SYNTAX { "X" }', "20 NotWritten operation=x name=l")
refused("a field that isn't in the syntax", CODED % 'DECLARE { LABEL l; } CODING { l=0bx[4] } SYNTAX { "X" }', "20 NotWritten operation=x name=l")
refused("a field that is twice in the syntax", CODED % 'DECLARE { LABEL l; } CODING { l=0bx[4] } SYNTAX { l=#U l=#X }', "20 NotWritten operation=x name=l")
refused("a child that isn't in the syntax", CODED % 'DECLARE { INSTANCE y; } CODING { y } SYNTAX { "X" }' + operation("y", 4, "Y"), "20 NotWritten operation=x name=y")
refused("a child that is twice in the coding", CODED % 'DECLARE { INSTANCE y; } CODING { y y } SYNTAX { y }' + operation("y", 2, "Y"), "20 NotWritten operation=x name=y")
refused("a child in the syntax alone", CODED % 'DECLARE { INSTANCE y; } CODING { 0b0000 } SYNTAX { "X" y }' + 'OPERATION y { SYNTAX { "Y" } }', "20 NotWritten operation=x name=y")

# ---------------------------------------------------------------- 21, 22: one root, and not too much of anything

refused("two roots", CODED % 'CODING { 0b0000 } SYNTAX { "X" }' + "OPERATION e { DECLARE { GROUP h = { x }; } CODING { ir == h } }", "21 RootTwice operation=e")
refused("a root that runs twice",
        "RESOURCE { REGISTER uint4 ir; } OPERATION main { DECLARE { INSTANCE y, z; } ACTIVATION { y, z } } OPERATION y { DECLARE { INSTANCE d; } ACTIVATION { d } } OPERATION z { DECLARE { INSTANCE d; } ACTIVATION { d } } OPERATION d { DECLARE { GROUP g = { x }; } CODING { ir == g } } " + operation("x", 4, "X"),
        "21 RootTwice operation=d")


def many(count, part):
    return "".join(part % k for k in range(count))


def stages(count):
    return "RESOURCE { PIPELINE p = { " + many(count, "S%d; ") + "}; } " + MAIN


def doubling(levels):
    """Each operation of a chain activates the next one twice."""
    below = "".join(f"OPERATION o{k} {{ DECLARE {{ INSTANCE p = o{k + 1}, q = o{k + 1}; }} ACTIVATION {{ p, q }} }} " for k in range(levels - 1))
    return "RESOURCE { } OPERATION main { DECLARE { INSTANCE p = o0, q = o0; } ACTIVATION { p, q } } " + below + f"OPERATION o{levels - 1} {{ }}"


def pairs(count):
    """A root whose one instruction has two children, each of so many operations."""
    names = " || ".join(f"o{k}" for k in range(count))
    below = "".join(f'OPERATION o{k} {{ CODING {{ 0b{k:06b} }} SYNTAX {{ "O{k}" }} }} ' for k in range(count))
    return ("RESOURCE { REGISTER uint12 ir; } " + MAIN + " OPERATION d { DECLARE { GROUP g = { x }; } CODING { ir == g } } "
            f"OPERATION x {{ DECLARE {{ GROUP a = {{ {names} }}; GROUP b = {{ {names} }}; }} CODING {{ a b }} SYNTAX {{ a b }} }} " + below)


accepted("eight stages", stages(8), 1, 0, 1, 0)
refused("nine stages", stages(9), "22 TooMany what=stages count=9 limit=8")
refused("65 pins", "RESOURCE { " + many(65, "PIN uint1 i%d; ") + "} " + MAIN, "22 TooMany what=pins count=65 limit=64")
refused("1,025 operations", "RESOURCE { } " + MAIN + many(1024, " OPERATION o%d { }"), "22 TooMany what=operations count=1025 limit=1024")
refused("1,025 arrays", "RESOURCE { " + many(1025, "MEMORY uint1 m%d[2]; ") + "} " + MAIN, "22 TooMany what=arrays count=1025 limit=1024")
refused("five of the deepest memories", "RESOURCE { " + many(5, "MEMORY uint8 m%d[1048576]; ") + "} " + MAIN, "22 TooMany what=cells count=5242880 limit=4194304")
accepted("32 by 32 forms", pairs(32), 35, 1024, 1, 1)
refused("33 by 33 forms", pairs(33), "22 TooMany what=forms count=1089 limit=1024")
accepted("both branches of a choice", "RESOURCE { REGISTER uint4 pc; PIPELINE p = { A; B }; } OPERATION x IN p.A { } OPERATION main { DECLARE { INSTANCE x, y; } ACTIVATION { if (pc) { x, y } else { x, y } } } OPERATION y { }", 3, 0, 5, 1)
accepted("an activation through a stage between",
         'RESOURCE { REGISTER uint4 pc; PIPELINE p = { D; X; W }; } OPERATION main { DECLARE { INSTANCE root; } ACTIVATION { root } } OPERATION root IN p.D { DECLARE { GROUP g = { add }; } CODING { pc == g } ACTIVATION { g } } OPERATION add IN p.W { CODING { 0bx[4] } SYNTAX { "ADD" } }',
         3, 1, 3, 5)
accepted("an activation of 12 levels", doubling(11), 12, 0, 4095, 0)
refused("an activation of 13 levels", doubling(12), "22 TooMany what=occurrences count=8191 limit=4096")
refused("8,193 registers", "RESOURCE { " + many(8193, "REGISTER uint1 r%d; ") + "} " + MAIN, "22 TooMany what=items count=8193 limit=8192")
accepted("a loop in a loop", behavior("for (uint16 x = 0; x < 256; x = x + 1) for (uint16 y = 0; y < 14; y = y + 1) ;"), 1, 0, 1, 3)
refused("a longer loop in a loop", behavior("for (uint16 x = 0; x < 256; x = x + 1) for (uint16 y = 0; y < 15; y = y + 1) ;"), "22 TooMany what=statements count=4097 limit=4096")
refused("six loops in each other", behavior("".join(f"for (uint16 x{k} = 0; x{k} < 256; x{k} = x{k} + 1) " for k in range(6)) + ";"), "22 TooMany what=statements count=282578800148737 limit=4096")


def at_reset(body):
    return "RESOURCE { REGISTER uint8 a; } " + MAIN + " OPERATION reset { BEHAVIOR { " + body + " } }"


def sums_in_loops(leaves):
    """3,841 statements, and 1 + 256 (1 + 14 (2 + n)) nodes, where n is 2 for each leaf but 1."""
    total = " + ".join(["(" + " + ".join("a" * 24) + ")"] * (leaves // 24)) + " + a" * (leaves % 24)
    return f"for (uint16 x = 0; x < 256; x = x + 1) for (uint16 y = 0; y < 14; y = y + 1) a = {total};"


accepted("as many statements in reset as there may be", at_reset("a = a; " * 4096), 2, 0, 1, 1)
refused("a statement too many in reset", at_reset("a = a; " * 4097), "22 TooMany what=statements count=4097 limit=4096")
accepted("many nodes in reset", at_reset(sums_in_loops(584)), 2, 0, 1, 1)
refused("too many nodes in reset", at_reset(sums_in_loops(585)), "22 TooMany what=nodes count=4197121 limit=4194304")
refused("an activation of 44 levels", doubling(43), "22 TooMany what=occurrences count=17592186044415 limit=4096")
refused("an activation of 71 levels", doubling(70), "22 TooMany what=occurrences count=18446744073709551615 limit=4096")

# ---------------------------------------------------------------- 23: texts that can't be read

TEXT = CODED % 'DECLARE { LABEL m, n; } CODING { m=0bx[2] n=0bx[2] } SYNTAX { %s }'
accepted("two numbers in two runs", TEXT % '"A" ~ m=#U "B" ~ n=#X', 3, 1, 1, 1)
accepted("a point in a later run", TEXT % 'm=#U ".b" n=#U', 3, 1, 1, 1)
refused("an instruction without a text", CODED % "CODING { 0b0000 }", "23 BadText form=x")
refused("a text that begins with a point", TEXT % '".A" m=#U n=#U', "23 BadText form=x")
refused("a first run that begins with a point, behind a sign", TEXT % '"+.A" m=#U n=#U', "23 BadText form=x")
refused("letters behind a number", TEXT % 'm=#U ~ "A" n=#U', "23 BadText form=x")
refused("two numbers in a run", TEXT % '"A" m=#U ~ n=#U', "23 BadText form=x")
refused("a child whose text can't be read", CODED % 'DECLARE { INSTANCE y; LABEL l; } CODING { y l=0bx[2] } SYNTAX { l=#U ~ y }' + operation("y", 2, "Y"), "23 BadText form=x(y)")

# ---------------------------------------------------------------- one use or section after the other, in the same surroundings


def told(name, text, cases):
    """Cases of what a text has in its places, with the line of a fault or with the four counts."""
    for number, (parts, line) in enumerate(cases, 1):
        whole = text % parts
        if isinstance(line, str):
            refused(f"{name} {number}", whole, line)
        else:
            accepted(f"{name} {number}", whole, *line)


USES = (
    "RESOURCE { REGISTER uint8 n; REGISTER uint16 w; REGISTER int8 s; CLOCKED REGISTER uint8 c;"
    " REGISTER uint8 r[4]; MEMORY uint8 m[4]; PIN uint1 p;"
    " PIPELINE q = { A; B; C }; PIPELINE_REGISTER IN q { uint8 f; }; }"
    " OPERATION main { BEHAVIOR { %s} }")
told("uses of resources", USES, [
    ("n = r[n] + m[0]; c = n; r[1] = c; m[c] = n;", (1, 0, 1, 6)),
    ("n = r;", "8 WrongKind operation=main name=r"),
    ("m = n;", "8 WrongKind operation=main name=m"),
    ("n = n[0];", "8 WrongKind operation=main name=n"),
    ("uint8 a; a = a[0];", "8 WrongKind operation=main name=a"),
    ("w[n] = 1;", "8 WrongKind operation=main name=w"),
    ("p = 1;", "8 WrongKind operation=main name=p"),
    ("n = q;", "8 WrongKind operation=main name=q"),
    ("n();", "8 WrongKind operation=main name=n"),
    ("uint8 a; a();", "8 WrongKind operation=main name=a"),
    ("n.execute();", "8 WrongKind operation=main name=n"),
    ("for (uint8 i = 0; i < 3; i = i + 1) i = 2;", "8 WrongKind operation=main name=i"),
    ("for (uint8 i = 0; i < 3; i = i + 1) n = n + i;", (1, 0, 1, 6)),
    ("n = IN.f;", "8 WrongKind operation=main name=f"),
    ("OUT.f = n;", "8 WrongKind operation=main name=f"),
    ("n = decoded;", "8 WrongKind operation=main name=decoded"),
    ("n = PIPELINE_REGISTER(q, A/B).f;", (1, 0, 1, 6)),
    ("n = PIPELINE_REGISTER(q, A/C).f;", "8 WrongKind operation=main name=f"),
    ("n = PIPELINE_REGISTER(q, B/A).f;", "8 WrongKind operation=main name=f"),
])
told("values for places", USES, [
    ("n = w;", "11 Narrowing operation=main from=16 to=8"),
    ("n = (uint8) w;", (1, 0, 1, 6)),
    ("n = 255;", (1, 0, 1, 6)),
    ("n = 256;", "11 Narrowing operation=main from=9 to=8"),
    ("s = 127;", (1, 0, 1, 6)),
    ("s = 128;", "11 Narrowing operation=main from=9 to=8"),
    ("s = (uint8) 200;", (1, 0, 1, 6)),
    ("s = s + 127;", (1, 0, 1, 6)),
    ("s = s + 128;", "11 Narrowing operation=main from=9 to=8"),
    ("n = n + 256;", "11 Narrowing operation=main from=9 to=8"),
    ("n = n << 300;", (1, 0, 1, 6)),
    ("n = w == w;", (1, 0, 1, 6)),
    ("n = ~w;", "11 Narrowing operation=main from=16 to=8"),
    ("n = p ? w : n;", "11 Narrowing operation=main from=16 to=8"),
    ("uint8 a = w;", "11 Narrowing operation=main from=16 to=8"),
    ("int8 a = 128;", "11 Narrowing operation=main from=9 to=8"),
    ("r[w] = w;", "11 Narrowing operation=main from=16 to=8"),
    ("for (uint8 i = 256; i < 300; i = i + 300) ;", "9 BadWidth name=i width=8"),
    ("int64 a = 9223372036854775808; a = a + 9223372036854775808;", (1, 0, 1, 6)),
])
STAGES = (
    "RESOURCE { REGISTER uint8 n; PIPELINE q = { A; B }; PIPELINE_REGISTER IN q { uint8 f; }; }"
    " OPERATION main { DECLARE { INSTANCE a, b; } ACTIVATION { a, b } } OPERATION a IN q.A { BEHAVIOR { %s} }")
told("boundaries of stages", STAGES, [
    ("OUT.f = n; } } OPERATION b IN q.B { BEHAVIOR { n = IN.f;", "17 BadMain"),
    ("n = IN.f; } } OPERATION b IN q.B { BEHAVIOR { ", "8 WrongKind operation=a name=f"),
    ("} } OPERATION b IN q.B { BEHAVIOR { OUT.f = n;", "8 WrongKind operation=b name=f"),
])
CHOSEN = (
    "RESOURCE { REGISTER uint8 n; REGISTER uint16 w; REGISTER uint8 ir; REGISTER uint8 r[4]; PIN uint1 p;"
    " PIPELINE q = { A; B }; PIPELINE_REGISTER IN q { uint8 f; }; }"
    " OPERATION main { DECLARE { INSTANCE root; } ACTIVATION { root } }"
    " OPERATION root { DECLARE { GROUP i = { u }; } CODING { ir == i } ACTIVATION { i } }")
told("alternatives and their types", CHOSEN + (
    ' OPERATION u { DECLARE { GROUP g = { x || y }; } CODING { g } SYNTAX { g } BEHAVIOR { %s }'
    ' OPERATION x { CODING { 0b0 } SYNTAX { "x" } EXPRESSION { n } }'), [
    ('n = g; g = n; g(); } } OPERATION y { CODING { 0b1 } SYNTAX { "y" } EXPRESSION { r[0] }', "19 GroupWidth operation=root name=i"),
    ('n = g; } } OPERATION y { CODING { 0b1 } SYNTAX { "y" } EXPRESSION { w }', "8 WrongKind operation=u name=g"),
    ('n = g; } } OPERATION y { CODING { 0b1 } SYNTAX { "y" }', "8 WrongKind operation=u name=g"),
    ('n = g; } } OPERATION y { CODING { 0b1 } SYNTAX { "y" } EXPRESSION { (uint8) w }', "19 GroupWidth operation=root name=i"),
    ('g = n; } } OPERATION y { CODING { 0b1 } SYNTAX { "y" } EXPRESSION { (uint8) w }', "8 WrongKind operation=u name=g"),
    ('g = w; } } OPERATION y { CODING { 0b1 } SYNTAX { "y" } EXPRESSION { n }', "11 Narrowing operation=u from=16 to=8"),
    ('n = g + 256; } } OPERATION y { CODING { 0b1 } SYNTAX { "y" } EXPRESSION { n }', "11 Narrowing operation=u from=9 to=8"),
    ('g[0] = n; } } OPERATION y { CODING { 0b1 } SYNTAX { "y" } EXPRESSION { n }', "8 WrongKind operation=u name=g"),
    ('n = decoded; } } OPERATION y { CODING { 0b1 } SYNTAX { "y" } EXPRESSION { n }', "8 WrongKind operation=u name=decoded"),
    ('n = g; } } ALIAS OPERATION y { CODING { 0b1 } SYNTAX { "y" }', "19 GroupWidth operation=root name=i"),
    ('n = g; } } ALIAS OPERATION y { CODING { 0b1 } SYNTAX { "y" } BEHAVIOR { }', "8 WrongKind operation=y name=y"),
    ('n = g; } } ALIAS OPERATION y { SYNTAX { "y" }', "8 WrongKind operation=y name=y"),
    ('n = g; } } OPERATION y { CODING { 0b1 } SYNTAX { "y" } EXPRESSION { IN.f + w }', "8 WrongKind operation=y name=f"),
    ('n = g; } } OPERATION y { CODING { 0b1 } SYNTAX { "y" } EXPRESSION { (uint16) IN.f }', "8 WrongKind operation=u name=g"),
    ('g = n; } } OPERATION y { CODING { 0b1 } SYNTAX { "y" } EXPRESSION { decoded }', "8 WrongKind operation=y name=decoded"),
])
told("children outside of codings", CHOSEN + (
    ' OPERATION u { CODING { 0b0 } SYNTAX { "u" } } OPERATION x { } OPERATION y { } OPERATION s IN q.A { } ALIAS'
    ' OPERATION b { CODING { 0b0 } SYNTAX { "b" } } OPERATION z { %s}'), [
    ("DECLARE { GROUP g = { x || y }; } BEHAVIOR { g(); }", "8 WrongKind operation=z name=g"),
    ("DECLARE { GROUP g = { x || y }; } ACTIVATION { g }", "8 WrongKind operation=z name=g"),
    ("DECLARE { GROUP g = { x }; INSTANCE y; } BEHAVIOR { g(); y(); } ACTIVATION { g, y }", "19 GroupWidth operation=root name=i"),
    ("DECLARE { INSTANCE u; }", "8 WrongKind operation=z name=u"),
    ("DECLARE { INSTANCE root; } BEHAVIOR { root(); }", "8 WrongKind operation=z name=root"),
    ("DECLARE { INSTANCE s; } BEHAVIOR { s(); }", "8 WrongKind operation=z name=s"),
    ("DECLARE { LABEL l; } ACTIVATION { l }", "8 WrongKind operation=z name=l"),
    ("DECLARE { INSTANCE b; } CODING { b } SYNTAX { b }", "8 WrongKind operation=z name=b"),
    ("DECLARE { GROUP g = { b }; } CODING { g } SYNTAX { g }", "8 WrongKind operation=z name=g"),
])
told("labels and their fields", CHOSEN + " OPERATION u { DECLARE { LABEL l; } CODING { 0b0 %s}", [
    ('l=0bx[8] } SYNTAX { "u" l=#U } BEHAVIOR { n = l + 200; }', "19 GroupWidth operation=root name=i"),
    ('l=0bx[8] } SYNTAX { "u" l=#S } BEHAVIOR { n = l + 200; }', "11 Narrowing operation=u from=9 to=8"),
    ('l=0bx[8] } SYNTAX { "u" l=#U } BEHAVIOR { l = n; }', "8 WrongKind operation=u name=l"),
    ('l=0bx[8] } SYNTAX { "u" l }', "8 WrongKind operation=u name=l"),
    ('} SYNTAX { "u" } BEHAVIOR { n = l; }', "8 WrongKind operation=u name=l"),
    ('} SYNTAX { "u" l=#U }', "8 WrongKind operation=u name=l"),
    ('l=0b10 } SYNTAX { "u" l=#U }', "8 WrongKind operation=u name=l"),
    ('l } SYNTAX { "u" l=#U }', "8 WrongKind operation=u name=l"),
])
NARROW = "LABEL v; } CODING { z v=0bx[8] } SYNTAX { z v=#U } }"
WIDE = "LABEL v; } CODING { z v=0bx[9] } SYNTAX { z v=#U } }"
CHILD = "INSTANCE v = k; } CODING { z v } SYNTAX { z v } }"
CAST = "INSTANCE v = h; } CODING { z v } SYNTAX { z v } }"
CIRCLE = "INSTANCE v = o; } CODING { z } SYNTAX { z } } OPERATION o { DECLARE { INSTANCE v = o; } EXPRESSION { v } }"
BARE = "INSTANCE v = e; } CODING { z } SYNTAX { z } } OPERATION e { }"
told("what a reference may mean", CHOSEN + (
    " OPERATION u { DECLARE { GROUP g = { one || other }; } CODING { g } SYNTAX { g } }"
    ' OPERATION k { CODING { 0b0 } SYNTAX { "k" } EXPRESSION { n } }'
    ' OPERATION h { CODING { 0b0 } SYNTAX { "h" } EXPRESSION { (uint8) w } }'
    " OPERATION one { DECLARE { INSTANCE z; %s OPERATION other { DECLARE { INSTANCE z; %s"
    ' OPERATION z { DECLARE { REFERENCE v; } CODING { 0b0 } SYNTAX { "z" } %s}'), [
    ((NARROW, NARROW, "BEHAVIOR { n = v; }"), "19 GroupWidth operation=root name=i"),
    ((NARROW, WIDE, ""), "8 WrongKind operation=z name=v"),
    ((WIDE, WIDE, "BEHAVIOR { n = v; }"), "11 Narrowing operation=z from=9 to=8"),
    ((NARROW, CHILD, ""), "8 WrongKind operation=z name=v"),
    ((CHILD, CHILD, "BEHAVIOR { n = v; v = n; v(); }"), "19 GroupWidth operation=root name=i"),
    ((CHILD, CAST, ""), "8 WrongKind operation=z name=v"),
    ((NARROW, NARROW, "BEHAVIOR { v = n; }"), "8 WrongKind operation=z name=v"),
    ((NARROW, NARROW, "BEHAVIOR { v(); }"), "8 WrongKind operation=z name=v"),
    ((CHILD, CHILD, "ACTIVATION { v }"), "8 WrongKind operation=z name=v"),
    ((CIRCLE, CHILD, "BEHAVIOR { n = v; v = n; }"), "14 Circular operation=o"),
    ((CIRCLE, BARE, "BEHAVIOR { n = v; }"), "8 WrongKind operation=z name=v"),
    ((CIRCLE, CAST, "BEHAVIOR { v = n; }"), "14 Circular operation=o"),
])
told("places of roots", (
    "RESOURCE { %s"
    'OPERATION main { DECLARE { INSTANCE root; } ACTIVATION { root } } OPERATION u { CODING { 0b0 } SYNTAX { "u" } }'
    ' OPERATION root { DECLARE { GROUP i = { u }; }'
    " %s}"), [
    (("REGISTER uint8 n; } ", "CODING { n == i } BEHAVIOR { n = decoded; } ACTIVATION { i }"), "19 GroupWidth operation=root name=i"),
    (("REGISTER uint8 n[4]; } ", "CODING { n == i }"), "8 WrongKind operation=root name=n"),
    (("REGISTER uint8 n; } ", "CODING { n == i } SYNTAX { i }"), "8 WrongKind operation=root name=i"),
    (("REGISTER uint8 n; } ", "CODING { n == i } BEHAVIOR { i(); }"), "8 WrongKind operation=root name=i"),
    (("REGISTER uint8 n; } ", "CODING { n == i } EXPRESSION { decoded }"), "8 WrongKind operation=root name=decoded"),
    (("PIPELINE q = { A }; PIPELINE_REGISTER IN q { uint8 f; }; } ", "CODING { IN.f == i }"), "8 WrongKind operation=root name=f"),
    (("REGISTER uint8 n; PIPELINE_REGISTER IN n { uint8 f; }; } ", "CODING { n == i }"), "8 WrongKind operation= name=n"),
])
told("what rests on itself", (
    "RESOURCE { REGISTER uint8 n; } OPERATION main { DECLARE { INSTANCE x; } BEHAVIOR { %s} }"
    " OPERATION y { DECLARE { INSTANCE x; } EXPRESSION { x } }"), [
    ("n = x; x = n; n = x + 256; } } OPERATION x { DECLARE { INSTANCE y; } EXPRESSION { y", "14 Circular operation=x"),
    ("n = x; } } OPERATION x { DECLARE { INSTANCE y; } EXPRESSION { (uint16) y", "11 Narrowing operation=main from=16 to=8"),
])
told("alternatives and their widths", 'RESOURCE { } OPERATION main { } OPERATION x { CODING { 0b00 } SYNTAX { "x" } } OPERATION u { DECLARE { %s }', [
    ('GROUP g = { x || y }; } CODING { g 0bx[3] } SYNTAX { g } } OPERATION y { CODING { 0b11 } SYNTAX { "y" }', (4, 0, 1, 0)),
    ('GROUP g = { x || y }; } CODING { g } SYNTAX { g } } OPERATION y { CODING { 0b111 } SYNTAX { "y" }', "19 GroupWidth operation=u name=g"),
    ('GROUP g = { x || y }; } CODING { g } SYNTAX { g } } OPERATION y { SYNTAX { "y" }', "19 GroupWidth operation=u name=g"),
    ('GROUP g = { x || y }; } } OPERATION y { SYNTAX { "y" }', "8 WrongKind operation=u name=g"),
    ('GROUP g = { x || y }; } CODING { g } SYNTAX { g } } ALIAS OPERATION y { CODING { 0b111 } SYNTAX { "y" }', "19 GroupWidth operation=u name=g"),
    ('INSTANCE y; } CODING { y } SYNTAX { y } } OPERATION y { SYNTAX { "y" }', "19 GroupWidth operation=u name=y"),
    ('INSTANCE y; } CODING { y } SYNTAX { y } } OPERATION y { CODING { 0bx[33] 0bx[32] } SYNTAX { "y" }', "19 GroupWidth operation=u name=y"),
    ('INSTANCE y; } CODING { y } SYNTAX { y } } OPERATION y { CODING { 0bx[32] 0bx[32] } SYNTAX { "y" }', (4, 0, 1, 0)),
])
told("a group below a group", (
    'RESOURCE { } OPERATION main { } OPERATION u { DECLARE { GROUP h = { v || w }; } CODING { h 0b1 } SYNTAX { h } }'
    ' OPERATION v { DECLARE { GROUP g = { x || y }; } CODING { g 0bx } SYNTAX { g } }'
    ' OPERATION w { CODING { 0b10 } SYNTAX { "w" } } OPERATION x { CODING { 0b1 } SYNTAX { "x" } }'
    ' OPERATION y { CODING { %s } SYNTAX { "y" } }'), [
    ("0b0", (6, 0, 1, 0)),
    ("0b00", "19 GroupWidth operation=v name=g"),
])
told("roots and their places", (
    'RESOURCE { REGISTER uint8 n; CLOCKED REGISTER uint7 c;'
    ' PIPELINE p = { A; B }; PIPELINE_REGISTER IN p { uint6 f; }; } OPERATION main { }'
    ' OPERATION root IN p.B { DECLARE { GROUP i = { u }; } CODING { %s SYNTAX { "u" } }'), [
    ("n == i } } OPERATION u { CODING { 0bx[8] }", (3, 1, 1, 3)),
    ("n == i } } OPERATION u { CODING { 0bx[7] }", "19 GroupWidth operation=root name=i"),
    ("c == i } } OPERATION u { CODING { 0bx[7] }", (3, 1, 1, 3)),
    ("c == i } } OPERATION u { CODING { 0bx[8] }", "19 GroupWidth operation=root name=i"),
    ("IN.f == i } } OPERATION u { CODING { 0bx[6] }", (3, 1, 1, 3)),
    ("IN.f == i } } OPERATION u { CODING { 0bx[8] }", "19 GroupWidth operation=root name=i"),
    ("n == i } } OPERATION u { ", "19 GroupWidth operation=root name=i"),
])
told("what is declared and written", (
    'RESOURCE { } OPERATION main { } OPERATION x { CODING { 0b0 } SYNTAX { "x" } }'
    ' OPERATION u { DECLARE { INSTANCE x; LABEL l; } %s }'), [
    ("CODING { l=0bx[2] x } SYNTAX { x l=#U }", (3, 0, 1, 0)),
    ("CODING { l=0bx l=0bx x } SYNTAX { x l=#U }", "20 NotWritten operation=u name=l"),
    ('CODING { l=0bx x } SYNTAX { x l=#U "," l=#U }', "20 NotWritten operation=u name=l"),
    ("CODING { x } SYNTAX { x l=#U }", "8 WrongKind operation=u name=l"),
    ("CODING { l=0bx x } SYNTAX { x }", "20 NotWritten operation=u name=l"),
    ("CODING { l=0bx x }", "20 NotWritten operation=u name=x"),
    ("CODING { l=0bx }", "8 WrongKind operation=u name=x"),
    ("CODING { l=0bx x } SYNTAX { l=#U }", "20 NotWritten operation=u name=x"),
    ('CODING { l=0bx x } SYNTAX { x l=#U "," x }', "20 NotWritten operation=u name=x"),
    ("CODING { l=0bx x x } SYNTAX { x l=#U }", "20 NotWritten operation=u name=x"),
    ("CODING { l=0bx } SYNTAX { x l=#U }", "8 WrongKind operation=u name=x"),
    ("CODING { l=0bx } SYNTAX { l=#U }", "8 WrongKind operation=u name=x"),
    ("SYNTAX { x l=#U l=#U }", "8 WrongKind operation=u name=x"),
])
told("the first name that is not written", 'RESOURCE { } OPERATION main { } OPERATION x { CODING { 0b0 } SYNTAX { "x" } } ALIAS OPERATION u { %s }', [
    ("SYNTAX { x } DECLARE { INSTANCE x; LABEL l; } CODING { 0b0 }", "8 WrongKind operation=u name=x"),
    ("DECLARE { LABEL l; INSTANCE x; } CODING { 0b0 } SYNTAX { x }", "8 WrongKind operation=u name=x"),
    ('DECLARE { INSTANCE x; LABEL l; } CODING { x } SYNTAX { "u" }', "20 NotWritten operation=u name=x"),
])
