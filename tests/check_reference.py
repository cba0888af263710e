"""The conditions 6 to 22 on descriptions, decided slowly and plainly over whole trees.

A description is a `Description` of tuples; `fault` gives the line of the first fault, or None, and `sizes` the four counts. Nothing here
is shared with the program: tests compare the two."""

from dataclasses import dataclass, field

@dataclass
class Resource:
    sort: str  # register, clocked, memory, pin, pipeline, fields
    name: str
    signed: bool = False
    width: int = 0
    depth: int = None
    parts: list = field(default_factory=list)  # stages, or (signed, width, name) of fields


@dataclass
class Operation:
    name: str
    alias: bool = False
    stage: tuple = None  # pipeline, stage
    sections: list = field(default_factory=list)  # (kind, content)

    def section(self, kind):
        return next((content for sort, content in self.sections if sort == kind), None)


@dataclass
class Description:
    resources: list
    operations: list


# ---------------------------------------------------------------- places

@dataclass
class Place:
    """Something that stands in a description: what it is, and where."""
    what: str
    operation: int  # -1 in RESOURCE
    region: str
    scope: tuple  # of (name, shape, whether it counts a loop)
    data: tuple = ()

    def local(self, name):
        return next((it for it in reversed(self.scope) if it[0] == name), None)


def expression_places(e, at):
    kind = e[0]
    if kind == "name":
        yield at("read", e[1])
    elif kind == "element":
        yield at("read element", e[1])
        yield from expression_places(e[2], at)
    elif kind == "in":
        yield at("read in", e[1])
    elif kind == "boundary":
        yield at("read boundary", *e[1:])
    elif kind == "decoded":
        yield at("read decoded")
    elif kind == "cast":
        yield at("type", "", e[1])
        yield from expression_places(e[2], at)
    else:
        for part in e[1:]:
            if isinstance(part, tuple):
                yield from expression_places(part, at)


def target_places(e, at):
    if e[0] == "element":
        yield at("write element", e[1])
        yield from expression_places(e[2], at)
    else:
        yield at("write out" if e[0] == "out" else "write", e[1])


def statements_places(statements, o, region, scope, top=False):
    """The places of a list of statements, whose locals end with it."""
    for place, s in enumerate(statements):
        behind = statements[place + 1:]
        if s[0] == "local":
            yield from statement_places(s, o, region, scope, top, behind)
            scope = scope + ((s[2], s[1], False),)
        else:
            yield from statement_places(s, o, region, scope, top, behind)


def statement_places(s, o, region, scope, top=False, behind=()):
    def at(what, *data, scope=scope):
        return Place(what, o, region, scope, data)

    kind = s[0]
    yield at("statement", s, top, tuple(behind))
    if kind == "block":
        yield from statements_places(s[1], o, region, scope)
    elif kind == "local":
        yield at("type", s[2], s[1])
        yield at("local", s[2])
        if s[3] is not None:
            yield from expression_places(s[3], at)
    elif kind == "assign":
        yield from target_places(s[1], at)
        yield from expression_places(s[2], at)
    elif kind == "if":
        yield from expression_places(s[1], at)
        yield from statements_places([s[2]], o, region, scope)
        if s[3] is not None:
            yield from statements_places([s[3]], o, region, scope)
    elif kind == "while":
        yield from expression_places(s[1], at)
        yield from statements_places([s[2]], o, region, scope)
    elif kind == "for":
        _, shape, name, first, test, following, step, body = s
        inner = scope
        if shape is not None:
            yield at("type", name, shape)
            yield at("local", name)
            inner = scope + ((name, shape, True),)
        yield at("counter", s)
        if shape is None:
            yield at("head name", name)
        yield from expression_places(first, at)

        def within(what, *data):
            return at(what, *data, scope=inner)

        yield from expression_places(test, within)
        yield within("head name", following)
        yield from expression_places(step, within)
        yield from statements_places([body], o, region, inner)
    elif kind in ("call", "execute", "shift", "stall", "flush"):
        yield at(kind, *s[1:])


def items_places(items, o, scope=()):
    def at(what, *data):
        return Place(what, o, "ACTIVATION", scope, data)

    for item in items:
        if item[0] == "start":
            yield at("start", item[1])
        else:
            yield from expression_places(item[1], at)
            yield from items_places(item[2], o)
            yield from items_places(item[3] or [], o)


def section_places(kind, content, o, again):
    def at(what, *data):
        return Place(what, o, kind, (), data)

    yield at("section", kind, again)
    if kind == "DECLARE":
        for declared in content:
            sort, names, alternatives = declared
            if sort == "INSTANCE":
                for name, operation in names:
                    yield at("declared", name)
                    yield at("alternative", operation, ())
            else:
                for name in names:
                    yield at("declared", name)
                for place, operation in enumerate(alternatives):
                    yield at("alternative", operation, tuple(alternatives[:place]))
    elif kind == "CODING":
        if content[0] == "root":
            yield at("root place", content[1])
            yield at("root group", content[2])
        else:
            for item in content[1]:
                yield at("coding " + item[0], *item[1:])
    elif kind == "SYNTAX":
        for _, item in content:
            yield at("syntax " + item[0], *item[1:])
    elif kind == "BEHAVIOR":
        yield from statements_places(content, o, kind, (), True)
    elif kind == "EXPRESSION":
        yield from expression_places(content, at)
    else:
        yield from items_places(content, o)


def places(d):
    for k, r in enumerate(d.resources):
        yield Place("resource", -1, "RESOURCE", (), (k, r))
    for o, operation in enumerate(d.operations):
        yield Place("head", o, "HEAD", (), (operation,))
        seen = set()
        for kind, content in operation.sections:
            yield from section_places(kind, content, o, kind in seen)
            seen.add(kind)


# ---------------------------------------------------------------- names

@dataclass
class Entry:
    operation: int
    sort: str  # GROUP, INSTANCE, LABEL, REFERENCE
    name: str
    alternatives: list


class Names:
    def __init__(self, d):
        self.d = d
        self.resource = {}
        for r in d.resources:
            if r.sort != "fields":
                self.resource.setdefault(r.name, r)
        self.number = {}
        for o, operation in enumerate(d.operations):
            self.number.setdefault(operation.name, o)
        self.pipeline = next((r for r in d.resources if r.sort == "pipeline"), None)
        self.fields = next((r.parts for r in d.resources if r.sort == "fields"), [])
        self.declared = [{} for _ in d.operations]
        self.entries = []
        for o, operation in enumerate(d.operations):
            for sort, names, alternatives in operation.section("DECLARE") or []:
                for name in names:
                    name, listed = name if sort == "INSTANCE" else (name, alternatives)
                    listed = [listed] if sort == "INSTANCE" else listed
                    entry = Entry(o, sort, name, [self.number[it] for it in listed if it in self.number])
                    self.entries.append(entry)
                    self.declared[o].setdefault(name, entry)
        self.above = [[p for p in range(len(d.operations)) if not d.operations[p].alias
                       and any(o in e.alternatives for e in self.entries if e.operation == p)] for o in range(len(d.operations))]

    def stages(self):
        return self.pipeline.parts if self.pipeline else []

    def stage(self, name):
        return self.stages().index(name) if name in self.stages() else None

    def own_stage(self, o):
        stage = self.d.operations[o].stage
        return None if stage is None or not self.is_pipeline(stage[0]) else self.stage(stage[1])

    def is_pipeline(self, name):
        return self.pipeline is not None and self.pipeline.name == name

    def field(self, name):
        return next(((signed, width) for signed, width, it in self.fields if it == name), None)

    def coding(self, o):
        return self.d.operations[o].section("CODING")

    def is_root(self, o):
        coding = self.coding(o)
        return coding is not None and coding[0] == "root"

    def is_coded(self, o):
        coding = self.coding(o)
        return coding is not None and coding[0] == "items"

    def in_coding(self, entry):
        coding = self.coding(entry.operation)
        if coding is None:
            return False
        if coding[0] == "root":
            return coding[2] == entry.name
        return any(item[0] == "child" and item[1] == entry.name for item in coding[1])

    def plain(self, entry):
        return [a for a in entry.alternatives if not self.d.operations[a].alias]

    def meaning(self, o, name):
        """An entry, a resource, or None."""
        if o >= 0 and name in self.declared[o]:
            return self.declared[o][name]
        return self.resource.get(name)

    def meant(self, entry):
        """The declarations, no references, that a declared name may mean."""
        found, seen, work = [], [], [entry]
        while work:
            it = work.pop(0)
            if any(it is other for other in seen):
                continue
            seen.append(it)
            if it.sort != "REFERENCE":
                found.append(it)
                continue
            work += [self.declared[p][it.name] for p in self.above[it.operation] if it.name in self.declared[p]]
        return found

    def field_of(self, entry):
        """The width of a label's first field."""
        coding = self.coding(entry.operation)
        if coding is None or coding[0] == "root":
            return None
        return next((len(item[2]) for item in coding[1] if item[0] == "field" and item[1] == entry.name), None)

    def number_of(self, entry):
        """The format of a label's first number."""
        syntax = self.d.operations[entry.operation].section("SYNTAX") or []
        return next((item[2] for _, item in syntax if item[0] == "number" and item[1] == entry.name), None)


# ---------------------------------------------------------------- 6 and 7

def duplicates(names, place):
    d, o = names.d, place.operation
    resources = [r.name for r in d.resources if r.sort != "fields"]
    if place.what == "resource":
        k, r = place.data
        before = d.resources[:k]
        if r.sort == "fields":
            if any(it.sort == "fields" for it in before):
                yield r.name
            inner = [name for _, _, name in r.parts]
        else:
            if r.name in [it.name for it in before if it.sort != "fields"] or r.sort == "pipeline" and any(it.sort == "pipeline" for it in before):
                yield r.name
            inner = r.parts
        yield from (name for place, name in enumerate(inner) if name in inner[:place])
    elif place.what == "head":
        name = d.operations[o].name
        if name in resources or name in [it.name for it in d.operations[:o]]:
            yield name
    elif place.what == "section":
        if place.data[1]:
            yield d.operations[o].name
    elif place.what == "alternative":
        if place.data[0] in place.data[1]:
            yield place.data[0]
    elif place.what == "local":
        if place.data[0] in resources or place.local(place.data[0]) or place.data[0] in names.declared[o]:
            yield place.data[0]


def first_duplicate(names, all_places):
    """The first name that is shared, those of declarations among them, each behind those before it."""
    seen, o = [], -1
    resources = [r.name for r in names.d.resources if r.sort != "fields"]
    for place in all_places:
        if place.operation != o:
            seen, o = [], place.operation
        if place.what == "declared":
            if place.data[0] in seen or place.data[0] in resources:
                return place.data[0]
            seen.append(place.data[0])
        for name in duplicates(names, place):
            return name
    return None


def unknowns(names, place):
    o, what = place.operation, place.what
    data = place.data
    if what == "resource":
        r = data[1]
        if r.sort == "fields" and r.name not in names.resource:
            yield r.name
    elif what == "head":
        stage = names.d.operations[o].stage
        if stage:
            if stage[0] not in names.resource:
                yield stage[0]
            elif not names.is_pipeline(stage[0]) or names.stage(stage[1]) is None:
                yield stage[1]
    elif what == "alternative":
        if data[0] not in names.number:
            yield data[0]
    elif what == "declared":
        entry = names.declared[o][data[0]]
        if entry.sort == "REFERENCE":
            above = names.above[o]
            if names.d.operations[o].name == "main" or not above or any(entry.name not in names.declared[p] for p in above):
                yield entry.name
    elif what in ("read", "read element", "write", "write element", "call", "head name"):
        if not place.local(data[0]) and names.meaning(o, data[0]) is None:
            yield data[0]
    elif what in ("read in", "write out"):
        if names.field(data[0]) is None:
            yield data[0]
    elif what == "read boundary":
        pipe, before, after, field_name = data
        if not place.local(pipe) and names.meaning(o, pipe) is None:
            yield pipe
        yield from (it for it in (before, after) if not names.is_pipeline(pipe) or names.stage(it) is None)
        if names.field(field_name) is None or not names.is_pipeline(pipe):
            yield field_name
    elif what in ("stall", "flush"):
        if not place.local(data[0]) and names.meaning(o, data[0]) is None:
            yield data[0]
        elif not names.is_pipeline(data[0]) or names.stage(data[1]) is None:
            yield data[1]
    elif what in ("execute", "shift"):
        if not place.local(data[0]) and names.meaning(o, data[0]) is None:
            yield data[0]
    elif what == "root place":
        if data[0][0] == "in":
            if names.field(data[0][1]) is None:
                yield data[0][1]
        elif names.meaning(o, data[0][1]) is None:
            yield data[0][1]
    elif what in ("root group", "coding field", "coding child", "syntax number", "syntax child", "start"):
        if names.meaning(o, data[0]) is None:
            yield data[0]


# ---------------------------------------------------------------- types

OPEN, NONE, REFUSED = "open", "none", "refused"


def bits(v):
    return max(1, v.bit_length())


def number_type(signed, v):
    if signed and v.bit_length() + 1 <= 64:
        return (True, v.bit_length() + 1)
    return (False, bits(v))


class Types:
    """What declared names may be used for, by what is known; open where that rests on itself, refused where it rests on a use that is."""

    def __init__(self, names):
        self.names = names
        self.types = {}
        self.assignables = {}
        count = len(names.d.operations)
        self.operation_type = [OPEN] * count
        self.operation_assignable = [OPEN] * count
        self.settle(self.operation_type, self.type_of_operation)
        self.settle(self.operation_assignable, self.assignable_operation)

    @staticmethod
    def settle(table, rule):
        while True:
            new = [rule(o) for o in range(len(table))]
            if new == table:
                return
            table[:] = new

    # -- declarations

    def type_of_declaration(self, entry):
        if entry.sort == "LABEL":
            width = self.names.field_of(entry)
            return NONE if width is None else (self.names.number_of(entry) == "#S", width)
        found = {self.operation_type[a] for a in self.names.plain(entry)}
        if NONE in found:
            return NONE
        if OPEN in found:
            return OPEN
        if len(found - {REFUSED}) > 1:
            return NONE
        return REFUSED if REFUSED in found or not found else next(iter(found))

    def assignable_declaration(self, entry):
        if entry.sort == "LABEL":
            return False
        if self.is_incomplete(entry):
            return False
        found = [self.operation_assignable[a] for a in self.names.plain(entry)]
        if OPEN in found:
            return OPEN
        return False if False in found else REFUSED if REFUSED in found or not found else True

    def all_of(self, entry, value):
        """What all declarations are that a name may mean, open where one is and refused where they differ."""
        if self.rests_on_itself(entry):
            return OPEN
        found = {value(it) for it in self.names.meant(entry)}
        return OPEN if OPEN in found else next(iter(found)) if len(found) == 1 else REFUSED

    def type_of_entry(self, entry):
        return self.all_of(entry, self.type_of_declaration)

    def differ(self, entry, value):
        """Declarations differ that a name may mean, none of which is open."""
        if self.all_of(entry, value) == OPEN:
            return False
        return len({value(it) for it in self.names.meant(entry)} - {REFUSED}) > 1

    def rests_on_itself(self, entry, below=()):
        """Whether the chain of references goes round."""
        if entry.sort != "REFERENCE":
            return False
        if any(entry is it for it in below):
            return True
        return any(self.rests_on_itself(self.names.declared[p][entry.name], below + (entry,))
                   for p in self.names.above[entry.operation] if entry.name in self.names.declared[p])

    def is_apart(self, entry):
        """Some declaration that it may mean is neither called nor a value."""
        names = self.names
        for it in names.meant(entry):
            if it.sort == "LABEL":
                continue
            plain = names.plain(it)
            if any(names.own_stage(a) is not None or names.is_root(a) for a in plain):
                return True
            if len(plain) > 1 and not names.in_coding(it):
                return True
            if names.is_root(it.operation) and names.in_coding(it):
                return True
        return False

    def is_incomplete(self, declaration):
        """It lacks an EXPRESSION or a field."""
        if declaration.sort == "LABEL":
            return self.names.field_of(declaration) is None
        return any(self.names.d.operations[a].section("EXPRESSION") is None for a in self.names.plain(declaration))

    def lacks_type(self, entry):
        """Some declaration that it may mean has no type; where one is open, only what is missing tells so."""
        meant = self.names.meant(entry)
        if any(self.is_incomplete(it) for it in meant):
            return True
        return self.type_of_entry(entry) != OPEN and any(self.type_of_declaration(it) == NONE for it in meant)

    def is_unassignable(self, entry):
        """Some declaration that it may mean may not be assigned, and none is open."""
        return self.all_of(entry, self.assignable_declaration) != OPEN and any(self.assignable_declaration(it) is False for it in self.names.meant(entry))

    # -- operations

    def type_of_operation(self, o):
        e = self.names.d.operations[o].section("EXPRESSION")
        if e is None:
            return NONE
        if any(self.is_open(it, o, self.type_of_declaration) for it in rested_on(e)):
            return OPEN
        found = self.type_of(e, o, (), True)
        return REFUSED if found is None else found

    def assignable_operation(self, o):
        e = self.names.d.operations[o].section("EXPRESSION")
        if e is None:
            return False
        names = self.names
        if self.is_open(e, o, self.assignable_declaration):
            return OPEN
        if self.is_refused(e, o):
            return REFUSED
        if e[0] == "element":
            it = names.meaning(o, e[1])
            return True if is_array(it) else REFUSED
        if e[0] != "name":
            return False
        it = names.meaning(o, e[1])
        if it is None:
            return REFUSED
        if isinstance(it, Resource):
            return True if is_register(it) else False if it.sort == "pin" else REFUSED
        return self.all_of(it, self.assignable_declaration)

    # -- expressions

    def is_open(self, e, o, value):
        """The use is one of what is open, and not refused."""
        it = self.names.meaning(o, e[1]) if e[0] == "name" else None
        return isinstance(it, Entry) and not self.is_apart(it) and self.all_of(it, value) == OPEN

    def is_refused(self, e, o):
        """The use is at fault by itself, in an EXPRESSION."""
        names = self.names
        if e[0] == "name":
            it = names.meaning(o, e[1])
            return isinstance(it, Entry) and (self.is_apart(it) or self.lacks_type(it))
        if e[0] == "in":
            return not names.own_stage(o)
        if e[0] == "boundary":
            return not names.is_pipeline(e[1]) or not are_neighbours(names, e[2], e[3])
        return e[0] == "decoded"

    def type_of(self, e, o, scope, alone=False):
        """None where there is none; `alone` in an EXPRESSION, where what is refused has none."""
        names, kind = self.names, e[0]
        if alone and self.is_refused(e, o):
            return None
        if kind == "number":
            return number_type(False, e[1])
        if kind == "name":
            local = next((it for it in reversed(scope) if it[0] == e[1]), None)
            if local:
                return local[1]
            it = names.meaning(o, e[1])
            if isinstance(it, Resource):
                return (it.signed, it.width) if is_register(it) or it.sort == "pin" else None
            if isinstance(it, Entry):
                found = self.type_of_entry(it)
                return None if found in (OPEN, NONE, REFUSED) else found
            return None
        if kind == "element":
            it = names.meaning(o, e[1])
            local = any(it[0] == e[1] for it in scope)
            return (it.signed, it.width) if is_array(it) and not local else None
        if kind == "in":
            return names.field(e[1])
        if kind == "boundary":
            return names.field(e[4])
        if kind in ("decoded", "!"):
            return (False, 1)
        if kind == "cast":
            return e[1]
        if kind == "~":
            return self.type_of(e[1], o, scope, alone)
        if kind == "choose":
            return self.paired(e[2], e[3], o, scope, alone)
        if kind in ("<<", ">>"):
            return self.type_of(e[1], o, scope, alone)
        if kind in ("+", "-", "*", "&", "|", "^"):
            return self.paired(e[1], e[2], o, scope, alone)
        return (False, 1)

    def paired(self, a, b, o, scope, alone):
        x, y = self.type_of(a, o, scope, alone), self.type_of(b, o, scope, alone)
        if x is None or y is None:
            return None
        if a[0] == "number" and b[0] != "number":
            x = number_type(y[0], a[1])
        if b[0] == "number" and a[0] != "number":
            y = number_type(x[0], b[1])
        return (x[0] and y[0], max(x[1], y[1]))


def rested_on(e):
    """The parts of an expression that its type rests on."""
    if e[0] in ("~", "<<", ">>"):
        return rested_on(e[1])
    if e[0] == "choose":
        return rested_on(e[2]) + rested_on(e[3])
    if e[0] in ("+", "-", "*", "&", "|", "^"):
        return rested_on(e[1]) + rested_on(e[2])
    return [e]


def is_register(it):
    return isinstance(it, Resource) and (it.sort == "clocked" or it.sort == "register" and it.depth is None)


def is_array(it):
    return isinstance(it, Resource) and (it.sort == "memory" or it.sort == "register" and it.depth is not None)


def are_neighbours(names, before, after):
    a, b = names.stage(before), names.stage(after)
    return a is not None and b is not None and b == a + 1


# ---------------------------------------------------------------- 8

def wrong_value(names, types, it):
    return isinstance(it, Resource) and not is_register(it) and it.sort != "pin" or isinstance(it, Entry) and (types.lacks_type(it) or types.is_apart(it))


def wrong_kinds(names, types, place):
    o, what, data = place.operation, place.what, place.data
    name = data[0] if data else None
    local = place.local(name) if isinstance(name, str) else None
    it = names.meaning(o, name) if isinstance(name, str) else None
    own = names.own_stage(o) if o >= 0 else None
    if what == "resource":
        r = data[1]
        if r.sort == "fields" and not names.is_pipeline(r.name):
            yield r.name
    elif what == "head":
        yield from wrong_head(names, data[0])
    elif what == "declared":
        yield from wrong_declared(names, types, names.declared[o][name])
    elif what == "read":
        if not local and wrong_value(names, types, it):
            yield name
    elif what in ("read element", "write element"):
        if local or it is not None and not is_array(it):
            yield name
    elif what == "read in":
        if not own:
            yield name
    elif what == "write out":
        if own is None or own + 1 == len(names.stages()):
            yield name
    elif what == "read boundary":
        if not names.is_pipeline(name):
            yield name
        elif not are_neighbours(names, data[1], data[2]):
            yield data[3]
    elif what == "read decoded":
        if not names.is_root(o) or place.region not in ("BEHAVIOR", "ACTIVATION"):
            yield "decoded"
    elif what == "write":
        if local and local[2]:
            yield name
        elif not local and (isinstance(it, Resource) and not is_register(it) or isinstance(it, Entry) and (
                wrong_value(names, types, it) or types.is_unassignable(it))):
            yield name
    elif what == "head name":
        if not local and isinstance(it, Resource) and not is_register(it) and it.sort != "pin":
            yield name
    elif what == "call":
        if local or isinstance(it, Resource) or isinstance(it, Entry) and (types.is_apart(it) or any(m.sort == "LABEL" for m in names.meant(it))):
            yield name
    elif what in ("stall", "flush", "execute", "shift"):
        if not names.is_pipeline(name) or local:
            yield name
    else:
        yield from wrong_coded(names, types, place, it)


def wrong_coded(names, types, place, it):
    o, what, data = place.operation, place.what, place.data
    is_child = isinstance(it, Entry) and it.sort in ("GROUP", "INSTANCE")
    alternatives = names.plain(it) if is_child else []
    if what == "start":
        if it is not None and (not is_child or len(alternatives) > 1 and not names.in_coding(it)):
            yield data[0]
    elif what == "root place":
        if data[0][0] == "in":
            if not names.own_stage(o):
                yield data[0][1]
        else:
            register = names.meaning(o, data[0][1])
            if register is not None and not is_register(register):
                yield data[0][1]
    elif what == "root group":
        if it is not None and (not is_child or it.sort != "GROUP" or any(names.is_root(a) for a in it.alternatives)):
            yield data[0]
    elif what == "coding field":
        if it is not None and (not isinstance(it, Entry) or it.sort != "LABEL" or set(data[1]) != {"x"}):
            yield data[0]
    elif what == "coding child":
        if it is not None and (not is_child or any(names.own_stage(a) is not None or names.is_root(a) for a in it.alternatives)):
            yield data[0]
    elif what == "syntax number":
        if it is not None and (not isinstance(it, Entry) or it.sort != "LABEL" or names.field_of(it) is None):
            yield data[0]
    elif what == "syntax child":
        if it is not None and (not is_child or names.is_root(o) and names.in_coding(it)):
            yield data[0]


def wrong_head(names, operation):
    if operation.stage and not names.is_pipeline(operation.stage[0]):
        yield operation.stage[0]
    kinds = {kind for kind, _ in operation.sections}
    coding = operation.section("CODING")
    references = any(sort == "REFERENCE" for sort, _, _ in operation.section("DECLARE") or [])
    if operation.alias and (operation.name in ("main", "reset") or operation.stage or coding is None or coding[0] == "root" or references
                            or kinds & {"BEHAVIOR", "EXPRESSION", "ACTIVATION"}):
        yield operation.name


def wrong_declared(names, types, entry):
    if entry.sort in ("GROUP", "INSTANCE"):
        if not names.plain(entry) or any(names.is_coded(a) for a in entry.alternatives) and not names.in_coding(entry):
            yield entry.name
    elif entry.sort == "REFERENCE":
        sorts = {it.sort == "LABEL" for it in names.meant(entry)}
        if len(sorts) > 1 or types.differ(entry, types.type_of_declaration) or types.differ(entry, types.assignable_declaration):
            yield entry.name


# ---------------------------------------------------------------- 9 to 13

def bounds(s):
    """The numbers of a bounded loop."""
    _, shape, name, first, test, following, step, _ = s
    if shape is None or following != name or first[0] != "number" or test[0] != "<" or test[1] != ("name", name) or test[2][0] != "number":
        return None
    if step[0] != "+" or step[1] != ("name", name) or step[2][0] != "number" or step[2][1] < 1:
        return None
    return first[1], test[2][1], step[2][1]


def bad_widths(names, place):
    if place.what == "resource":
        r = place.data[1]
        if r.sort == "fields":
            yield from ((name, width) for _, width, name in r.parts if not 1 <= width <= 64)
        elif r.sort != "pipeline" and not 1 <= r.width <= 64:
            yield r.name, r.width
    elif place.what == "type":
        name, (_, width) = place.data
        if not 1 <= width <= 64:
            yield name, width
    elif place.what == "counter":
        s = place.data[0]
        found = bounds(s)
        if found and found[0] < found[1]:
            last = found[0] + (found[1] - 1 - found[0]) // found[2] * found[2]
            signed, width = s[1]
            if last >= 2 ** (width - signed):
                yield s[2], width
    elif place.what == "coding field":
        if not 1 <= len(place.data[1]) <= 64:
            yield place.data[0], len(place.data[1])


def bad_depths(names, place):
    if place.what == "resource":
        r = place.data[1]
        if r.depth is not None and (r.depth < 2 or r.depth > 1048576 or r.depth & (r.depth - 1)):
            yield r.name, r.depth


def narrowings(names, types, place):
    if place.what != "statement":
        return
    s, o, scope = place.data[0], place.operation, place.scope
    if s[0] == "local" and s[3] is not None:
        to, value = s[1], s[3]
    elif s[0] == "assign":
        to = names.field(s[1][1]) if s[1][0] == "out" else types.type_of(s[1], o, scope)
        value = s[2]
    else:
        return
    found = types.type_of(value, o, scope)
    if to and found and value[0] == "number":
        found = number_type(to[0], value[1])
    if to and found and found[1] > to[1]:
        yield found[1], to[1]


def turns(s):
    first, limit, step = bounds(s)
    return max(0, -((first - limit) // step)) if first < limit else 0


# ---------------------------------------------------------------- 14 to 18

def targets(names, o):
    """Where an operation leads to: what it lists, and what its references may mean."""
    found = set()
    for entry in names.entries:
        if entry.operation == o:
            for it in names.meant(entry):
                found |= set(it.alternatives)
    return found


def reaches_itself(names, o):
    seen, work = set(), [o]
    while work:
        for it in targets(names, work.pop()):
            if it == o:
                return True
            if it not in seen:
                seen.add(it)
                work.append(it)
    return False


def start_names(items):
    for item in items:
        if item[0] == "start":
            yield item[1]
        else:
            yield from start_names(item[2])
            yield from start_names(item[3] or [])


def started(names, o):
    """The alternatives that an operation activates, in order, with whether the root's group names them."""
    for name in start_names(names.d.operations[o].section("ACTIVATION") or []):
        entry = names.declared[o].get(name)
        if entry and entry.sort in ("GROUP", "INSTANCE"):
            by_root = names.is_root(o) and names.in_coding(entry)
            yield from ((a, by_root) for a in names.plain(entry))


def run_stages(names):
    """For each operation the stages in which it runs, None for none."""
    found = [set() for _ in names.d.operations]
    main = names.number.get("main")
    if main is None:
        return found
    work = [(main, names.own_stage(main))]
    while work:
        o, stage = work.pop()
        if stage in found[o]:
            continue
        found[o].add(stage)
        for a, _ in started(names, o):
            own = names.own_stage(a)
            work.append((a, stage if own is None else own))
    return found


def backward(names, runs, place):
    if place.what == "start":
        o = place.operation
        entry = names.declared[o].get(place.data[0])
        stages = [it for it in runs[o] if it is not None]
        for a in names.plain(entry) if entry and entry.sort in ("GROUP", "INSTANCE") else []:
            own = names.own_stage(a)
            if own is not None and stages and own < max(stages):
                yield names.d.operations[o].name, names.d.operations[a].name


def controls(names, place):
    if place.what in ("stall", "flush"):
        own = names.own_stage(place.operation)
        stage = names.stage(place.data[1])
        if names.d.operations[place.operation].name != "main" and (own is None or stage is None or own <= stage):
            yield names.d.operations[place.operation].name, place.data[1]


def is_bad_main(names, runs, all_places):
    main = names.number.get("main")
    if main is None or names.d.operations[main].stage or names.coding(main) is not None:
        return True
    for place in all_places:
        if place.what == "statement" and place.data[0][0] in ("execute", "shift"):
            _, top, behind = place.data
            if place.operation != main or not top or any(it[0] not in ("execute", "shift") for it in behind):
                return True
    return any(None in runs[o] and (names.own_stage(a) or 0) > 0 for o in range(len(runs)) for a, _ in started(names, o))


def is_bad_reset(names, all_places):
    reset = names.number.get("reset")
    if reset is None:
        return False
    operation = names.d.operations[reset]
    if operation.stage or any(kind not in ("BEHAVIOR", "SEMANTICS") for kind, _ in operation.sections):
        return True
    for place in all_places:
        if place.operation == reset:
            if place.what in ("read", "write") and not place.local(place.data[0]) and not is_register(names.meaning(reset, place.data[0])):
                return True
            if place.what in ("read element", "write element", "read in", "write out", "read boundary", "read decoded", "call"):
                return True
    return False


# ---------------------------------------------------------------- 19 to 21

class Widths:
    def __init__(self, names):
        self.names, self.kept = names, {}

    def operation(self, o):
        if o not in self.kept:
            coding, total = self.names.coding(o), 0
            if coding is None or coding[0] == "root":
                total = None
            else:
                for item in coding[1]:
                    width = len(item[-1]) if item[0] != "child" else self.child(self.names.declared[o][item[1]])
                    total = None if total is None or width is None else total + width
            self.kept[o] = total
        return self.kept[o]

    def child(self, entry):
        found = {self.operation(a) for a in entry.alternatives}
        return next(iter(found)) if len(found) == 1 and None not in found and max(found) <= 64 else None

    def is_uneven(self, entry):
        known = {self.operation(a) for a in entry.alternatives} - {None}
        return any(not self.names.is_coded(a) for a in entry.alternatives) or any(it > 64 for it in known) or len(known) > 1


def uneven(names, widths, place):
    o = place.operation
    if place.what == "coding child":
        if widths.is_uneven(names.declared[o][place.data[0]]):
            yield place.data[0]
    elif place.what == "root group":
        entry = names.declared[o][place.data[0]]
        register = names.coding(o)[1]
        own = names.field(register[1])[1] if register[0] == "in" else names.meaning(o, register[1]).width
        if widths.is_uneven(entry) or widths.child(entry) not in (None, own):
            yield place.data[0]


def not_written(names, place):
    o, what = place.operation, place.what
    if o < 0 or not names.is_coded(o):
        return
    items = names.coding(o)[1]
    syntax = [item for _, item in names.d.operations[o].section("SYNTAX") or []]
    coded = [item[1] for item in items if item[0] in ("field", "child")]
    shown = [item[1] for item in syntax if item[0] in ("number", "child")]
    if what == "declared":
        entry = names.declared[o][place.data[0]]
        if entry.sort == "LABEL" or entry.sort in ("GROUP", "INSTANCE") and entry.name in coded:
            if coded.count(entry.name) != 1 or shown.count(entry.name) != 1:
                yield entry.name
    elif what == "syntax child" and place.data[0] not in coded:
        yield place.data[0]


class Occurrences:
    """The unfolded tree of activations: (operation, parent, from, stage, past root), or too many."""

    MOST = 20000

    def __init__(self, names):
        self.names, self.all = names, []
        main = names.number.get("main")
        if main is not None:
            self.add(main, None, None, False)

    def add(self, o, parent, activator_stage, past):
        if len(self.all) > self.MOST:
            return
        own = self.names.own_stage(o)
        number = len(self.all)
        stage = activator_stage if own is None else own
        self.all.append((o, parent, activator_stage, stage, past))
        for a, by_root in started(self.names, o):
            self.add(a, number, stage, past or by_root)


# ---------------------------------------------------------------- 22

class Counts:
    """Statements and nodes, where texts are unfolded."""

    def __init__(self, names):
        self.names, self.kept = names, {}

    def alternatives(self, o, name):
        """The operations that a call or a child may choose."""
        it = self.names.meaning(o, name)
        if not isinstance(it, Entry):
            return []
        found = []
        for m in self.names.meant(it):
            found += [a for a in self.names.plain(m) if m.sort != "LABEL" and a not in found]
        return found

    def is_child(self, o, name, scope):
        it = self.names.meaning(o, name)
        return not any(local == name for local in scope) and isinstance(it, Entry) and all(m.sort != "LABEL" for m in self.names.meant(it))

    def value(self, o):
        """Nodes of an operation's expression."""
        if ("value", o) not in self.kept:
            e = self.names.d.operations[o].section("EXPRESSION")
            self.kept["value", o] = 0 if e is None else self.nodes(e, o, ())
        return self.kept["value", o]

    def child_nodes(self, o, name):
        return sum(1 + self.value(a) for a in self.alternatives(o, name))

    def nodes(self, e, o, scope):
        if e[0] == "name":
            return self.child_nodes(o, e[1]) if self.is_child(o, e[1], scope) else 1
        if e[0] == "element":
            return 1 + self.nodes(e[2], o, scope)
        return 1 + sum(self.nodes(it, o, scope) for it in e[1:] if isinstance(it, tuple) and it and isinstance(it[0], str))

    def behaviour(self, o):
        """Statements and nodes of an operation's behaviour."""
        if ("behaviour", o) not in self.kept:
            self.kept["behaviour", o] = self.list_of(self.names.d.operations[o].section("BEHAVIOR") or [], o, ())
        return self.kept["behaviour", o]

    def list_of(self, statements, o, scope):
        count, nodes = 0, 0
        for s in statements:
            found = self.statement(s, o, scope)
            count, nodes = count + found[0], nodes + found[1]
            if s[0] == "local":
                scope = scope + (s[2],)
        return count, nodes

    def statement(self, s, o, scope):
        kind, count, nodes = s[0], 1, 1
        inner = []
        if kind == "block":
            inner = [self.list_of(s[1], o, scope)]
        elif kind == "local":
            nodes += self.nodes(s[3], o, scope) if s[3] is not None else 0
        elif kind == "assign":
            nodes += (1 if s[1][0] == "out" else self.nodes(s[1], o, scope)) + self.nodes(s[2], o, scope)
        elif kind == "if":
            nodes += self.nodes(s[1], o, scope)
            inner = [self.list_of([it], o, scope) for it in s[2:] if it is not None]
        elif kind == "for":
            one = self.list_of([s[7]], o, scope + (s[2],))
            inner = [(one[0] * turns(s), one[1] * turns(s))]
        elif kind == "call":
            for a in self.alternatives(o, s[1]):
                found = self.behaviour(a)
                inner.append((found[0], found[1] + 1))
        return count + sum(it[0] for it in inner), nodes + sum(it[1] for it in inner)

    def items(self, items, o):
        nodes = 0
        for item in items:
            nodes += 1
            if item[0] != "start":
                nodes += self.nodes(item[1], o, ()) + self.items(item[2], o) + self.items(item[3] or [], o)
        return nodes


def item_count(names, occurrences):
    stages = names.stages()
    registers = sum(is_register(r) for r in names.d.resources)
    fields = max(0, len(stages) - 1) * len(names.fields)
    root = next((it for it in occurrences if names.is_root(it[0])), None)
    words = len(stages) - 1 - (root[3] or 0) if root and stages else 0
    bits_of = sum(it[3] - it[2] for it in occurrences if it[1] is not None and it[2] is not None and it[3] is not None)
    return registers + fields + max(0, words) + bits_of


def form_counts(names):
    kept = {}

    def of(o):
        if o not in kept:
            total = 1
            for item in names.coding(o)[1]:
                if item[0] == "child":
                    total *= sum(of(a) for a in names.declared[o][item[1]].alternatives)
            kept[o] = total
        return kept[o]

    root = next((o for o in range(len(names.d.operations)) if names.is_root(o)), None)
    return 0 if root is None else sum(of(a) for a in names.declared[root][names.coding(root)[2]].alternatives)


def sizes(names):
    d = names.d
    occurrences = Occurrences(names).all
    counts = Counts(names)
    statements = nodes = 0
    for o, *_ in occurrences:
        found = counts.behaviour(o)
        statements, nodes = statements + found[0], nodes + found[1] + counts.items(d.operations[o].section("ACTIVATION") or [], o)
    if "reset" in names.number:
        found = counts.behaviour(names.number["reset"])
        statements, nodes = max(statements, found[0]), max(nodes, found[1])
    arrays = [r for r in d.resources if is_array(r)]
    return [("stages", len(names.stages()), 8), ("pins", sum(r.sort == "pin" for r in d.resources), 64), ("operations", len(d.operations), 1024),
            ("arrays", len(arrays), 1024), ("cells", sum(r.depth for r in arrays), 4194304), ("forms", form_counts(names), 1024),
            ("occurrences", len(occurrences), 4096), ("items", item_count(names, occurrences), 8192), ("statements", statements, 4096),
            ("nodes", nodes, 4194304)]


# ---------------------------------------------------------------- the first fault

def first(all_places, test):
    for place in all_places:
        for found in test(place):
            return place, found
    return None


def fault(d):
    """The line of the first fault from 6 to 22, or None."""
    names = Names(d)
    all_places = list(places(d))

    def owner(place):
        return "" if place.operation < 0 else d.operations[place.operation].name

    shared = first_duplicate(names, all_places)
    if shared:
        return f"6 Duplicate name={shared}"
    found = first(all_places, lambda it: unknowns(names, it))
    if found:
        return f"7 Unknown operation={owner(found[0])} name={found[1]}"
    types = Types(names)
    found = first(all_places, lambda it: wrong_kinds(names, types, it))
    if found:
        return f"8 WrongKind operation={owner(found[0])} name={found[1]}"
    found = first(all_places, lambda it: bad_widths(names, it))
    if found:
        return f"9 BadWidth name={found[1][0]} width={found[1][1]}"
    found = first(all_places, lambda it: bad_depths(names, it))
    if found:
        return f"10 BadDepth name={found[1][0]} depth={found[1][1]}"
    found = first(all_places, lambda it: narrowings(names, types, it))
    if found:
        return f"11 Narrowing operation={owner(found[0])} from={found[1][0]} to={found[1][1]}"
    loops = [it for it in all_places if it.what == "statement" and it.data[0][0] in ("for", "while")]
    for it in loops:
        if it.data[0][0] == "while" or bounds(it.data[0]) is None:
            return f"12 LoopWithoutBound operation={owner(it)}"
    for it in loops:
        if turns(it.data[0]) > 256:
            return f"13 LoopTooLong operation={owner(it)} turns={turns(it.data[0])}"
    return later_fault(d, names, all_places)


def later_fault(d, names, all_places):
    for o, operation in enumerate(d.operations):
        if reaches_itself(names, o):
            return f"14 Circular operation={operation.name}"
    runs = run_stages(names)
    found = first(all_places, lambda it: backward(names, runs, it))
    if found:
        return f"15 Backward activator={found[1][0]} activated={found[1][1]}"
    found = first(all_places, lambda it: controls(names, it))
    if found:
        return f"16 Control operation={found[1][0]} stage={found[1][1]}"
    if is_bad_main(names, runs, all_places):
        return "17 BadMain"
    if is_bad_reset(names, all_places):
        return "18 BadReset"
    widths = Widths(names)
    found = first(all_places, lambda it: uneven(names, widths, it))
    if found:
        return f"19 GroupWidth operation={d.operations[found[0].operation].name} name={found[1]}"
    found = first(all_places, lambda it: not_written(names, it))
    if found:
        return f"20 NotWritten operation={d.operations[found[0].operation].name} name={found[1]}"
    roots = [o for o in range(len(d.operations)) if names.is_root(o)]
    occurrences = Occurrences(names).all
    for place, o in enumerate(roots):
        if place or sum(it[0] == o for it in occurrences) > 1:
            return f"21 RootTwice operation={d.operations[o].name}"
    for what, count, limit in sizes(names):
        if count > limit:
            return f"22 TooMany what={what} count={count} limit={limit}"
    return None
