#!/usr/bin/env python3
"""What the top call's contract and the laws on it rest on: the files of specs/ that they reach.

trusted.py            prints them, crate by crate, and how many lines they have; tells the files with a proof term in them
trusted.py --all      tells the files with a proof term among all files of specs/

A file is reached where the file of the top call, one with a law of the README's table, or a file that is reached imports it. A
stranger who wants to know what is proved reads these files and believes nothing else of specs/. A proof term has nothing to do there: it
says why something holds, not what is meant.

A definition counts as a proof term where it is abstract, or where a word of proofs stands in it (`refl`, `subst`, a tactic ..). antt keeps
every definition closed that is neither an `abbrev` nor `unfoldable`, nor a `record` or `data`: what it is made of can't matter to a
contract, and only its type does. In specs/ these are lemmas.

The status is 1 where a file with a proof term is reached that isn't among the known exceptions below, or where one of these has none any
more. The last line is `N passed, M failed`: the files that are reached, and those that shouldn't be as they are."""

import os
import re
import sys

TOP = os.path.dirname(os.path.dirname(os.path.abspath(__file__)))
CALL = "crates/lisa_cli/src/top.rt"
LAWS = ("headline_laws/src/laws.rt", "program_laws/src/laws.rt", "program_laws/src/refusals.rt", "command_promises/src/laws.rt",
        "command_promises/src/steps.rt", "verdict_promises/src/laws.rt", "assembler_commands/src/laws.rt", "listing_promises/src/laws.rt",
        "memory_commands/src/laws.rt", "soak_laws/src/laws.rt", "source_grammar/src/laws.rt", "hex_files/src/laws.rt", "vcd_trace/src/laws.rt")

# Files that are reached and have lemmas in them today: each ought to go to proofs/, or out of the top call's sight.
KNOWN = ()

IMPORT = re.compile(r"^\s*(?:ghost |pub )*use\s+Rattle\.([A-Za-z_0-9.]+)")
SIGNATURE = re.compile(r" *(?:pub )?([^\s:(){}=]+) : ")
HOLDS_ITS_LINES = re.compile(r" *(?:(?:abbrev |unfoldable |pub )*(?:record|data|mutual)\b|where$)")
IS_OPEN = re.compile(r" *(?:abbrev|unfoldable|use|pub use|pub mod|mod|module|open|syntax|unfolding)\b")
PROOF_WORD = re.compile(r"(?<![\w.'-])(refl|ap|ap₂|subst|absurd|cc|omega|grind|simp|rw|hlevel|assumption)(?![\w'-])")


def file_of(path):
    """The file of specs/ that an import leads to, through the crates that pass it on, or None: a type that the code declares, or a file of the
    kit or of proofs/."""
    parts = path.rstrip(".").split(".")
    while len(parts) > 3 and parts[1] == "specs" and os.path.isdir(os.path.join(TOP, "crates", parts[2])):
        parts = [parts[2], "specs", *parts[3:]]
    if len(parts) < 3 or parts[1] != "specs" or parts[2] == "declared":
        return None
    for end in range(len(parts), 2, -1):
        name = "/".join(["crates", parts[0], "specs", *parts[2:end]]) + ".antt"
        if os.path.isfile(os.path.join(TOP, name)):
            return name
    return None


def lines_of(name):
    with open(os.path.join(TOP, name), encoding="utf-8") as file:
        return file.read().split("\n")


def imports(name):
    found = (file_of(it[1]) for it in map(IMPORT.match, lines_of(name)) if it)
    return [it for it in dict.fromkeys(found) if it]


def reached_from(*names):
    """The files that are reached, by a way from one of these to each."""
    ways, waiting = {name: [name] for name in names}, list(names)
    while waiting:
        at = waiting.pop(0)
        for it in imports(at):
            if it not in ways:
                ways[it] = ways[at] + [it]
                waiting.append(it)
    return {name: way for name, way in ways.items() if name not in names}


def proof_terms(name):
    """The names of a file's abstract definitions, and the words of proofs that stand in others."""
    found, inside = [], None
    for line in lines_of(name):
        text = line.split("--")[0].rstrip()
        if not text.strip() or re.match(r"\s*use\b", text):
            continue
        depth = len(text) - len(text.lstrip())
        # (the fields of a record, the cases of a data type, the definitions of a mutual block and those behind `where` stand below its head)
        if inside is None or depth <= inside:
            inside = None
            it = SIGNATURE.match(text)
            if HOLDS_ITS_LINES.match(text):
                inside = depth
            elif it and not IS_OPEN.match(text):
                found.append(it[1])
                inside = depth
        found += PROOF_WORD.findall(text)
    return list(dict.fromkeys(found))


def told(names):
    return f"{len(names)} files of specs/ with {sum(len(lines_of(it)) - 1 for it in names)} lines, of {len({it.split('/')[1] for it in names})} crates"


def main(words):
    if words not in ([], ["--all"]):
        print(__doc__)
        return 2
    if words:
        every = sorted(os.path.join(at, file)[len(TOP) + 1:] for at, _, files in os.walk(os.path.join(TOP, "crates"))
                       if "/specs" in at and "/out" not in at for file in files if file.endswith(".antt"))
        for name in every:
            if proof_terms(name):
                print(f"{name}: {' '.join(proof_terms(name))}")
        return 0
    laws = [f"crates/{it}" for it in LAWS]
    alone, ways = reached_from(CALL), reached_from(CALL, *laws)
    crates = {}
    for name in ways:
        crates.setdefault(name.split("/")[1], []).append(name)
    for crate, names in crates.items():
        print(f"{crate}: " + " ".join(os.path.basename(it)[:-5] for it in sorted(names)))
    print(f"{CALL} reaches {told(alone)}; with the laws on it {told(ways)}")
    failed = 0
    for name in sorted(ways):
        found = proof_terms(name)
        if found and name in KNOWN:
            print(f"{name} has proof terms, which is known and not wanted: {' '.join(found)}")
        elif found:
            print(f"{name} has proof terms: {' '.join(found)}\n  reached by {' '.join(ways[name])}")
            failed += 1
    for name in KNOWN:
        if name not in ways or not proof_terms(name):
            print(f"{name} is no exception any more: take it from the list in tests/trusted.py")
            failed += 1
    print(f"{len(ways) - failed} passed, {failed} failed")
    return 1 if failed else 0


if __name__ == "__main__":
    sys.exit(main(sys.argv[1:]))
