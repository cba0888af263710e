#!/usr/bin/env python3
"""Whether each must-fail edit still applies: its file is there, and each text that it replaces stands in that file once.

    edits_apply.py

Looks at `crates/CRATE/must-fail/*.edit` and `tests/edits/CRATE/*.edit`. Nothing is proved; `tests/try_edits` tries them."""

import os
import sys

TOP = os.path.normpath(os.path.join(os.path.dirname(os.path.abspath(__file__)), ".."))


def edits():
    """The crate and the path of each edit, by crate."""
    found = []
    for crate in sorted(os.listdir(os.path.join(TOP, "crates"))):
        found += [(crate, path) for path in files(os.path.join("crates", crate, "must-fail"))]
    for crate in sorted(os.listdir(os.path.join(TOP, "tests", "edits"))):
        found += [(crate, path) for path in files(os.path.join("tests", "edits", crate))]
    return found


def files(folder):
    place = os.path.join(TOP, folder)
    return [os.path.join(folder, name) for name in sorted(os.listdir(place))] if os.path.isdir(place) else []


def fault(crate, path):
    """What is wrong with an edit, or None. Each pair of an edit applies to what the pairs before it made."""
    if not path.endswith(".edit"):
        return "its name doesn't end in .edit"
    if not os.path.isdir(os.path.join(TOP, "crates", crate, "src")):
        return f"there is no crate {crate}"
    if path.startswith("tests") and os.path.exists(os.path.join(TOP, "crates", crate, "must-fail", os.path.basename(path))):
        return "the crate has one of that name in must-fail/"
    with open(os.path.join(TOP, path), encoding="utf-8") as edit:
        lines = edit.read().splitlines()
    name = old = None
    texts, was = {}, {}
    for line in lines:
        if line.startswith("file: "):
            name = line[len("file: "):].strip()
            place = os.path.join(TOP, "crates", crate, name)
            if not name.startswith(("src/", "specs/", "proofs/")) or not os.path.isfile(place):
                return f"there is no file {name}"
            if name not in texts:
                with open(place, encoding="utf-8") as file:
                    texts[name] = was[name] = file.read()
        elif line.startswith("old: "):
            old = line[len("old: "):]
        elif line.startswith("new:"):
            if name is None or not old:
                return "a new text stands before a file and an old text"
            count = texts[name].count(old)
            if count != 1:
                return f"this text stands in {name} {count} times: {old}"
            texts[name] = texts[name].replace(old, line[len("new:"):].removeprefix(" "))
            old = None
    if old:
        return f"no new text stands behind this one: {old}"
    return "it changes nothing" if texts == was else None


def main():
    passed = failed = 0
    for crate, path in edits():
        wrong = fault(crate, path)
        if wrong:
            print(f"{path}: {wrong}")
        passed += not wrong
        failed += bool(wrong)
    print(f"{passed} passed, {failed} failed")
    return 1 if failed else 0


if __name__ == "__main__":
    sys.exit(main())
