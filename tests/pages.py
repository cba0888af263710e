#!/usr/bin/env python3
"""Whether the pages of the repository lead to what there is.

pages.py

Each crate of crates.txt has a page crates/NAME/README.md, which says what is proved of it and what is only tested. Each relative link of
a page leads to a file or folder. Where a link to a .rt or .antt file has names in code quotes, each is a function, clause, type or
definition of that file. Of a crate's page, each name that stands in brackets, alone or with others, is a function, clause, type or
definition of the crate, and each other name in code quotes is a word of its files or of a document.

The last line is `N passed, M failed`, where each page, link and name counts once."""

import os
import re
import sys

TOP = os.path.dirname(os.path.dirname(os.path.abspath(__file__)))
LINK = re.compile(r"\[([^\]]*)\]\(([^)\s]+)\)")
QUOTED = re.compile(r"`([^`]+)`")
NAME = re.compile(r"\w+(?:::\w+)?")
# Names in brackets and nothing else.
LISTED = re.compile(r"\(((?:`[\w:]+`(?:, | and )?)+)\)")

passed = failed = 0


def test(holds, page, what):
    global passed, failed
    passed += bool(holds)
    failed += not holds
    if not holds:
        print(f"{page}: {what}")


def text_of(name):
    with open(os.path.join(TOP, name), encoding="utf-8") as file:
        return file.read()


def files_below(folder, *endings):
    for at, folders, files in os.walk(os.path.join(TOP, folder)):
        folders[:] = sorted(it for it in folders if it not in (".git", "out", "__pycache__"))
        for file in sorted(files):
            if file.endswith(endings):
                yield os.path.relpath(os.path.join(at, file), TOP)


def crates():
    rows = (line.partition("#")[0] for line in text_of("crates.txt").split("\n"))
    return [row.split(":")[0].split()[0] for row in rows if row.strip()]


def is_defined(name, text, is_code):
    """Whether a file's text has a definition of a name: `Type::function` stands for both."""
    for part in name.split("::"):
        if is_code:
            form = rf"\b(?:fn|ensures\*?|requires\*?|ghost|struct|enum|trait|type|const|mod)\s+{part}\b|\nimpl\b.*\b{part}\b"
        else:
            form = rf"(?m)^ *(?:(?:abbrev|unfoldable|pub|record|data) )*{part}(?: :| \(| \{{|$)"
        if not re.search(form, text):
            return False
    return True


def test_links(page, text):
    for words, target in LINK.findall(text):
        if re.match(r"[a-z]+:", target):
            continue
        path, _, part = target.partition("#")
        file = os.path.normpath(os.path.join(os.path.dirname(page), path)) if path else page
        test(os.path.exists(os.path.join(TOP, file)), page, f"there is no {target}")
        if part and file.endswith(".md") and os.path.isfile(os.path.join(TOP, file)):
            heads = [re.sub(r"[^\w\- ]", "", it.lower()).replace(" ", "-") for it in re.findall(r"(?m)^#+ (.*)$", text_of(file))]
            test(part in heads, page, f"{file} has no head {part}")
        if file.endswith((".rt", ".antt")) and os.path.isfile(os.path.join(TOP, file)):
            for name in QUOTED.findall(words):
                if NAME.fullmatch(name):
                    test(is_defined(name, text_of(file), file.endswith(".rt")), page, f"{file} has no {name}")


def test_names(crate, page, text, known):
    folder = f"crates/{crate}"
    code = "\n".join(map(text_of, files_below(folder, ".rt")))
    specs = "\n".join(map(text_of, files_below(f"{folder}/specs", ".antt")))
    proofs = "\n".join(map(text_of, files_below(f"{folder}/proofs", ".antt")))
    listed = set()
    for names in LISTED.findall(text):
        listed.update(QUOTED.findall(names))
    for name in sorted(listed):
        test(is_defined(name, code, True) or is_defined(name, specs, False), page, f"{crate} has no {name}")
    words = set(re.findall(r"\w+", "\n".join((code, specs, proofs)))) | known
    for name in sorted(set(QUOTED.findall(text)) - listed):
        if NAME.fullmatch(name):
            test(all(part in words for part in name.split("::")), page, f"{name} stands nowhere")


def main():
    names = crates()
    documents = "\n".join(map(text_of, files_below("docs", ".md")))
    known = set(names) | {os.path.basename(it) for it in files_below("tests", "")} | set(re.findall(r"\w+", documents))
    for page in files_below(".", ".md"):
        test_links(page, text_of(page))
    for crate in names:
        page = f"crates/{crate}/README.md"
        there = os.path.isfile(os.path.join(TOP, page))
        test(there, page, "there is no such page")
        if there:
            text = text_of(page)
            heads = ("# " + crate, "## What is proved", "## What is only tested")
            test(text.split("\n")[0] == heads[0] and all(f"\n{it}\n" in text for it in heads[1:]), page, f"its heads are {heads}")
            test_names(crate, page, text, known)
    for page in files_below("crates", "README.md"):
        test(page.count("/") > 2 or page.split("/")[1] in names, page, "crates.txt has no such crate")
    print(f"{passed} passed, {failed} failed")
    return 1 if failed else 0


if __name__ == "__main__":
    sys.exit(main())
