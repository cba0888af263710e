#!/usr/bin/env python3
"""Whether what pages show of a terminal is what the program prints.

    shown.py PROGRAM [PAGE ..]

A page of docs/ shows a terminal in its indented lines: `$` stands before what is typed there, and below it what is printed. Below
`$ cat >FILE` stands what is typed into the file, and below a debugger's command the lines of its input, each before its answer. The lines of a
page are typed one after the other in one fresh folder, in which ./lisa is the program. Each command counts once."""

import os
import re
import shlex
import subprocess
import sys
import tempfile

TOP = os.path.dirname(os.path.dirname(os.path.abspath(__file__)))
PAGES = ["session.md", "verilog.md", "soak.md"]
INDENT = "    "
ASKED = re.compile(r"(step|until|show|cell|where|list|back|quit)( |$)")


def commands(page):
    """What is typed, each with the lines below it. What stands between fences isn't a terminal."""
    found = []
    with open(os.path.join(TOP, "docs", page), encoding="utf-8") as file:
        outside = re.sub(r"(?ms)^```$.*?^```$", "", file.read())
    shown = [line[len(INDENT):] for line in outside.split("\n") if line.startswith(INDENT)]
    for line in shown:
        if line.startswith("$ "):
            found.append((line[2:], []))
        elif found:
            found[-1][1].append(line)
    return found


def text(lines):
    return "".join(line + "\n" for line in lines)


def parted(typed, below):
    """The input of a command, and what it prints."""
    if typed.startswith("cat >"):
        return text(below), ""
    if re.match(r"\./lisa v?debug ", typed):
        return text(line for line in below if ASKED.match(line)), text(line for line in below if not ASKED.match(line))
    return "", text(below)


def differences(program, page):
    """How many commands there are, and what is wrong with some of them."""
    wrong, all = [], commands(page)
    with tempfile.TemporaryDirectory() as folder:
        with open(os.path.join(folder, "lisa"), "w", encoding="utf-8") as file:
            file.write(f"#!/bin/sh\nexec {shlex.quote(program)} \"$@\"\n")
        os.chmod(file.name, 0o755)
        os.symlink(os.path.join(TOP, "examples"), os.path.join(folder, "examples"))
        for typed, below in all:
            given, wanted = parted(typed, below)
            done = subprocess.run(["sh", "-c", typed], cwd=folder, input=given, capture_output=True, text=True, timeout=600)
            if done.stdout + done.stderr != wanted:
                wrong.append(f"{page}: $ {typed}\n  got    {done.stdout + done.stderr!r:.1000}\n  wanted {wanted!r:.1000}")
    return len(all), wrong


def main(words):
    if not words:
        print(__doc__)
        return 2
    program, passed, failed = os.path.abspath(words[0]), 0, 0
    for page in words[1:] or PAGES:
        count, wrong = differences(program, page)
        print("".join(one + "\n" for one in wrong), end="")
        passed, failed = passed + count - len(wrong), failed + len(wrong)
    print(f"{passed} passed, {failed} failed")
    return 1 if failed or not passed else 0


if __name__ == "__main__":
    sys.exit(main(sys.argv[1:]))
