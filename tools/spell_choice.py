#!/usr/bin/env python3
"""Renames this repository's own choice by a test, `if◌then◌else◌` of base/specs/Choice.antt, to `when◌then◌else◌`: `rt ci` keeps the older name for
the library's. Only the name changes. Run after tools/spell_names.py; a second run changes nothing.

In .antt files the word `if` outside comments is this operator and nothing else; in .rt files and must-fail edits it is on lines with `then`, in edits of .antt files on all.
"""
import glob
import os
import re

ROOT = os.path.join(os.path.dirname(os.path.abspath(__file__)), "..")
WORD = re.compile(r"(?<![\w\-◌.'])if(?![\w\-◌'+])")


def code_of(line, mark):
    """The line up to its comment, and the comment."""
    at = re.search(r"(^|\s)" + mark, line)
    return (line[: at.start()], line[at.start() :]) if at else (line, "")


def turned(text, mark, every):
    antt = re.search(r"(?m)^file: \S+\.antt$", text)
    lines = []
    for line in text.split("\n"):
        code, comment = code_of(line, mark)
        code = code.replace("if◌then◌else◌", "when◌then◌else◌")
        if every or re.search(r"\bthen\b", code) or mark == "#" and not re.search(r"[{}]", code) and antt:
            code = WORD.sub("when", code)
        lines.append(code + comment.replace("if◌then◌else◌", "when◌then◌else◌"))
    return "\n".join(lines)


def main():
    changed = 0
    for pattern, mark, every in (("*.antt", "--", True), ("*.rt", "//", False), ("*.edit", "#", False)):
        for path in sorted(glob.glob(os.path.join(ROOT, "crates", "**", pattern), recursive=True)):
            if "/out/" in path:
                continue
            with open(path, encoding="utf-8") as file:
                old = file.read()
            new = turned(old, mark, every)
            if new != old:
                with open(path, "w", encoding="utf-8") as file:
                    file.write(new)
                changed += 1
    print(f"{changed} files changed")


main()
