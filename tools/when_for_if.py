#!/usr/bin/env python3
"""when_for_if.py     (run at the repository's top; again does no harm)

The toolchain keeps the operator `if◌then◌else◌` for its library's, which computes away where it stands, so
that a law about a choice no longer finds it. Ours, which stays where it stands, is `when◌then◌else◌` from here on:
definitions, clauses, proofs and edits read `when a then x else y`."""
import os
import re

WORD = re.compile(r"(?<![\w.-])if(?![\w◌-])")


def code(line, change):
    """the line with its code changed and its comment as it is"""
    if line.lstrip().startswith("--"):
        return line
    at = re.search(r"(^|\s)-- ", line)
    return change(line[: at.start()]) + line[at.start():] if at else change(line)


def antt(text):
    return "".join(code(line, lambda t: WORD.sub("when", t)) for line in text.splitlines(True))


def clauses(text):
    """in a .rt file only what stands in the braces of a clause"""
    out, at = [], 0
    for head in re.finditer(r"\b(?:requires|ensures)(?: \w+)? \{", text):
        if head.start() < at or text.rfind("//", text.rfind("\n", 0, head.start()) + 1, head.start()) >= 0:
            continue
        depth, end = 1, head.end()
        while depth:
            depth += {"{": 1, "}": -1}.get(text[end], 0)
            end += 1
        out += [text[at:head.end()], WORD.sub("when", text[head.end():end])]
        at = end
    return "".join(out) + text[at:]


def edit(text):
    """an edit of a definition, or the lines of an edit of code that hold a clause"""
    of_antt = re.search(r"^file: .*\.antt$", text, re.M)
    lines = text.splitlines(True)
    for k, line in enumerate(lines):
        if line.startswith(("old:", "new:")) and (of_antt or re.search(r"\b(requires|ensures)\b|≡|\bthen\b", line)):
            lines[k] = code(line, lambda t: WORD.sub("when", t))
    return "".join(lines)


for folder, inner, names in os.walk("crates"):
    inner[:] = [name for name in inner if name != "out"]
    for name in names:
        change = {".antt": antt, ".rt": clauses, ".edit": edit}.get(os.path.splitext(name)[1])
        if change:
            path = os.path.join(folder, name)
            old = open(path, encoding="utf-8").read()
            new = change(old).replace("if◌then◌else◌", "when◌then◌else◌")
            if new != old:
                open(path, "w", encoding="utf-8").write(new)
