#!/usr/bin/env python3
"""snake_names.py [--list]     (run at the repository's root, once)

Brings the repository's own definitions, lemmas and fields of records to snake case, as today's Rattle
spells words: `ascendingMore` and `ascending-more` become `ascending_more`. Types, modules, functions of
src/, generated names, strings, inputs and outputs keep theirs. --list prints what would change."""
import os
import re
import sys

HEAD = re.compile(r"^\s*(?:unfoldable pub |abbrev pub |pub |abbrev |unfoldable )?((?:[^\s(){}\[\].,;:λ]+ )+): ")
ANTT = re.compile(r"[^\s(){}\[\].,;\"`«»]+")
RUST = re.compile(r"\b[a-z][a-z0-9]*[A-Z]\w*")
# kept: what Rattle itself names in the proof of a function
MADE = re.compile(r"^(invariant|decreases|loop|returns)-|-(spec|init|preserved|smaller|requires)(-\d+)?$")


# names in edits that an earlier script has turned in the files
EDITS = {"parentOf": "parent_of", "typeOf": "type_of", "getD": "get_or", "ofZ": "of_z", "linkAt": "link_at", "endsAt": "ends_at", "onPath": "on_path", "ltZ": "lt_z"}
# definitions that an earlier script has turned, with a lemma of the same words
LEMMAS_OF = {"and_then", "parent_of"}


def snake(name):
    name = re.sub(r"([a-z0-9])([A-Z])", lambda m: m.group(1) + "_" + m.group(2).lower(), name)
    return name.replace("-", "_")


def wanted(name):
    if not re.match(r"^[a-z]", name) or not (re.search(r"[a-z0-9][A-Z]", name) or "-" in name):
        return False
    return not MADE.search(name)


def files(*endings):
    for root, _, names in os.walk("crates"):
        if "/out" in root:
            continue
        for name in sorted(names):
            if name.endswith(endings):
                yield os.path.join(root, name)


def declared():
    found, plain = set(), set()
    for path in files(".antt"):
        made = "/proofs/" in path and not re.search(r"/proofs/[^/]+\.antt$", path)
        for line in open(path, encoding="utf-8"):
            if line.lstrip().startswith("--"):
                continue
            head = HEAD.match(line.split("  -- ")[0])
            if head:
                for name in head.group(1).split():
                    (found if wanted(name) and not (made and "-" in name) else plain).add(name)
            for name in re.findall(r"\blet ([^\s:=(){}]+) [:=]", line):
                (found if wanted(name) and not (made and "-" in name) else plain).add(name)
    return found, plain


def main():
    found, plain = declared()
    turned = {}
    for name in sorted(found):
        turned.setdefault(snake(name), []).append(name)
    for new, olds in sorted(turned.items()):
        if len(olds) > 1 or new in plain:
            print("falls together:", new, "from", " ".join(olds), "and a plain one" if new in plain else "")
    # a lemma that would have its definition's name
    new_of = {name: snake(name) for name in found}
    for new, olds in turned.items():
        for name in olds:
            if "-" in name and (len(olds) > 1 or new in LEMMAS_OF):
                new_of[name] = new + "_lem"
    if "--list" in sys.argv:
        for name in sorted(new_of):
            print(name, new_of[name])
        return
    changed = 0
    # a lemma that an earlier script gave the name which its definition gets here
    path = "crates/starting/proofs/ReachLaws.antt"
    text = open(path, encoding="utf-8").read()
    open(path, "w", encoding="utf-8").write(re.sub(r"\bfrom_start\b", "from_start_lem", text))
    for path in files(".antt", ".rt", ".edit"):
        old, here = open(path, encoding="utf-8").read(), new_of
        # a lemma of a library that has the name of one of ours stays
        for module, names in re.findall(r"^use (\S+)\.\{([^}]*)\}", old, re.M):
            if not os.path.isdir("crates/" + (module.split(".") + [""])[1]):
                here = {name: new for name, new in here.items() if name not in names.split(", ")}
        if path.endswith(".rt"):
            new = RUST.sub(lambda m: here.get(m.group(0), m.group(0)), old)
        else:
            new = ANTT.sub(lambda m: here.get(m.group(0), (EDITS if path.endswith(".edit") else {}).get(m.group(0), m.group(0))), old)
        if new != old:
            open(path, "w", encoding="utf-8").write(new)
            changed += 1
    print(f"{len(new_of)} names in {changed} files")


main()
