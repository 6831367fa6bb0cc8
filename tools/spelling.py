#!/usr/bin/env python3
"""Brings the repository's own definitions and lemmas to today's spelling: words in snake case.

usage: python3 tools/spelling.py [ROOT]     once, behind port.py, on its commit

A name that the .antt files below ROOT/crates declare, and that has an inner capital (letterOf) or a dash (bases-length), gets underscores:
letter_of, bases_length. Types, modules, names that begin with a capital, and whatever the library or the prover names keep theirs.
Where a definition and a lemma fall together (cardBest, card-best), the lemma ends in _lem (card_best_lem).
Changed are .antt files, and in .rt files and .edit files the words of clauses and of comments: a function of src/ has no such name.
Prints what was renamed, one a line: old TAB new.
"""

import collections
import os
import re
import sys

WORD = re.compile(r"[A-Za-z_][\w?'\-]*")
HEAD = re.compile(r"^(\s*)((?:(?:pub|abbrev|unfoldable|data|record|ruleset) )*)([A-Za-z_][\w?'\-]*)(\s*)(.*)$")
NOT_NAMES = {"use", "where", "let", "unfolding", "module", "in", "open", "elim", "mutual"}


def files(root, *endings):
    for top in ("crates", "tests/edits"):
        for folder, dirs, names in os.walk(os.path.join(root, top)):
            dirs[:] = sorted(d for d in dirs if d != "out")
            for name in sorted(names):
                if name.endswith(endings):
                    yield os.path.join(folder, name)


def text_of(path):
    with open(path, encoding="utf-8") as f:
        return f.read()


def declared(root):
    """The names that .antt files declare, but for those of the files that prove one function."""
    names = set()
    for path in files(root, ".antt"):
        if os.path.basename(path) == "Proof.antt":
            continue
        for line in text_of(path).splitlines():
            m = HEAD.match(line)
            if not m or line.lstrip().startswith("--") or m.group(3) in NOT_NAMES:
                continue
            rest = m.group(5)
            if m.group(2) or rest.startswith(": ") or rest == ":":
                names.add(m.group(3))
    return names


def imported(root):
    """The names that come from elsewhere, and the module that each comes from."""
    own = set(os.listdir(os.path.join(root, "crates")))
    names = set()
    for path in files(root, ".antt", ".rt"):
        for module, words in re.findall(r"use ([^\s{}]+)\.\{([^}]*)\}", text_of(path)):
            parts = module.split(".")
            if parts[0] == "Rattle" and parts[1] in own:
                continue
            names |= {w.strip() for word in words.split(",") for w in word.split(" as ")}
    return names


def snake(name):
    if not re.match("[a-z]", name):
        return name
    return re.sub(r"(?<=[a-z0-9])([A-Z])", lambda m: "_" + m.group(1).lower(), name).replace("-", "_")


def renamed(root):
    names = declared(root)
    elsewhere = imported(root)
    groups = collections.defaultdict(list)
    for name in sorted(names):
        groups[snake(name)].append(name)
    new = {}
    for to, group in groups.items():
        for name in group:
            if name in elsewhere:
                continue
            becomes = to
            if len(group) > 1 and "-" in name:
                becomes = to + "_lem"
            if becomes != name:
                new[name] = becomes
    return new


def turn(path, new):
    old = text_of(path)
    text = WORD.sub(lambda m: new.get(m.group(0), m.group(0)), old)
    if text != old:
        with open(path, "w", encoding="utf-8") as f:
            f.write(text)


def main(argv):
    root = argv[0] if argv else "."
    new = renamed(root)
    for path in list(files(root, ".antt", ".rt", ".edit")):
        turn(path, new)
    for name in sorted(new):
        print(name + "\t" + new[name])


if __name__ == "__main__":
    main(sys.argv[1:])
