#!/usr/bin/env python3
"""Brings this repository's own definitions and lemmas to the spelling of today's Rattle, once, after port.py.

usage: tools/respell.py [FOLDER]     the top of a checkout that port.py has turned; without it the one that this script lies in

Words are in snake case, types and modules in camel case. A dash joins two names, as in has-and (has of a bitwise and); a plain word is added with an underscore.
Functions, types and fields of src/, strings, inputs and outputs keep their names, and so do the goals that the check names after a loop or a call.
"""

import os
import re
import sys

# what a dash may join a name to: a relation, or a function of the library or of this repository
JOINED = {"lt", "le", "and", "or", "not", "zero", "suc", "has"}
# answers named after a loop's label or a call: the check makes these names
MADE = re.compile(r"^(returns|loop|overflow|index|slice|slice_bounds|offset|offset_bounds|invariant|invariant_of|decreases|bounds|if|prove|nonzero|then|else|in)-|-(init|preserved|smaller|requires)$")
# a token of a clause or a proof, up to a dot or a bracket
TOKEN = re.compile(r"[^\s(){}\[\].,;:λ→←≡×`\"]+")
DEFINED = re.compile(r"^\s*(?:abbrev pub |unfoldable pub |abbrev |unfoldable |pub )?([^\s:(){}]+)\s*(?:\([^)]*\)\s*)*:(?!=)")
GHOST = re.compile(r"^\s*(?:pub )?ghost (\w+)(?:: | = )\{")
ALIAS = re.compile(r"\bas ([a-z]\w*)")


# names that would fall together with another: a ghost member with the function beside it, and a name with a lemma that port.py respelled or one below
CHOSEN = {"atMost": "is_at_most", "noneOf": "counts_nothing", "emptySystem": "empty_environment"}


def respelled(name):
    """The name in today's spelling."""
    if name in CHOSEN:
        return CHOSEN[name]
    if MADE.search(name) or not re.match(r"^[a-z]", name):
        return name
    parts = [re.sub(r"(?<=[a-z0-9])([A-Z])", lambda m: "_" + m.group(1).lower(), p) for p in name.split("-")]
    out = parts[0]
    for p in parts[1:]:
        out += ("-" if p in JOINED and p == parts[-1] and len(parts) == 2 else "_") + p
    return out


def files(top, endings):
    for folder, dirs, names in os.walk(os.path.join(top, "crates")):
        dirs[:] = sorted(d for d in dirs if d != "out")
        for n in sorted(names):
            if n.endswith(endings):
                yield os.path.join(folder, n)


def read(path):
    with open(path, encoding="utf-8") as f:
        return f.read()


def names_of(top):
    """Each name that is defined in specs/ or proofs/, as a ghost member or as an alias of a ghost use, with the files that have it."""
    found = {}
    for path in files(top, (".antt", ".rt")):
        in_antt = path.endswith(".antt")
        for line in read(path).split("\n"):
            if in_antt:
                m = DEFINED.match(line)
                if m and m.group(1) not in ("let", "in"):
                    found.setdefault(m.group(1), set()).add(path)
                if line.startswith("use "):
                    for alias in ALIAS.findall(line):
                        found.setdefault(alias, set()).add(path)
            else:
                m = GHOST.match(line)
                if m:
                    found.setdefault(m.group(1), set()).add(path)
                if line.startswith("ghost use "):
                    for alias in ALIAS.findall(line):
                        found.setdefault(alias, set()).add(path)
    return found


def main(argv):
    top = os.path.abspath(argv[0]) if argv else os.path.dirname(os.path.dirname(os.path.realpath(__file__)))
    names = names_of(top)
    table = {n: respelled(n) for n in names if respelled(n) != n}
    # names that fall together: the new spelling of one is the name of another
    all_names = set(names)
    for old, new in sorted(table.items()):
        others = sorted(o for o, n in table.items() if n == new and o != old) + ([new] if new in all_names else [])
        if others:
            print(f"falls together: {old} -> {new}, also {', '.join(others)}")
    changed = 0
    pages = [os.path.join(top, "README.md")] + [os.path.join(top, "docs", n) for n in sorted(os.listdir(os.path.join(top, "docs"))) if n.endswith(".md")]
    for path in [*files(top, (".antt", ".rt")), *pages]:
        old = read(path)
        if path.endswith(".md"):
            # in pages only names in backquotes
            new = re.sub(r"`[^`\n]*`", lambda m: TOKEN.sub(lambda t: table.get(t.group(), t.group()), m.group()), old)
        else:
            new = "\n".join(line if re.match(r"\s*(//|--)", line) else TOKEN.sub(lambda t: table.get(t.group(), t.group()), line) for line in old.split("\n"))
        if new != old:
            changed += 1
            with open(path, "w", encoding="utf-8") as f:
                f.write(new)
    print(f"{len(table)} names respelled, {changed} files changed")
    for old, new in sorted(table.items()):
        print(f"  {old} -> {new}")


if __name__ == "__main__":
    main(sys.argv[1:])
