#!/usr/bin/env python3
"""Brings this repository's own definitions and lemmas to the spelling of today's Rattle.

usage: python3 tools/respell.py [--list]     at the top of the repository, once, after port.py

Types and modules keep their camel case; every other name that specs/ or proofs/ declares goes to snake case. A dash is
kept between two names of functions, as in `length-padded`. Functions of src/, strings, inputs and outputs are not touched,
nor are the aliases of imports and the names of parameters. With --list it writes the old and new names and changes nothing.
It stops where two names would fall together. It ran once, over the proofs of that time: a tree with answer files is refused.
"""

import os
import re
import sys

# A name ends at blanks, brackets, marks and dots.
TOKEN = re.compile(r"[^`\s(){}\[\],;.⌜⌝@\\:]+|:+")
DECLARED = re.compile(r"^\s*((?:unfoldable |abbrev |pub |data |record |ruleset )*)([^\s(){}=,;:.]+)(?: \([^=]*\))*(?: \{[^=]*\})* :(?!=)")
BLOCK = re.compile(r"^\s*(?:pub )?(record|data) ")
CLAUSE = re.compile(r"^\s*(requires|ensures|ghost)\b")
# Words of the library that the names of lemmas join.
WORDS = {"length", "get_or", "set", "sets", "take", "drop", "map", "append", "replicate", "flat", "sum", "bit_or", "bit_and"}
# Where the plain rule would give two things one name, or the name of a word of the library.
CHOSEN = {"bit-and": "bit-bit_and", "bit-or": "bit-bit_or", "is-nan": "is_nan_lem", "readable_of": "readable_of_lem", "units_number": "units_number_lem"}
GOAL = re.compile(r" : tie\.|^(?:abbrev )?(?:invariant|decreases)-")


def files(root, ends):
    for folder, dirs, names in sorted(os.walk(os.path.join(root, "crates"))):
        dirs[:] = sorted(d for d in dirs if d not in ("out", "must-fail"))
        for n in sorted(names):
            if n.endswith(ends):
                yield os.path.join(folder, n)


def read(path):
    with open(path, encoding="utf-8") as f:
        return f.read()


def declared(path):
    """The names that a file declares, each with whether it is a field of a record or a case of a data type."""
    text, names, inside = read(path), [], None
    for line in text.splitlines():
        indent = len(line) - len(line.lstrip())
        if inside is not None and line.strip() and not line.lstrip().startswith("--") and indent <= inside:
            inside = None
        m = DECLARED.match(line)
        if m and not GOAL.search(line):
            names.append((m.group(2), inside is not None and not m.group(1).replace("pub", "").strip()))
        b = BLOCK.match(line)
        if b:
            inside = indent
    return names


def snake(name, functions):
    if not name[0].isalpha() and name[0] != "_":
        return name
    parts = name.split("-")
    if parts[0][:1].isupper():
        return "_".join([parts[0]] + [humps(p) for p in parts[1:]])
    parts = [humps(p) for p in parts]
    out = parts[0]
    for k in range(1, len(parts)):
        joins = out in functions and "_".join(parts[k:]) in functions
        out += ("-" if joins else "_") + parts[k]
    return out


def humps(part):
    part = part.replace("getD", "get_or")
    return re.sub(r"(?<=[a-z0-9'])([A-Z])", lambda m: "_" + m.group(1).lower(), part)


def renames(root):
    where, fields, specs = {}, set(), set()
    for path in files(root, ".antt"):
        for name, field in declared(path):
            where.setdefault(name, set()).add(path)
            if field:
                fields.add(name)
            elif "/specs/" in path:
                specs.add(name)
    functions = WORDS | {humps(n) for n in specs if n[:1].islower() and "-" not in n}
    new = {n: CHOSEN.get(n, snake(n, functions)) for n in where}
    # A lemma that would have its function's name gets `_lem`.
    for n in list(new):
        if "-" in n and any(new[m] == new[n] for m in new if m != n):
            new[n] += "_lem"
    return {a: b for a, b in new.items() if a != b}, where, fields


def imported(text):
    """The names that a file takes from modules that are not this repository's."""
    own = {c for c in os.listdir("crates")}
    taken = set()
    for m in re.finditer(r"use ([^\s{};]+?)\.\{([^}]*)\}", text):
        path = m.group(1).split(".")
        if not (path[0] == "Rattle" and len(path) > 1 and path[1] in own):
            taken |= {w.split(" as ")[-1].strip() for w in m.group(2).split(",")}
    return taken


def respelled(text, new, fields, declared_here):
    taken = imported(text) - declared_here

    def one(m):
        name = m.group(0)
        if name not in new or name in taken:
            return name
        before = text[max(0, m.start() - 1):m.start()]
        line = text[text.rfind("\n", 0, m.start()) + 1:m.start()]
        if before == "." and name not in fields and not re.match(r"\s*(?:ghost )?use ", line):
            return name
        return new[name]

    return TOKEN.sub(one, text)


def of_source(text, new, fields):
    """A .rt file: only its ghost imports and its clauses are respelled."""
    out, depth, inside = [], 0, False
    for line in text.splitlines(keepends=True):
        if line.startswith("ghost use ") or CLAUSE.match(line) or inside:
            clause = bool(CLAUSE.match(line)) or inside
            head = re.match(r"^\s*(?:requires|ensures)(?: \w+)? \{", line) if not inside else None
            cut = head.end() if head else 0
            out.append(line[:cut] + respelled(line[cut:], new, fields, set(new)))
            if clause:
                depth += line.count("{") - line.count("}")
                inside = depth > 0
        else:
            out.append(line)
    return "".join(out)


def main():
    if any(path.endswith("/Answers.antt") and "/proofs/" in path and path.count("/") > 4 for path in files(".", ".antt")):
        print("this tree has answer files: it was respelled before", file=sys.stderr)
        return 1
    new, where, fields = renames(".")
    said = {}
    for a in where:
        said.setdefault(new.get(a, a), set()).add(a)
    bad = {b: olds for b, olds in said.items() if len(olds) > 1}
    if "--list" in sys.argv:
        for a in sorted(new):
            print(a, new[a])
    for b in sorted(bad):
        print("falls together:", b, {a: sorted(where[a]) for a in bad[b]}, file=sys.stderr)
    for path in files(".", ".antt"):
        text = read(path)
        hidden = imported(text) & {new[t] for t in TOKEN.findall(text) if t in new}
        if hidden:
            bad[path] = hidden
            print("a library's names in", path + ":", sorted(hidden), file=sys.stderr)
    if "--list" in sys.argv:
        return 0
    if bad:
        return 1
    for path in list(files(".", ".antt")) + list(files(".", ".rt")):
        text = read(path)
        here = {n for n, _ in declared(path)} if path.endswith(".antt") else set()
        turned = respelled(text, new, fields, here) if path.endswith(".antt") else of_source(text, new, fields)
        if turned != text:
            with open(path, "w", encoding="utf-8") as f:
                f.write(turned)
    return 0


if __name__ == "__main__":
    sys.exit(main())
