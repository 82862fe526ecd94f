#!/usr/bin/env python3
"""Respells this repository's own definitions and lemmas as the newer Rattle spells names.

usage: respell.py [--list]     at the top of the repository, once, after the kit's port.py

Own names are those that a file of crates/*/specs/ or crates/*/proofs/ declares, at its top or inside; what stands in proofs/F/
is named by Rattle. A name in small letters gets _ between its words, a type or a fact capitals. Only between the names of two
functions does a lemma keep its dash, as in length-row_spots. ? and the prime go. --list prints what would change.
"""
import os
import re
import sys

TOKEN = re.compile(r"[^\s(){}\[\],;:@\"λ|&.«»]+")
DECLARED = re.compile(
    r"^\s*(?:(?:abbrev|unfoldable|opaque|pub|record|data)\s+)*([^\s(){}\[\],;:.]+)\s*(?:\{[^}]*\}\s*|\([^)]*\)\s*)*:\s"
)
ALIAS = re.compile(r"\bas\s+([^\s(){}\[\],;:.]*[-?′][^\s(){}\[\],;:.]*)")
INNER = re.compile(r"(?:\blet\s+|[({])([^\s(){}\[\],;:.]*[-?′][^\s(){}\[\],;:.]*)(?=\s+[:=]\s)")
FUNCTIONS = {"length", "take", "drop", "map"}
ENDINGS = {"append", "nil", "suc", "cons"}


def files(top, endings):
    for folder, dirs, names in os.walk(os.path.join(top, "crates")):
        dirs[:] = sorted(d for d in dirs if d != "out")
        for name in sorted(names):
            if name.endswith(endings):
                yield os.path.join(folder, name)


def code(line):
    """The line without its comment."""
    return re.sub(r"(^|\s)--(\s.*)?$", "", line)


def own_names(top):
    """The names that this repository declares and that are to change, and its definitions."""
    names, definitions = set(), set()
    for path in files(top, ".antt"):
        parts = os.path.relpath(path, top).split(os.sep)
        if len(parts) != 4:
            continue
        for line in open(path, encoding="utf-8"):
            text = code(line)
            found = DECLARED.match(text)
            if found:
                names.add(found.group(1))
                if parts[2] == "specs" and text.split()[0] == "abbrev":
                    definitions.add(found.group(1))
            names.update((ALIAS if text.startswith("use ") else INNER).findall(text))
    return {n for n in names if re.search(r"\w[-′?]", n)}, definitions


def words(name):
    """The name in one spelling: small with _, or capitals for a type or a fact."""
    name = name.replace("?", "").replace("′", "'")
    if name[0].isupper():
        return "".join(part[0].upper() + part[1:] for part in name.split("-"))
    return name.replace("-", "_")


def spelled(name, definitions, lemma):
    parts = name.split("-")
    if lemma:
        for i in range(1, len(parts)):
            left, right = "-".join(parts[:i]), "-".join(parts[i:])
            if left in definitions | FUNCTIONS and right in definitions | ENDINGS:
                return words(left) + "-" + words(right)
    return words(name)


def main(argv):
    top = os.getcwd()
    names, definitions = own_names(top)
    turned = {n: spelled(n, definitions, n not in definitions) for n in names}
    turned = {n: t for n, t in turned.items() if n != t}
    if "--list" in argv:
        for n in sorted(turned):
            print(n, turned[n])
        return 0
    for path in files(top, (".antt", ".rt", ".edit")):
        with open(path, encoding="utf-8") as f:
            old = f.read()
        new = TOKEN.sub(lambda m: turned.get(m.group(0), m.group(0)), old)
        if new != old:
            with open(path, "w", encoding="utf-8") as f:
                f.write(new)
    return 0


if __name__ == "__main__":
    raise SystemExit(main(sys.argv[1:]))
