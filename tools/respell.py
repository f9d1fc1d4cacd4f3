#!/usr/bin/env python3
"""Writes the names of this repository's own definitions and lemmas as today's language spells them.

usage: tools/respell.py        at the top of the repository, once

Types are in upper camel case (Order-laws becomes OrderLaws), all other names in snake case (next-front becomes next_front). A dash
stays where the new name would be one that the library has (bit-or, a lemma on the bits of an or, beside the function bit_or) or one
that another definition here has. Names that come from the code, goals, functions of src/ and comments keep their spelling.
"""
import glob
import re

# what the library calls so
TAKEN = {"bit_and", "bit_or", "bit_xor"}
DEFINED = re.compile(r"^[ \t]*(?:(?:abbrev|unfoldable|pub|private|data|record)\s+)*([^\s:(){}]+)\s*(?:\([^\n]*\)\s*|\{[^\n]*\}\s*)?:\s(?P<type>[^\n]*)", re.M)
TOKEN = re.compile(r"(--|//)[^\n]*|\"(?:[^\"\\]|\\.)*\"|[^\W\d][\w'₀-₉-]*")


def paths():
    for folder in ("specs", "proofs"):
        yield from sorted(glob.glob(f"crates/*/{folder}/**/*.antt", recursive=True))


def sources():
    yield from sorted(glob.glob("crates/*/src/**/*.rt", recursive=True))


def read(path):
    with open(path, encoding="utf-8") as it:
        return it.read()


def camel(name):
    return "".join(part[0].upper() + part[1:] for part in name.split("-"))


def names():
    """The names that are turned, each with what it becomes."""
    found = set()
    for path in paths():
        of_function = path.endswith(("/Answers.antt", "/Invariants.antt"))
        for it in DEFINED.finditer(read(path)):
            if not (of_function and "goal." in it["type"]):
                found.add(it[1])
    turned = {}
    for name in sorted(found):
        if "-" not in name:
            continue
        new = camel(name) if name[0].isupper() else name.replace("-", "_")
        if new in TAKEN or new in found:
            print(f"kept: {name}")
        elif new in turned.values():
            raise SystemExit(f"two names fall together: {new}")
        else:
            turned[name] = new
    return turned


def main():
    turned = names()

    def write(it):
        return it[0] if it[1] or it[0][0] == '"' else turned.get(it[0], it[0])

    files = 0
    for path in [*paths(), *sources()]:
        old = read(path)
        new = TOKEN.sub(write, old)
        if new != old:
            files += 1
            with open(path, "w", encoding="utf-8") as it:
                it.write(new)
    print(f"{len(turned)} names in {files} files")


if __name__ == "__main__":
    main()
