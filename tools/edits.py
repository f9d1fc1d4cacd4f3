#!/usr/bin/env python3
"""Says of each must-fail edit, those kept in further.md too, whether its texts still stand once in their files.

usage: tools/edits.py          at the top of the repository; ends with status 1 where one does not
"""
import glob
import os
import re
import sys


def pairs(text):
    """The file and the pairs of an edit."""
    file, old, out = None, None, []
    for line in text.splitlines():
        if line.startswith("file: "):
            file = line[6:].strip()
        elif line.startswith("old: "):
            old = line[5:]
        elif line.startswith("new: "):
            out.append((file, old, line[5:]))
    return out


def edits():
    for path in sorted(glob.glob("crates/*/must-fail/*.edit")):
        with open(path, encoding="utf-8") as it:
            yield path, path, it.read()
    for path in sorted(glob.glob("crates/*/must-fail/further.md")):
        with open(path, encoding="utf-8") as it:
            for name, text in re.findall(r"## (\S+)\n\n```\n(.*?)```", it.read(), re.S):
                yield path, f"{path} {name}", text


def main():
    bad = 0
    count = 0
    for path, name, text in edits():
        crate = os.path.dirname(os.path.dirname(path))
        files = {}
        count += 1
        for file, old, new in pairs(text):
            if file not in files:
                with open(os.path.join(crate, file), encoding="utf-8") as it:
                    files[file] = it.read()
            hits = files[file].count(old)
            if hits != 1:
                print(f"{name}: stands {hits} times: {old}")
                bad += 1
            files[file] = files[file].replace(old, new, 1)
        if not files:
            print(f"{name}: has no pair")
            bad += 1
    print(f"{count} edits, {bad} that do not fit")
    return bad > 0


if __name__ == "__main__":
    sys.exit(main())
