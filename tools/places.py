#!/usr/bin/env python3
"""Lists the places in src/ that could be written another way, point by point, with their counts.

Usage: places.py [POINT..]     at the top of the repository; with no POINT all of them, 1 to 7.
Each line is a place: file, line, text. What a place becomes, or why it stays, is for its reader to say.
"""
import re
import sys
from pathlib import Path

FILES = sorted(Path("crates").glob("*/src/**/*.rt"))
POINTS = {}


def lines():
    for path in FILES:
        for number, text in enumerate(path.read_text().splitlines(), 1):
            if not text.lstrip().startswith("//"):
                yield path, number, text


def matching(pattern):
    found = re.compile(pattern)
    return [(f"{path}:{number}", text.strip()) for path, number, text in lines() if found.search(text)]


def functions():
    """Each function: where it stands, its parameters, and its clauses."""
    head = re.compile(r"^\s*(?:pub(?:\([a-z]+\))? )?(?:final )?fn (\w+)")
    for path in FILES:
        text = path.read_text()
        rows = text.splitlines()
        for number, row in enumerate(rows):
            name = head.match(row)
            if not name:
                continue
            signature, at = row, number
            while not re.search(r"\)\s*(->.*)?;?\s*\{?$", signature) and at + 1 < len(rows):
                at += 1
                signature += " " + rows[at].strip()
            clauses, at = [], at + 1
            while at < len(rows) and re.match(r"\s*(requires|ensures)", rows[at]):
                clauses.append(re.sub(r"^\s*(requires|ensures)\s*\w*\s*", "", rows[at]).strip().rstrip(";"))
                at += 1
            inside = signature[signature.index("(") + 1:] if "(" in signature else ""
            parameters = re.findall(r"(\w+): ([^,()]+(?:\([^)]*\))?[^,()]*)", inside.split(") ->")[0])
            yield f"{path}:{number + 1}", name.group(1), [(n, t.strip(" )")) for n, t in parameters], clauses


def point_1():
    """own enums of up to three variants of which one at the most holds something; arms that give a refusal its number; refusals handed on as numbers; flags set by hand"""
    for path in FILES:
        rows = path.read_text().splitlines()
        for number, row in enumerate(rows):
            if not re.match(r"^(pub )?enum (?!\w*Refusal)", row):
                continue
            end = rows.index("}", number)
            variants = [r.strip() for r in rows[number + 1:end] if re.match(r"\s+[A-Z]", r)]
            if len(variants) < 4 and sum("(" in v for v in variants) < 2:
                yield f"{path}:{number + 1}", row.strip() + " " + " ".join(variants)
    yield from matching(r"::\w+ => \d+,$")
    yield from matching(r"fn (mark|clear|bad_number)\(.*-> u8|fn number\(.*Result.*-> u8|fn told\(answer")
    yield from matching(r"let mut \w+ = (false|true);")


def point_2():
    """functions and types of two lines or more inside that are alike but for names, types and numbers"""
    head = re.compile(r"^(\s*)(?:pub(?:\([a-z]+\))? )?(?:final )?(fn|struct|enum) (\w+)")
    shapes = {}
    for path in FILES:
        rows = path.read_text().splitlines()
        for number, row in enumerate(rows):
            start = head.match(row)
            if not start or row.rstrip().endswith(";") or start.group(3).endswith("Refusal"):
                continue
            end = number
            while end + 1 < len(rows) and rows[end] != start.group(1) + "}":
                end += 1
            body = [r.strip() for r in rows[number + 1:end] if r.strip() not in ("", "{") and not r.strip().startswith("//")]
            body = [r for r in body if not re.match(r"(requires|ensures|ghost|match self)", r)]
            if sum(len(r) for r in body) < 30 or len(body) < 2:
                continue
            if start.group(2) == "struct":
                body = [re.sub(r"^.*: ", "", r) for r in body]
                shapes.setdefault(("struct", "\n".join(body)), []).append((f"{path}:{number + 1}", row.strip()))
                continue
            shape = re.sub(r"\d+\w*", "N", re.sub(r"[A-Za-z_]\w*", lambda m: m.group(0) if m.group(0) in KEEP else "w", "\n".join(body)))
            shapes.setdefault((start.group(2), shape), []).append((f"{path}:{number + 1}", row.strip()))
    for places in shapes.values():
        if len(places) > 1:
            yield from places


KEEP = {"fn", "struct", "enum", "for", "in", "if", "else", "match", "while", "loop", "let", "mut", "return", "Some", "None", "Ok", "Err", "self"}


def point_3():
    """loops that are no `for`, that count an index into something, or that keep a counter or a flag by hand"""
    for path in FILES:
        rows = path.read_text().splitlines()
        for number, row in enumerate(rows):
            loop = re.match(r"^(\s*)(for|while|loop)\b(.*)", row)
            if not loop:
                continue
            end = number + 1
            while rows[end] != loop.group(1) + "}":
                end += 1
            body = "\n".join(rows[number + 1:end])
            name = re.match(r"\s+\(?(\w+)(?:, \w+\))? in ", loop.group(3))
            index = name and re.search(r"\[[^\]]*\b" + name.group(1) + r"\b[^\]]*\]|\b(get|found|member_word|slot_word)\(" + name.group(1) + r"\b", body)
            counts = re.search(r"^\s*\w+ \+= |^\s*(\w+) = \1\.(saturating|wrapping)_add\(1\)|= true;|^\s*return (true|false|Some|\w+);?$", body, re.M)
            if loop.group(2) != "for" or index or counts:
                yield f"{path}:{number + 1}", row.strip()


def point_4():
    """orders, conversions, blank values, numbers and printing written out where a derive, a trait of std or a method of it may serve"""
    yield from matching(r"fn (compare|compare_crews|is_before|goes_first|crew_goes_first|comes_before|told|push_number)\b.*(Self|Line|Crew|u64|usize|answer)")
    yield from matching(r"fn new\(\) -> Counts|= (Tally|Opened) \{$|fn new\(crews: u16\)")
    yield from matching(r"::\w+ => \d+,$")
    yield from matching(r"Ok\(\w+\) => (Ok|Some)\(|Some\(\w+\) => Some\(\w+::")
    yield from matching(r"^impl(<.*>)? From<")


def point_5():
    """facts in the clauses of three functions or more of a crate, and values that three functions or more of a crate take together"""
    facts, together = {}, {}
    for place, name, parameters, clauses in functions():
        crate = place.split("/")[1]
        for clause in set(re.sub(r"\.(old|new|now)\b", "", c) for c in clauses):
            facts.setdefault((crate, clause), []).append((place, name))
        kinds = sorted(set(parameters))
        for a in range(len(kinds)):
            for b in range(a + 1, len(kinds)):
                together.setdefault((crate, kinds[a], kinds[b]), []).append((place, name))
    for (_, fact), places in facts.items():
        if len(places) > 2:
            yield from ((place, f"{name}: {fact[:150]}") for place, name in places)
    for (_, a, b), places in together.items():
        if len(places) > 2:
            yield from ((place, f"{name}: {a[0]}: {a[1]}, {b[0]}: {b[1]}") for place, name in places)
    # the two halves of what a roster means, or of where a table's walk or finder stands, written out side by side
    yield from matching(r"sheet \([^()]*(\([^()]*\))?[^()]*\) \(?[^()]*free")


def point_6():
    """arrays of a fixed size, lengths beside a buffer, searches by hand in what is sorted"""
    yield from matching(r"^\s*(pub )?\w+: \[[^\[\]]+; \w+\],$|let (mut )?\w+ = \[[^\[\]]+; \w+\];")
    yield from matching(r"^\s*(used|length): \w+,$|used: usize|low \+ \(high")


def point_7():
    """function pointers, trait objects, switches on which step to run"""
    yield from matching(r"\bfn\(|\bdyn\b|(Step|Says)::\w+\)? => ")


if __name__ == "__main__":
    wanted = sys.argv[1:] or list("1234567")
    for point in wanted:
        rule = globals()[f"point_{point}"]
        places = list(rule())
        print(f"point {point}, {rule.__doc__}: {len(places)}")
        for place, text in places:
            print(f"  {place}: {text}")
