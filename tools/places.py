#!/usr/bin/env python3
"""Lists the places in crates/*/src that docs/DESIGN-PASS.md counts, point by point.

    python3 tools/places.py          every point, with its places
    python3 tools/places.py --count  the numbers alone

It finds candidates by their shape; which of them are places that a newer form serves better, the page says.
"""
import collections
import glob
import re
import sys

FOLDERS = sorted(glob.glob("crates/*/src"))


def sources():
    for folder in FOLDERS:
        for path in sorted(glob.glob(folder + "/**/*.rt", recursive=True)):
            with open(path, encoding="utf-8") as file:
                yield path.removeprefix("crates/"), file.read().split("\n")


def lines_with(pattern):
    """The lines of code that have the pattern; comments and clauses have none."""
    found = []
    for path, lines in sources():
        for number, line in enumerate(lines, 1):
            code = line.split("//")[0].strip()
            if not code.startswith(("ghost", "ensures", "requires")) and re.search(pattern, code):
                found.append(f"{path}:{number}: {code}")
    return found


def functions():
    """Each function: its place, its parameters, its clauses, its body."""
    for path, lines in sources():
        at = 0
        while at < len(lines):
            start = re.match(r"\s*(?:pub(?:\(crate\))? )?(?:extern \"C\" )?(?:const )?fn (\w+)", lines[at])
            if not start:
                at += 1
                continue
            indent = len(lines[at]) - len(lines[at].lstrip())
            head, clauses, body, inside = [], [], [], False
            first = at
            while at < len(lines):
                line = lines[at]
                text = line.strip()
                if inside:
                    if line.startswith(" " * indent + "}") and text.startswith("}"):
                        break
                    body.append(text.split("//")[0].strip())
                elif text.startswith(("requires", "ensures")):
                    clauses.append(text)
                else:
                    head.append(text)
                    if text.endswith(";") and "{" not in text:
                        break
                    if text.endswith("{"):
                        inside = True
                at += 1
            signature = " ".join(head)
            inner = re.search(r"fn \w+(?:<[^(]*>)?\((.*?)\)(?: ->| where|\s*\{|$|\s+where)", signature)
            parameters = re.findall(r"(\w+): ", inner.group(1)) if inner else []
            yield f"{path}:{first + 1}", start.group(1), parameters, clauses, " ".join(body), signature
            at += 1


def enums():
    found = []
    for path, lines in sources():
        for number, line in enumerate(lines, 1):
            start = re.match(r"\s*(?:pub(?:\(crate\))? )?enum (\w+)", line)
            if start:
                variants = []
                for inner in lines[number:]:
                    if inner.strip() == "}":
                        break
                    variants.append(inner.strip().rstrip(","))
                found.append(f"{path}:{number}: {start.group(1)} {{ {', '.join(variants)} }}")
    return found


def twins():
    """Functions whose bodies differ only in types, paths, numbers and texts."""
    groups = collections.defaultdict(list)
    for place, name, _, _, body, _ in functions():
        shape = re.sub(r'"[^"]*"|b?\'[^\']*\'', "S", body)
        shape = re.sub(r"\b[A-Z]\w*(::[A-Z]\w*)*", "T", shape)
        shape = re.sub(r"\b\d\w*\b", "N", shape)
        shape = re.sub(r"\b(u8|u16|u32|u64|i16|i32|usize|bool|true|false)\b", "N", shape)
        shape = re.sub(r"\s+", " ", shape)
        if len(re.findall(r"\w+|[^\w\s]", shape)) >= 5:
            groups[shape].append(f"{place} {name}")
    return [" ~ ".join(group) for group in groups.values() if len(group) > 1]


def twin_types():
    """Structs and enums of equal parts, in files or crates of different names."""
    groups = collections.defaultdict(list)
    for path, lines in sources():
        for number, line in enumerate(lines, 1):
            start = re.match(r"\s*(?:pub(?:\(crate\))? )?(?:struct|enum|trait) (\w+).*\{$", line)
            if start:
                parts = []
                for inner in lines[number:]:
                    if inner.startswith("}"):
                        break
                    if not inner.strip().startswith(("ensures", "//", "ghost")):
                        parts.append(re.sub(r"pub(\(crate\))? ", "", inner.strip()))
                groups["\n".join(parts)].append(f"{path}:{number} {start.group(1)}")
    return [" ~ ".join(group) for group in groups.values() if len(group) > 1]


def repeated_facts():
    found = collections.defaultdict(list)
    for place, name, _, clauses, _, _ in functions():
        for clause in clauses:
            fact = re.sub(r"^(requires|ensures)\s*\w*\s*", "", clause)
            fact = re.sub(r"\b\w+\.(old|new|now|entry)\b", "x", fact)
            fact = re.sub(r"\b(self|desk|result)\b", "x", fact)
            found[fact].append(f"{place} {name}")
    return [f"{fact}: {len(set(at))} functions" for fact, at in sorted(found.items()) if len(set(at)) >= 3]


def travelling():
    groups = collections.Counter()
    for _, _, parameters, _, _, _ in functions():
        group = frozenset(parameters) - {"self"}
        if len(group) >= 3:
            groups[group] += 1
    wide = collections.Counter()
    for group in groups:
        wide[group] = sum(many for other, many in groups.items() if group <= other)
    return [f"{', '.join(sorted(group))}: {many} functions" for group, many in sorted(wide.items(), key=lambda x: (-x[1], sorted(x[0]))) if many >= 3]


POINTS = [
    ("1 enums of one's own", enums),
    ("1 flags in structs and numbers that stand for kinds or refusals", lambda: lines_with(r"^(pub |pub\(crate\) )?\w+: bool,|(kind|number|code): u(8|16|32)\b|^\d+ => ")),
    ("1 functions that answer a number or nothing, where they carry a theorem", lambda: lines_with(r"fn \w+(<[^(]*>)?\(\) -> u8")),
    ("2 functions that are twins", twins),
    ("2 types that are twins", twin_types),
    ("3 loops over a range or by while", lambda: lines_with(r"\bfor \w+ in .*\.\.|\bwhile\b|\bloop\b")),
    ("4 lossy or lossless casts", lambda: lines_with(r"\bas (u8|u16|u32|u64|i16|i32|usize|char)\b")),
    ("4 equality, order, names and conversions in functions of one's own", lambda: lines_with(r"fn (is_low|less|agrees|same_level|name|text|kind|rule|call_name|number|value|byte|digit|opposite|holds|deepened|plain|looking|has_element)\b")),
    ("5 facts in the contracts of three functions or more", repeated_facts),
    ("5 parameters that travel together", travelling),
    ("6 arrays with a length beside", lambda: lines_with(r"^(pub |pub\(crate\) )?\w+: \[.*; \w+\],")),
    ("7 switches on a step or a call", lambda: lines_with(r"\bmatch (self|step|call|name|form|making\.\w+|start\.making\.\w+) \{")),
]

if __name__ == "__main__":
    for title, find in POINTS:
        places = find()
        print(f"{title}: {len(places)}")
        if "--count" not in sys.argv:
            for place in places:
                print("    " + place)
