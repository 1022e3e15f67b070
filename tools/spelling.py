#!/usr/bin/env python3
"""Brings this repository's own names of specs/ and proofs/ to one spelling: words in snake case, facts and types in camel case.

usage: python3 tools/spelling.py [FOLDER]      once, after port.py, at the top of the repository

It reads which names the .antt files define with a dash in them, and writes each such name anew wherever it stands in an .antt
file or in a clause of an .rt file: `least-variance` becomes `least_variance`, `Mark-law` becomes `MarkLaw`. Strings, file
names, names that Rattle makes (goals, steps) and names of the library stay. It also puts a bound's member behind its parameter
where port.py could not: `Selector-as-Rule` becomes `S.Selector.Rule`. A fact of each element of a list, which port.py imports under
the name `All` that the gate keeps for another word, becomes `Every`.
"""

import os
import re
import sys

# Names that would fall together with another, or that begin with the wrong case.
CHOSEN = {
    "call-name": "name_of_call",
    "run-once": "one_run",
    "pixel-of": "PixelOf",
    "spells-of": "SpellsOf",
    "Goes_on": "GoesOn",
    "Selector-as-Rule": "S.Selector.Rule",
    "Pixel-as-Level": "S.Pixel.Level",
}
WORD = r"[^\s(){}\[\]⟨⟩.,;:=λ@\"]+"
HEAD = re.compile(r"\s*(?:abbrev |unfoldable |opaque )?(?:pub )?(?:abbrev |unfoldable )?(?:record |data )?((?:%s)(?: %s)*) (?:\(.*\) |\{.*\} )*:(?!:) ?(.*)" % (WORD, WORD))
PARAMETER = re.compile(r"[({]((?:%s)(?: %s)*) : " % (WORD, WORD))
# Goals, invariants and measures are named by Rattle.
MADE = re.compile(r"goal\.|need\.|given\.")
ALIAS = re.compile(r"\sas\s+([^\s,{}]+)")
EACH = "AllByRecursion as All"
TOKEN = re.compile(r"\"(?:[^\"\\]|\\.)*\"|" + WORD)


def sources(root):
    for folder, dirs, files in os.walk(os.path.join(root, "crates")):
        dirs[:] = sorted(d for d in dirs if d != "out")
        for f in sorted(files):
            if f.endswith((".rt", ".antt")):
                yield os.path.join(folder, f)


def is_comment(line):
    return line.lstrip().startswith(("--", "//"))


def defined(root):
    names, made = set(), set()
    for path in sources(root):
        with open(path, encoding="utf-8") as f:
            for line in f:
                if is_comment(line):
                    continue
                if re.match(r"(?:ghost |pub )?use ", line):
                    names.update(ALIAS.findall(line))
                if not path.endswith(".antt"):
                    continue
                head = HEAD.match(line)
                if head:
                    (made if MADE.match(head.group(2).strip()) else names).update(head.group(1).split())
                for parameter in PARAMETER.finditer(line):
                    names.update(parameter.group(1).split())
    return {n for n in names - made if "-" in n.strip("-") and "◌" not in n}


def respelled(name):
    if name in CHOSEN:
        return CHOSEN[name]
    if name[0].isupper():
        return "".join(w[:1].upper() + w[1:] for w in name.split("-"))
    return name.replace("-", "_")


def main():
    root = sys.argv[1] if len(sys.argv) > 1 else "."
    turned = {n: respelled(n) for n in defined(root)} | CHOSEN
    changed = 0
    for path in sources(root):
        with open(path, encoding="utf-8") as f:
            lines = f.readlines()

        here = turned | ({"All": "Every"} if any(EACH in l for l in lines) else {})

        def turn(m):
            return here.get(m.group(0), m.group(0))

        def quoted(m):
            return "`" + TOKEN.sub(turn, m.group(1)) + "`"

        out = [re.sub(r"`([^`]+)`", quoted, l) if is_comment(l) else TOKEN.sub(turn, l) for l in lines]
        if out != lines:
            changed += 1
            with open(path, "w", encoding="utf-8") as f:
                f.writelines(out)
    print(f"spelling: {len(turned)} names, {changed} files")


main()
