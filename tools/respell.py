#!/usr/bin/env python3
"""Brings the repository's own names in specs/ and proofs/ to the spelling of today's Rattle.

usage: python3 tools/respell.py     at the top of the repository, once, after the kit's port script

A type is in upper camel case, everything else in snake case: `Log-agrees` becomes `LogAgrees`, and `right-moved` becomes `right_moved`.
Names of std and names that Rattle makes keep theirs; comments, strings and Rust code are left alone.
Prints each name with what it became, and says which names would fall together.
"""
import glob
import re

NAME = r"[^\W\d][\w'₀-₉]*(?:-[\w'₀-₉≤≡∷]+)+"
TOKEN = re.compile(r"(?<![\w\-'·])" + NAME)
IMPORT = re.compile(r"use ((?:Rattle\.std|Rattle\.core|borrow|mathlib|lib|native|Prim)[\w.\-'+]*)\.\{([^}]*)\}")
DECLARED = re.compile(r"^\s*(?:(?:abbrev|unfoldable|pub|record|data|where) )*(" + NAME + r")\s*(?:[:({]|$)", re.M)


def is_definition(path):
    """A file of specs/, or of lemmas right in proofs/."""
    return "/specs/" in path or re.search(r"/proofs/[^/]*\.antt$", path) is not None


def code_of(line, path):
    """The code of a line, and its comment."""
    mark = "--" if path.endswith(".antt") else "//"
    if path.endswith(".edit"):
        return line, ""
    if mark == "--":
        m = re.search(r"(?:^|\s)--(?:\s|$)", line)
    else:
        m = re.search(r"//", line)
    return (line[: m.start()], line[m.start() :]) if m else (line, "")


# Where the rule would give a name that stands already beside it.
APART = {"First-zero": "IsFirstZero", "In-range": "IsInRange"}


def turned(name):
    if name in APART:
        return APART[name]
    if name[0].isupper():
        return "".join(w[:1].upper() + w[1:] for w in name.split("-"))
    return name.replace("-", "_")


def replaced(text, path, names, after_dot):
    out = []
    for line in text.split("\n"):
        code, comment = code_of(line, path)
        parts = re.split(r'("(?:[^"\\]|\\.)*")', code) if path.endswith(".rt") else [code]

        def turn(m):
            dotted = m.start() > 0 and m.string[m.start() - 1] == "."
            known = names if not dotted else after_dot
            return turned(m.group(0)) if m.group(0) in known else m.group(0)

        out.append("".join(p if p.startswith('"') else TOKEN.sub(turn, p) for p in parts) + comment)
    return "\n".join(out)


def main():
    antt = sorted(glob.glob("crates/*/specs/**/*.antt", recursive=True) + glob.glob("crates/*/proofs/**/*.antt", recursive=True))
    texts = {p: open(p, encoding="utf-8").read() for p in antt}
    foreign = set()
    for t in texts.values():
        for m in IMPORT.finditer(t):
            foreign |= {w.strip().split(" as ")[0] for w in m.group(2).split(",")}
    declared, local = set(), set()
    for p, t in texts.items():
        if is_definition(p):
            bare = "\n".join(code_of(line, p)[0] for line in t.split("\n"))
            declared |= set(DECLARED.findall(bare)) - foreign
            local |= {m.group(0) for m in TOKEN.finditer(bare)} - foreign
    spelled = {m.group(0) for t in texts.values() for m in re.finditer(r"[\w'₀-₉]+", t)}
    for name in sorted(local | declared):
        print(name, "->", turned(name), "(this name stands already)" if turned(name) in spelled else "")
    others = sorted(glob.glob("crates/*/src/**/*.rt", recursive=True) + glob.glob("crates/*/must-fail/*.edit"))
    for p in antt + others:
        t = texts.get(p) or open(p, encoding="utf-8").read()
        names = local | declared if is_definition(p) else declared
        new = replaced(t, p, names, names if is_definition(p) else declared)
        if new != t:
            with open(p, "w", encoding="utf-8") as f:
                f.write(new)


main()
