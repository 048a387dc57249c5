#!/usr/bin/env python3
"""Lists the places where src/ may still be written in an older form.

    python3 tools/places.py          the number of candidates of each kind
    python3 tools/places.py KIND     the candidates of one kind, with file and line

It finds candidates by their text. Which of them are places is read and said in docs/DESIGN-PASS.md.
"""
import difflib
import glob
import itertools
import re
import sys

WORDS = set("""as break const continue crate dyn else enum false fn for ghost if impl in let loop match mod move mut pub ref
return self Self static struct super trait true type unsafe use where while requires ensures Ok Err Some None""".split())


def text_of(path):
    """The file without its comments, with every line in its place."""
    out = []
    for line in open(path, encoding="utf-8"):
        cut = re.search(r'(^|[^:"])//', line)
        out.append(line[:cut.start()].rstrip() + "\n" if cut and '"' not in line[:cut.start()] else line)
    return "".join(out)


FILES = {p: text_of(p) for p in sorted(glob.glob("crates/*/src/**/*.rt", recursive=True))}


def found(pattern):
    for path, text in FILES.items():
        for m in re.finditer(pattern, text, re.M):
            line = text.count("\n", 0, m.start()) + 1
            yield f"{path}:{line}: " + " ".join(m.group(0).split())


def functions():
    """Each function: its place, name, head and body."""
    for path, text in FILES.items():
        for m in re.finditer(r"^( *)(?:pub(?:\(\w+\))? )?fn (\w+)", text, re.M):
            end = re.compile(r"^" + m.group(1) + r"(\{|\})|;$", re.M)
            i = m.start()
            brace = None
            # The body opens at a brace that ends its line, or stands alone on it, outside clauses.
            for b in re.finditer(r"(^ *\{$|\) (?:-> [^\n{]+ )?\{$)", text[i:], re.M):
                brace = i + b.end() - 1
                break
            stop = re.search(r";$", text[i:], re.M)
            if brace is None or (stop and i + stop.start() < brace and "{\n" not in text[i:i + stop.start()]):
                if stop:
                    yield path, text.count("\n", 0, i) + 1, m.group(2), text[i:i + stop.start()], ""
                continue
            close = re.compile(r"^" + m.group(1) + r"\}", re.M).search(text, brace)
            body = text[brace:close.end()] if close else ""
            yield path, text.count("\n", 0, i) + 1, m.group(2), text[i:brace], body


def shape(body):
    tokens = re.findall(r"[A-Za-z_]\w*|\d[\d_]*|\S", body)
    return [t if t in WORDS or not re.match(r"\w", t) else "#" if t[0].isdigit() else "x" for t in tokens]


def twins():
    all_of = [(p, n, f, shape(b)) for p, n, f, _, b in functions() if b]
    all_of = [x for x in all_of if len(x[3]) >= 14]
    for a, b in itertools.combinations(all_of, 2):
        if abs(len(a[3]) - len(b[3])) * 8 > len(a[3]):
            continue
        if difflib.SequenceMatcher(None, a[3], b[3], autojunk=False).ratio() >= 0.92:
            yield f"{a[0]}:{a[1]}: {a[2]} ~ {b[0]}:{b[1]}: {b[2]}"


def clauses():
    seen = {}
    for path, line, name, head, _ in functions():
        for m in re.finditer(r"^ *(requires|ensures) (?:\w+ )?\{ (.*) \}$", head, re.M):
            seen.setdefault((path.split("/")[1], m.group(2)), set()).add(f"{path}:{line}: {name}")
    for (crate, clause), places in sorted(seen.items()):
        if len(places) >= 3:
            yield f"{crate}: {len(places)} functions: {clause}"


def travellers():
    seen = {}
    for path, line, name, head, _ in functions():
        params = re.sub(r"\s+", " ", head.split("->")[0])
        names = re.findall(r"\b(\w+): (&?(?:'\w+ )?(?:mut )?[\w:]+)", params)
        names = [n for n in names if n[0] not in ("self",)]
        for pair in itertools.combinations(sorted(set(names)), 3):
            seen.setdefault((path.split("/")[1], pair), set()).add(f"{path}:{line}: {name}")
    for (crate, group), places in sorted(seen.items()):
        if len(places) >= 3:
            yield f"{crate}: {len(places)} functions: " + ", ".join(f"{n}: {t}" for n, t in group)


KINDS = {
    "enums": lambda: found(r"^ *(pub(\(crate\))? )?enum \w+"),
    "handed-on": lambda: found(
        r"else \{\s*return (None|Err\([^;]*\)|Ok\(None\));|Ok\(\w*\) => (Ok|Some)\([^)\n]*\)+|Err\(\w+\) => (return )?Err\([^;\n]*"
        r"|\bif [^{;]*\{ Some\([^}]*\) \} else \{ None \}|\{\s*Some\([^;{}]*\)\s*\} else \{\s*None\s*\}|\{\s*None\s*\} else \{\s*Some\([^;{}]*\)\s*\}"
        r"|None => (return )?(None|Err)[^,\n]*|Some\(\w+\) => (Some|Ok)\([^)\n]*\)|if let (Err|Some)\(\w+\) = [^{]*\{\s*return (Err|Ok|Some)[^;]*;"
    ),
    "numbers-for-kinds": lambda: found(r"\.number\(\)|fn \w+\(.*-> (u8|\(u8, \w+\))|Refused\(u8\)|\[\w+; 12\]|=> Some\(\d+\)"),
    "twins": twins,
    "loops": lambda: found(r"^ *(for [^{]* in [^{]*|while [^{]*|loop )\{"),
    "counted": lambda: found(r"^ *(for \w+ in [^{]*\.\.[^{]*)\{|\w+ (\+|-)= 1;|\w+ = \w+ \+ 1;"),
    "by-hand": lambda: found(r"^impl.* (fmt::Display|From<\w+>|TryFrom<\w+>|PartialEq|PartialOrd|Ord|Clone|Default) for \w+|fn (words|message)\("),
    "casts": lambda: found(r"[\w\)\]]+ as (u8|u16|u32|u64|usize)\b"),
    "repeated-clauses": clauses,
    "travelling-parameters": travellers,
    "buffers": lambda: found(r"^ *(pub(\(crate\))? )?\w+: (\[[^\]]+; [^\]]+\]|Vec<[^\n]*>|&'a mut \[[^\n]*\]|usize),"),
    "switches": lambda: found(r"^.*\bmatch (\*?self|kind|call\.name|place|stack|[abc]|self\.separator)\b[^{]*\{|dyn \w+|\bfn\("),
}


def main():
    if len(sys.argv) > 1:
        for place in KINDS[sys.argv[1]]():
            print(place)
        return
    for kind, places in KINDS.items():
        print(f"{kind}: {sum(1 for _ in places())}")


main()
