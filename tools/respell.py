#!/usr/bin/env python3
"""Brings the names of this repository's definitions and lemmas to today's spelling: once, right after the kit's own scripts.

usage: python3 tools/respell.py      at the top of the repository

A name with dashes that a file of specs/ or a lemma file of proofs/ declares, or binds, gets the spelling of the
standard library: a type, a record or a fact is in camel case (Same-memory: SameMemory), all else in snake case
(height-mi: height_mi). What is left alone: names that the checker makes (behind `c.`, `g.`, `l.`, `goal.`, and definitions
that have such a name), names of the library, text in quotes, comments but for their code spans, code that runs.
It stops, and writes nothing, where two names would fall together, or where a new name is a name already among the
definitions. Names that it finds in Rust code alone are shown: there a function may have its definition's name.
"""

import glob
import os
import re
import sys

NAME = r"[A-Za-z][A-Za-z0-9_']*(?:-[A-Za-z0-9_']+)*"
DASHED = re.compile(r"(?<![\w'\-→])[A-Za-z][A-Za-z0-9_']*(?:-[A-Za-z0-9_']+)+(?![\w'→])")
MARKS = r"(?:(?:abbrev|unfoldable|pattern|pub|record|data)\s+)*"
HEAD = re.compile(r"^\s*" + MARKS + r"(" + NAME + r")(?:\s*(?:\([^:]*:[^)]*\)|\{[^:]*:[^}]*\}))*\s*:(?!=)")
LET = re.compile(r"\blet\s+(" + NAME + r")\s*(?:[:=])")
MADE = re.compile(r":\s*(?:goal|given|need)\.")
# facts that stood in lower case: the beginning of the files' paths, the name, its new spelling
FACTS = [
    ("crates/", "place_of", "PlaceOf"),
    ("crates/model/proofs/Staged.antt", "any", "Any"),
]


def spelled(name):
    if name[0].isupper():
        return "".join(p[0].upper() + p[1:] for p in re.split("[-_]", name))
    return name.replace("-", "_")


def walked(path):
    """Whether a file answers goals: what stands behind `c.` there is the checker's."""
    return os.path.basename(path) in ("Answers.antt", "Invariants.antt", "Choices.antt", "Proof.antt")


def pieces(text, kind):
    """The text in pieces (whether it is code, the piece): comments and quoted text are not."""
    mark = "--" if kind == "antt" else "//"
    quoted = r'"(?:[^"\\\n]|\\.)*"'
    span = re.compile(quoted + r"|(?<!\S)" + mark + r"[^\n]*" if kind == "antt" else quoted + r"|" + mark + r"[^\n]*")
    at = 0
    for m in span.finditer(text):
        yield True, text[at : m.start()]
        piece = m.group()
        if piece.startswith(mark):
            for i, part in enumerate(piece.split("`")):
                yield i % 2 == 1, ("`" if i else "") + part
        else:
            yield False, piece
        at = m.end()
    yield True, text[at:]


def turned(text, kind, table, made):
    def one(m):
        name = m.group()
        before = m.string[: m.start()]
        if made and re.search(r"(?<![\w'.\-])(?:c|g|l|goal|given)\.$", before):
            return name
        return table.get(name, name)

    return "".join(DASHED.sub(one, piece) if code else piece for code, piece in pieces(text, kind))


def main():
    antt = sorted(glob.glob("crates/*/specs/**/*.antt", recursive=True) + glob.glob("crates/*/proofs/**/*.antt", recursive=True))
    rt = sorted(glob.glob("crates/*/src/**/*.rt", recursive=True))
    pages = ["README.md"] + sorted(glob.glob("docs/*.md"))
    text = {p: open(p, encoding="utf-8").read() for p in antt + rt + pages if os.path.exists(p)}
    table, plain = {}, set()
    for p in antt:
        for code, piece in pieces(text[p], "antt"):
            if not code:
                continue
            for line in piece.split("\n"):
                m = HEAD.match(line)
                if m and MADE.search(line):
                    continue
                names = ([m.group(1)] if m else []) + LET.findall(line)
                for name in names:
                    if "-" in name:
                        table[name] = spelled(name)
                    elif m and name == m.group(1):
                        plain.add(name)
    # names that a definition binds: no library's, and not the checker's
    used = set()
    for p in antt + rt:
        for m in re.finditer(r"\buse\s+([^\s{;]+)(?:\{([^}]*)\})?", text[p]):
            if not re.match(r"Rattle\.(?!std\b)", m.group(1)):
                used.update(DASHED.findall(m.group(2) or ""))
    for p in antt:
        if not walked(p):
            for code, piece in pieces(text[p], "antt"):
                for m in DASHED.finditer(piece) if code else ():
                    if m.group() not in used and piece[max(m.start() - 1, 0) : m.start()] != ".":
                        table.setdefault(m.group(), spelled(m.group()))
    back = {}
    for old, new in table.items():
        back.setdefault(new, []).append(old)
    fallen = [f"{', '.join(sorted(olds))}: all {new}" for new, olds in sorted(back.items()) if len(olds) > 1]
    fallen += [f"{old}: {new} is a definition already" for old, new in sorted(table.items()) if new in plain]
    if fallen:
        print("names that fall together:\n" + "\n".join(fallen), file=sys.stderr)
        return 1
    rust = set(re.findall(r"\bfn (\w+)|\bconst (\w+)|\blet (?:mut )?(\w+)", "\n".join(text[p] for p in rt)))
    rust = {name for names in rust for name in names if name}
    for new in sorted(set(table.values()) & rust):
        print(f"also a name in code: {new}")
    changed = 0
    for p, t in text.items():
        if p.endswith(".md"):
            new = "".join(part if i % 2 == 0 else DASHED.sub(lambda m: table.get(m.group(), m.group()), part) for i, part in enumerate(re.split(r"(?<=`)([^`\n]+)(?=`)", t)))
        else:
            new = turned(t, "antt" if p.endswith(".antt") else "rt", table, walked(p))
        for path, old, fact in FACTS:
            if p.startswith(path) and p.endswith(".antt"):
                new = re.sub(rf"(?<![\w'.\-]){old}(?![\w'\-])", fact, new)
        if new != t:
            with open(p, "w", encoding="utf-8") as f:
                f.write(new)
            changed += 1
    print(f"{len(table)} names, {changed} files")
    return 0


sys.exit(main())
