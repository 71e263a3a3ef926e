#!/usr/bin/env python3
"""Brings the repository's own definitions and lemmas to the spelling of today's Rattle.

usage: python3 tools/respell.py        at the top of the repository, once, after the kit's port.py

Words are in snake case: `xorAll` becomes `xor_all`, in definitions, fields, constructors, lemmas and local names.
A dash joins the names of two functions, as in `xor_all-append`; a plain word is added with `_`, as in `packed_doubled`.
Types, facts and modules keep their capitals.
Functions of src/, strings, inputs and outputs keep their names.
A lemma's dash stays where the name without it is taken; such names are printed.
The pages in docs/ and README.md follow; must-fail edits are not turned.
"""

import os
import re
import sys

IDENT = re.compile(r"(?<![A-Za-z0-9_'α-ωΑ-Ω₀-₉-])[A-Za-zα-ωΑ-Ω_][A-Za-z0-9α-ωΑ-Ω_'₀-₉-]*")
SEGMENT = re.compile(r"[-_]")
DECLARED = re.compile(r"(?:abbrev |unfoldable )?(?:pub )?([A-Za-z][^\s(){}:]*) .*:")
FIELD = re.compile(r"  (?:pub )?([a-z][^\s(){}:]*) :")
STRING = re.compile(r'b?"(?:\\.|[^"\\])*"')
# lemmas that would have a function's name now
LEMMAS = {"crates/message_frame/proofs": {"plain_row": "plain_row_lem"}}
# the functions of lists that std's own lemmas name behind a dash
STD = {"append", "drop", "take", "length", "replicate", "set", "insert", "reverse", "map", "get_or"}


def files(top, endings):
    for folder, dirs, names in os.walk(top):
        dirs[:] = sorted(d for d in dirs if d not in ("out", ".git", "target"))
        for name in sorted(names):
            if name.endswith(endings):
                yield os.path.join(folder, name)


def read(path):
    with open(path, encoding="utf-8") as f:
        return f.read()


def snake_part(part):
    """A part between dashes and underscores; one that begins with a capital is a fact or a type and stays."""
    if not part or not part[0].islower():
        return part
    return re.sub(r"(?<=[a-z0-9])[A-Z]", lambda m: "_" + m.group().lower(), part)


def snake(name):
    return "".join(p if SEGMENT.fullmatch(p) else snake_part(p) for p in re.split(r"([-_])", name))


def declared():
    """The definitions and lemmas of specs/ and proofs/, those of a function's own proof aside."""
    functions, lemmas = set(), set()
    for path in files("crates", ".antt"):
        folder = os.path.basename(os.path.dirname(path))
        if folder not in ("specs", "proofs"):
            continue
        for line in read(path).split("\n"):
            m = DECLARED.match(line) or FIELD.match(line)
            if m:
                (functions if folder == "specs" else lemmas).add(m.group(1))
    return functions, lemmas


def dashes(lemmas, functions, taken):
    """New names for the lemmas with a dash where a plain word is added."""
    names = {snake(f) for f in functions} | STD
    out = {}
    for lemma in sorted(lemmas):
        parts = snake(lemma).split("-")
        if len(parts) == 1:
            continue
        new, last = parts[0], parts[0]
        for part in parts[1:]:
            if last in names and part in names:
                new, last = new + "-" + part, part
            else:
                new, last = new + "_" + part, last + "_" + part
        if new != snake(lemma):
            if new in taken:
                print("kept, since the other name is taken:", snake(lemma))
            else:
                taken.add(new)
                out[snake(lemma)] = new
    return out


def main():
    functions, lemmas = declared()
    taken = set()
    for path in files("crates", (".antt", ".rt")):
        taken |= {snake(t) for t in IDENT.findall(read(path))}
    turned = dashes(lemmas, functions, taken)

    def word(m):
        new = snake(m.group())
        return turned.get(new, new)

    def lem(path, text):
        for folder, names in LEMMAS.items():
            if path.startswith(folder):
                text = IDENT.sub(lambda m: names.get(m.group(), m.group()), text)
        return text

    def outside_strings(text):
        out, at = [], 0
        for m in STRING.finditer(text):
            out += [IDENT.sub(word, text[at:m.start()]), m.group()]
            at = m.end()
        return "".join(out + [IDENT.sub(word, text[at:])])

    for path in files("crates", (".antt", ".rt")):
        old = read(path)
        new = outside_strings(old) if path.endswith(".rt") else IDENT.sub(word, lem(path, old))
        if new != old:
            with open(path, "w", encoding="utf-8") as f:
                f.write(new)

    known = {snake(n) for n in functions | lemmas}

    def known_word(m):
        return word(m) if snake(m.group()) in known else m.group()

    for path in [p for p in files("docs", ".md")] + ["README.md"]:
        old = read(path)
        new = re.sub(r"`[^`\n]+`", lambda m: IDENT.sub(known_word, m.group()), old)
        if new != old:
            with open(path, "w", encoding="utf-8") as f:
                f.write(new)


if __name__ == "__main__":
    sys.exit(main())
