#!/usr/bin/env python3
"""Spells the names that this repository declares in specs, proofs and clauses as the library spells its own.
usage: tools/spell_names.py  at the top of the checkout: words joined by hyphens become snake case, and camel case behind a capital.

Only a name that a file of specs/ or proofs/ or a clause here declares is respelled. Names of the library, and those that the checker makes
for goals, keep their spelling, unless one of them is the same word as a name declared here; then it has to be put back by hand (in
the text that this was written for there is none). Inputs, outputs and functions of src/, which have no hyphens, keep theirs. It stops,
with nothing written, where two names would fall together."""

import os
import re
import sys

NAME = r"[A-Za-z_][A-Za-z0-9_]*(?:-[A-Za-z0-9_]+)+'*"
WORD = re.compile(r"(?<![\w'-])" + NAME + r"(?![\w-])")
# What declares a name in specs/ and proofs/: a signature, a field or a constructor, perhaps with its type on the next line.
WORDS_BEFORE = r"^[ \t]*(?:(?:pub|abbrev|opaque|unfoldable|instance|record|data)[ \t]+)*"
PLAIN = r"([A-Za-z_][\w'-]*)"
DECLARED = [
    re.compile(WORDS_BEFORE + PLAIN + r"(?:[ \t]+[\w'-]+)*[ \t]*:(?:\s|$)", re.M),
    re.compile(r"^[ \t]*(?:(?:pub|abbrev|opaque|unfoldable)[ \t]+)*(?:record|data)[ \t]+" + PLAIN, re.M),
    re.compile(WORDS_BEFORE + PLAIN + r"[ \t]*$(?=\n[ \t]*:)", re.M),
]
# An import may rename. In src/ the clauses of a contract and the ghost members have names too.
RENAMED = re.compile(r"[\w'-]\s+as\s+" + PLAIN)
CLAUSES = re.compile(r"\b(?:ensures|requires|ghost|invariant)\s+" + PLAIN + r"\s*[:{=]")
# Files that answer the checker's goals declare the checker's names.
ANSWERS = {"Answers.antt", "Invariants.antt", "Proof.antt"}


def spelled(name):
    """The name as the library would spell it."""
    words = name.split("-")
    if name[0].isupper():
        return "".join(w[:1].upper() + w[1:] for w in words)
    return "_".join(words)


def texts(top):
    """The sources, specs, proofs and must-fail edits of every crate."""
    for folder, dirs, files in os.walk(os.path.join(top, "crates")):
        dirs[:] = sorted(d for d in dirs if d not in ("out", "target"))
        for file in sorted(files):
            if file.endswith((".rt", ".antt", ".edit")):
                path = os.path.join(folder, file)
                with open(path, encoding="utf-8") as f:
                    yield path, f.read()


def declared(path, text):
    """The names that one file declares."""
    if path.endswith(".edit") or os.path.basename(path) in ANSWERS:
        return set()
    return {m[1] for form in ([CLAUSES, RENAMED] if path.endswith(".rt") else [*DECLARED, RENAMED]) for m in form.finditer(text)}


def main():
    files = list(texts("."))
    ours = set().union(*(declared(path, text) for path, text in files))
    to = {name: spelled(name) for name in sorted(ours) if "-" in name}
    clash = [name for name in to if to[name] in ours or list(to.values()).count(to[name]) > 1]
    if clash:
        print("names that fall together:", *clash, file=sys.stderr)
        return 2
    changed = 0
    for path, text in files:
        new = WORD.sub(lambda m: to.get(m[0], m[0]), text)
        if new != text:
            changed += 1
            with open(path, "w", encoding="utf-8") as f:
                f.write(new)
    print(f"{len(to)} names respelled in {changed} files")
    return 0


if __name__ == "__main__":
    sys.exit(main())
