#!/usr/bin/env python3
"""Spells the repository's own definitions and lemmas as today's Rattle does.

usage: python3 tools/respell.py [--check]      at the top of the repository, once, after the kit's port.py

A name with a dash that a file of specs/ or proofs/ declares becomes one word: a fact, a type or a module
(capital first) in camel case, any other name in snake case. Names that Rattle makes (goals, steps, clauses of
the library) keep their dashes, and so does every name that a file takes from the library.
It goes by spelling over all crates, and prints each new name that is in use already: a function of src/ may
have it, since code and clauses have names of their own, and nothing else may.
"""

import os
import re
import sys

NAME = r"[A-Za-z_][\w'\u2032-]*"
DECLARED = re.compile(rf"^[ \t]*(?:abbrev |pub |data |record |unfoldable )*({NAME}) :(?![:=])", re.M)
# a type with parameters, and a name that a file gives to what it imports
TYPED = re.compile(rf"^[ \t]*(?:abbrev )?pub (?:data |record )?({NAME})[ \n]*[({{]", re.M)
ALIAS = re.compile(rf"\bas ({NAME})[,}}]")
# names that proofs bind inside a term
BOUND = set("at-e at-q at-s at-t at-end in-T in-range is-e is-q is-s is-t now-is short-is total-is ws-is".split())
# the goals that an answer file states: names that Rattle makes
MADE = re.compile(rf"^[ \t]*(?:abbrev |pub )*({NAME}) : (?:goal|given|need|needs)\b", re.M)
TAKEN = re.compile(r"^(?:ghost )?use ([^\s;{]+)\.\{([^}]*)\}", re.M)


def files(top):
    for folder, dirs, names in os.walk(os.path.join(top, "crates")):
        dirs[:] = sorted(d for d in dirs if d not in ("out", "target"))
        for name in sorted(names):
            if name.endswith((".rt", ".antt")):
                yield os.path.join(folder, name)


def spelled(name):
    name = re.sub(r"(?<=[a-z])(?=[A-Z])", "-", name)
    parts = name.split("-")
    if parts[0][0].isupper():
        return "".join(p[0].upper() + p[1:] for p in parts)
    return "_".join(p.lower() if p.isascii() else p for p in parts)


def main(arguments):
    crates = sorted(os.listdir("crates"))
    texts = {}
    for path in files("."):
        with open(path, encoding="utf-8") as f:
            texts[path] = f.read()
    declared, library = set(BOUND), set()
    for path, text in texts.items():
        if path.endswith(".antt"):
            found = set(DECLARED.findall(text)) | set(TYPED.findall(text))
            declared |= {n for n in found if "-" in n} - set(MADE.findall(text))
        declared |= {n for n in ALIAS.findall(text) if "-" in n}
        for module, names in TAKEN.findall(text):
            if not any(module.startswith(f"Rattle.{c}.") for c in crates):
                library |= {n.split()[0] for n in names.split(",") if n.strip()}
    clash = declared & library
    names = {n: spelled(n) for n in sorted(declared - clash)}
    word = re.compile(rf"(?<![\w'\u2032-])({NAME})")
    used = set()
    for text in texts.values():
        used |= set(word.findall(text))
    for n, new in names.items():
        if new in used:
            print(f"falls together: {n} -> {new}")
    for n in sorted(clash):
        print(f"the library's name too: {n}")
    if len(set(names.values())) < len(names):
        seen = {}
        for n, new in names.items():
            seen.setdefault(new, []).append(n)
        print("two names fall together:", [v for v in seen.values() if len(v) > 1])
    print(f"{len(names)} names")
    if "--check" in arguments:
        return 0
    for path, text in texts.items():
        new = word.sub(lambda it: names.get(it[1], it[1]), text)
        if new != text:
            with open(path, "w", encoding="utf-8") as f:
                f.write(new)
    return 0


if __name__ == "__main__":
    sys.exit(main(sys.argv[1:]))
