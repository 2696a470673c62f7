#!/usr/bin/env python3
"""Respells the repository's own antt names in snake case, once, after the language's own scripts (port.py).

usage: python3 tools/respell.py [FOLDER]      (FOLDER: the top of the repository, by default where it is run)

A definition, lemma, record field or constructor that a crate declares in specs/ or proofs/, written
camelCase or with dashes, becomes snake_case: bitOf is bit_of, walk-more is walk_more. Types and modules keep
their capitals. Names of src/, of goals and of the library stay. It prints what it renamed, and
any names that fall together: of two, the lemma then ends in _lem.
"""
import glob
import os
import re
import sys

TOP = sys.argv[1] if len(sys.argv) > 1 else "."
TOKEN = re.compile(r"(?<![\w'·«-])[a-z][\w'-]*")
PLAIN = re.compile(r"[a-z][a-z0-9_]*'*")
# names that the language makes: of goals, steps, ghost fields and invariants
MADE = re.compile(r"(loop|if|in|returns|invariant|invariant_of|decreases|overflow|bounds|slice_bounds|then|else|nonzero|prove|told|type_inv|cast)-")


def read(path):
    with open(path, encoding="utf-8") as f:
        return f.read()


def snake(name):
    name = re.sub(r"(?<=[a-z0-9])([A-Z])", lambda m: "_" + m.group(1).lower(), name)
    return name.replace("-", "_")


def crates():
    return sorted(os.path.basename(d) for d in glob.glob(os.path.join(TOP, "crates", "*")) if os.path.isdir(d))


def texts(end):
    return sorted(glob.glob(os.path.join(TOP, "crates", "**", "*" + end), recursive=True))


def declared(text, whole):
    """The names that a file declares; whole: also those that it exports."""
    found = set()
    for line in text.split("\n"):
        line = line.split("--")[0] if line.startswith("--") else line
        m = re.match(r"(\s*)((?:abbrev |unfoldable |pub )*)([a-z][\w'-]*)(?: ([a-z][\w' -]*))? :( |$)", line)
        if m and not line.lstrip().startswith(("use ", "let ", "elim ")):
            if whole or m.group(1) or "pub" not in m.group(2):
                found.add(m.group(3))
                if m.group(4) and m.group(1):
                    found.update(m.group(4).split())
    return found


def main():
    own = crates()
    names, imported, kept = set(), set(), set()
    for path in texts(".antt"):
        text = read(path)
        parts = path.split(os.sep)
        inner = "proofs" in parts and len(parts) - parts.index("proofs") > 2
        names |= declared(text, not inner)
        if inner:
            kept |= declared(text, True) - declared(text, False)
    for path in texts(".antt") + texts(".rt"):
        for m in re.finditer(r"use ([\w.+·'-]+)\.\{([^}]*)\}", read(path)):
            if not (m.group(1).startswith("Rattle.") and m.group(1).split(".")[1] in own):
                imported |= {w.strip().split(" as ")[0] for w in m.group(2).split(",")}
    turn = {}
    for name in sorted(names):
        if PLAIN.fullmatch(name) or name in imported or name in kept or MADE.match(name):
            continue
        turn[name] = snake(name)
    after = {}
    for name in sorted(names | imported):
        after.setdefault(turn.get(name, name), set()).add(name)
    together = {a: sorted(b) for a, b in after.items() if len(b) > 1}
    # a lemma with the name of its definition ends in _lem
    for a, b in together.items():
        if len(b) == 2 and a not in imported:
            lemma = ([n for n in b if "-" in n] or [n for n in b if n == a])[0]
            turn[lemma] = a + "_lem"
    for path in texts(".antt") + texts(".rt"):
        text = read(path)
        new = TOKEN.sub(lambda m: turn.get(m.group(0), m.group(0)), text)
        if new != text:
            with open(path, "w", encoding="utf-8") as f:
                f.write(new)
    for a, b in sorted(turn.items()):
        print(f"{a} -> {b}")
    for a, b in sorted(together.items()):
        print(f"falls together: {a}: {', '.join(b)}")
    code = set()
    for path in texts(".rt"):
        code |= set(re.findall(r"\bfn (\w+)", read(path)))
    for a in sorted(set(turn.values()) & code):
        print(f"also a function's name: {a}")


main()
