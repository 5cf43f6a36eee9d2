#!/usr/bin/env python3
"""Brings the repository's own names of definitions and lemmas to the spelling of the newer Rattle, after the kit's port.py.

usage: tools/respell.py        at the top of the repository, once, on what port.py left

A word is in snake case: newAtom becomes new_atom. A lemma's dash stays where it joins two names, as in length-be, and where the
other form is taken; else it becomes an underscore. Types, facts and modules keep their names, and so do functions of src/, strings and inputs.
Prints each name that it leaves because another has the new one.
"""

import glob
import re

WORD = re.compile(r"[^\s(){}\[\],;.:|@\"]+")
# A name and not a part of a path or a field.
NAME = re.compile(r"(?<![.\w'-])[^\s(){}\[\],;.:|@\"]+")
DECLARED = re.compile(r"^\s*(?:(?:abbrev|unfoldable|irreducible|pub|ruleset)\s+)*([^\s:(){}]+)\s+:(?=\s|$)")
CAMEL = re.compile(r"^[a-z][a-z0-9₀-₉_]*[A-Z]")
# Words of the kit's library that lemmas are named after.
LIBRARY = "length take drop set sum slice get_or min max cond leb ltb eqb map".split()


def read(path):
    with open(path, encoding="utf-8") as f:
        return f.read()


# The kit's script gave two lemmas the names that definitions get here: (file, lemma, its name from now on).
FREED = [
    ("crates/rules/proofs/Smalls.antt", "bytes_fit", "fits-small_bytes"),
    ("crates/reads/proofs/Laws.antt", "bytes_fit", "fits-small_bytes"),
    ("crates/runs/proofs/Shows.antt", "bytes_fit", "fits-small_bytes"),
    ("crates/serial/proofs/Table.antt", "first_below", "first_below_lem"),
]
# Definitions whose new name is only that of a field, or of a fact within one proof.
SAFE = {"bytesFit", "isPair", "sameBytes"}
# A lemma whose name the library has too.
KEPT = {"and-true"}


def free():
    for path, old, new in FREED:
        with open(path, encoding="utf-8") as f:
            text = f.read()
        text = re.sub(rf"(?<![.\w'-]){old}(?![\w'-])(?! =| : (?:a\.used|bytesFit))", new, text)
        with open(path, "w", encoding="utf-8") as f:
            f.write(text)


def snake(word):
    word = re.sub(r"([a-z0-9])([A-Z])", r"\1_\2", word)
    return re.sub(r"([A-Z])([A-Z][a-z])", r"\1_\2", word).lower()


def declared(paths):
    names = set()
    for path in paths:
        for line in read(path).splitlines():
            m = DECLARED.match(line)
            if m:
                names.add(m.group(1))
    return names


def spelled(name, definitions):
    """The new spelling: words in snake case, and dashes that join plain words as underscores."""
    parts = [snake(p) if CAMEL.match(p) else p for p in name.split("-")]
    known = {snake(d) for d in definitions} | set(LIBRARY)
    plain = all(re.match(r"^\w+'?$", p) for p in parts)
    if len(parts) == 2 and parts[0] in known and parts[1] in known or not plain:
        return "-".join(parts)
    return "_".join(parts)


def main():
    if not any(CAMEL.match(name) for name in declared(sorted(glob.glob("crates/*/specs/**/*.antt", recursive=True)))):
        print("no name has the older spelling: nothing to do")
        return
    free()
    specs = sorted(glob.glob("crates/*/specs/**/*.antt", recursive=True))
    proofs = sorted(glob.glob("crates/*/proofs/**/*.antt", recursive=True))
    lemmas = [p for p in proofs if not p.endswith("/Proof.antt")]
    sources = sorted(glob.glob("crates/*/src/**/*.rt", recursive=True))
    edits = sorted(glob.glob("crates/*/must-fail/*.edit"))
    definitions = declared(specs)
    own = definitions | declared(lemmas)
    words = set()
    for path in specs + lemmas:
        words |= set(NAME.findall(re.sub(r"(?m)(^|\s)--.*$", "", read(path))))
    bound = set(words)
    for path in sources:
        bound |= set(re.findall(r"\bas (\w+)", read(path)))
    table = {}
    for name in sorted(own, key=lambda n: ("-" in n, n)):
        new = spelled(name, definitions)
        if new == name or name in KEPT:
            continue
        if (new in words and name not in SAFE) or new in table.values():
            print(f"left: {name}, since {new} is taken")
            continue
        table[name] = new
    # words that a proof or an import binds
    for word in sorted(bound):
        if CAMEL.match(word) and word not in own and word.isalnum():
            if snake(word) in words:
                print(f"left: {word}, since {snake(word)} is taken")
            else:
                table[word] = snake(word)

    def turned(m):
        return table.get(m.group(0), m.group(0))

    for path in specs + proofs + sources + edits:
        old = read(path)
        new = "\n".join(l if l.lstrip().startswith(("--", "//")) and not path.endswith(".edit") else WORD.sub(turned, l) for l in old.split("\n"))
        if new != old:
            with open(path, "w", encoding="utf-8") as f:
                f.write(new)
    print(f"{len(table)} names")


if __name__ == "__main__":
    main()
