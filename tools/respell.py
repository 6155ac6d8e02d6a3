#!/usr/bin/env python3
"""Brings the names of this repository's own definitions and laws to snake case: `valFrom` is `val_from`, `dec-value` is `dec_value`.

usage: tools/respell.py [--dry]     at the top of the repository, once, behind the toolchain's own script

Words of the library and names that the toolchain makes stay. It says where two names fall together, and writes nothing then.
"""

import os
import re
import sys

TOKEN = re.compile(r"[A-Za-z_\u00c0-\uffff][A-Za-z0-9_'\u2080-\u2089\u00c0-\u024f\u0370-\u03ff\u2100-\u214f-]*")
DECLARED = re.compile(r"^ *(?:pub |abbrev |unfoldable |package )*(" + TOKEN.pattern + r"(?: " + TOKEN.pattern + r")*) :(?: |$)")
CAMEL = re.compile(r"(?<=[a-z0-9\u2080-\u2089])(?=[A-Z])")
# Names that would fall together with another, and what they are called instead.
OTHERWISE = {n: n + "_lem" for n in ("no_end", "all_plain", "if_some", "one_each", "on_some")}
# A function of the program and its definition.
ALIKE = {"go_on"}


def files(root, ends):
    for folder, dirs, names in os.walk(os.path.join(root, "crates")):
        dirs[:] = sorted(d for d in dirs if d != "out")
        for name in sorted(names):
            if name.endswith(ends):
                yield os.path.join(folder, name)


def read(path):
    with open(path, encoding="utf-8") as f:
        return f.read()


def of_a_function(path):
    """Whether it is a file of one function's proof: its names are the toolchain's."""
    parts = path.split(os.sep)
    return "proofs" in parts and parts[-1] in ("Proof.antt", "Invariants.antt", "Answers.antt")


def declared(root):
    found = set()
    for path in files(root, ".antt"):
        if of_a_function(path):
            continue
        for line in read(path).splitlines():
            m = DECLARED.match(line)
            if m:
                found.update(m[1].split(" "))
    return found


def imported_of_library(root):
    """Every name that some file takes from outside this repository's crates."""
    own = {d for d in os.listdir(os.path.join(root, "crates"))}
    found = set()
    for path in files(root, (".antt", ".rt")):
        for m in re.finditer(r"use ([A-Za-z_.'·\u00c0-\uffff-]+)\.\{([^}]*)\}", read(path)):
            parts = m[1].split(".")
            if parts[0] == "Rattle" and len(parts) > 1 and parts[1] in own:
                continue
            for name in m[2].split(","):
                found.update(w.strip() for w in name.split(" as "))
    return found


def respelled(name):
    if name in OTHERWISE:
        return OTHERWISE[name]
    if name[0].isupper():
        return name
    return CAMEL.sub("_", name).replace("-", "_").lower() if CAMEL.search(name) or "-" in name else name


def spellings(root):
    """The new name of each. A law that would have its function's name gets `_lem`, as in the library."""
    library = imported_of_library(root)
    own = {n for n in declared(root) if n not in library}
    plain = {respelled(n) for n in own if "-" not in n and n not in OTHERWISE}
    names = {}
    for n in own:
        to = respelled(n)
        names[n] = to + "_lem" if "-" in n and to in plain else to
    return {n: to for n, to in names.items() if n != to}


def clashes(root, names, texts):
    """Names that fall together in a file: two of antt, or one of antt and a field, a parameter or a local of the program."""
    antt = declared(root) | imported_of_library(root) | set(names)
    for path, text in texts.items():
        seen = {}
        for m in TOKEN.finditer(text):
            seen.setdefault(names.get(m[0], m[0]), set()).add(m[0])
        for to, olds in sorted(seen.items()):
            if to in ALIKE:
                continue
            if len(olds) > 1 and len([o for o in olds if o in antt]) > 1:
                yield f"{path}: {sorted(olds)} -> {to}"
            elif len(olds) > 1 and path.endswith(".rt") and re.search(r"\b(let|let mut) " + to + r"\b|[(,] *" + to + r": |^ +(pub )?" + to + r": ", text, re.M):
                yield f"{path}: a name of the program: {to}"


def functions_of(root, path):
    """The functions of the file's crate: they keep their names, in src/ and in their proofs."""
    crate = path[len(root) + 1:].split(os.sep)[1]
    source = os.path.join(root, "crates", crate, "src")
    found = set()
    for name in os.listdir(source):
        if name.endswith(".rt"):
            found.update(re.findall(r"\bfn ([a-z_0-9]+)", read(os.path.join(source, name))))
    return found


def main():
    root = os.getcwd()
    names = spellings(root)
    texts = {p: read(p) for p in files(root, (".antt", ".rt"))}
    bad = list(clashes(root, names, texts))
    for line in bad:
        print("falls together: " + line)
    if "--list" in sys.argv[1:]:
        for n in sorted(names):
            print(n, names[n])
    print(f"{len(names)} names, {len(bad)} fall together")
    if "--dry" in sys.argv[1:] or bad:
        return 1 if bad else 0
    for path, text in texts.items():
        stay = ALIKE | functions_of(root, path)
        new = TOKEN.sub(lambda m: m[0] if m[0] in stay else names.get(m[0], m[0]), text)
        if new != text:
            with open(path, "w", encoding="utf-8") as f:
                f.write(new)
    return 0


if __name__ == "__main__":
    sys.exit(main())
