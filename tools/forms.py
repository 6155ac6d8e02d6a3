#!/usr/bin/env python3
"""Lists the places of older forms in a tree's sources, and counts them: docs/DESIGN-PASS.md says what they are.

    tools/forms.py [FOLDER] [-v]     FOLDER holds crates/ (here: this repository); -v prints each place
"""
import collections
import os
import re
import sys

arguments = [a for a in sys.argv[1:] if a != "-v"]
root = arguments[0] if arguments else os.path.join(os.path.dirname(__file__), "..")
places = collections.OrderedDict()


def place(what, where, text):
    places.setdefault(what, []).append((where, " ".join(text.split())[:110]))


def files(ending, folders):
    for crate in sorted(os.listdir(os.path.join(root, "crates"))):
        for folder in folders:
            for at, _, names in sorted(os.walk(os.path.join(root, "crates", crate, folder))):
                for name in sorted(names):
                    if name.endswith(ending):
                        path = os.path.join(at, name)
                        yield os.path.relpath(path, root), open(path).read()


# Items of the sources: a function with its clauses and body, a struct, an enum.
ITEM = re.compile(r"^( *)(?:pub )?(?:const )?(fn|struct|enum|impl)\b.*?(?:^\1\}|;)$", re.S | re.M)
KIND = r"(?:Cds|Genome|Mt|Tx|Rna|Prot|cds|genome|mt|tx|rna|prot)"
items = []
for path, text in files(".rt", ["src"]):
    plain = re.sub(r"//.*", "", text)
    for m in ITEM.finditer(plain):
        items.append((path, plain[: m.start()].count("\n") + 1, m.group(2), m.group(0)))
    for number, line in enumerate(plain.split("\n"), 1):
        where = f"{path}:{number}"
        if re.match(r"\s*(?:'\w+: )?(?:while|loop)\b", line):
            place("3 loops by while or loop", where, line)
        if re.match(r"(?:pub )?const \w+: (?:usize|u8) = \d+;", line):
            place("1 constants that are numbers: codes, sentinels, places", where, line)
        if re.search(r"-> isize", line):
            place("1 signed numbers as answers", where, line)
        if re.search(r"let \w+Read::Nothing = ", line):
            place("7 alternatives tried one by one", where, line)

for path, number, word, text in items:
    where = f"{path}:{number}"
    name = re.search(r"(?:fn|struct|enum|impl)\s*(?:<[^>]*>)?\s*([\w<>: ]+)", text).group(1).strip()
    if word == "enum":
        cases = [c.strip().rstrip(",") for c in text.split("\n")[1:-1] if c.strip()]
        full = [c for c in cases if "(" in c]
        if (len(cases) == 2 and len(full) == 1) or any(c.startswith("Refused") for c in cases):
            place("1 enums of the shape of Option or Result", where, f"{name}: {', '.join(cases)}")
    if word == "struct":
        for field in re.findall(r"\w+: bool,", text):
            place("1 flags in structs", where, f"{name}: {field}")
        for field in re.findall(r"\blen: usize,", text):
            place("6 lengths in structs", where, f"{name}: {field}")
    if word == "fn":
        if re.match(r"(?:same_(?!bytes|based|genomic|residual|cds|parts|position)\w+|of_(?:cds|genome|mt|tx|rna|prot|write|width|refusal)|(?:cds|genome|mt|tx|rna|prot)(?:_interval)?|any_body|record_body|loc_edit|kind_of|kind_letter|rebuilt\w*|magnitude|negative|least|capped|already_or_less|or_not|within|digit_value|got|count)$", name) and "compare" not in path:
            place("4 equality, order, copies and conversions by hand", where, text.split("\n")[0])
        if re.search(r"\{\n\s*return .*;\n\s*\}\n\s*(?:false|true|!?[\w:]+(?:\(.*\))?|[\w.]+ (?:==|<|<=) .*)\n\s*\}$", text) and re.search(r"-> bool", text):
            place("4 tests joined by return in place of && and ||", where, text.split("\n")[0])
        for clause in re.findall(r"requires \{ (.*?) \}\n", text, re.S):
            for fact in re.split(r" × ", clause):
                fact = fact.strip("() ")
                place("5", where, fact)

# Facts of requires by what they say, with the names left out; three and more of one are a place each.
facts = places.pop("5", [])


def said(fact):
    fact = re.sub(r"\bat \+ (?:\d+ \+ |n \+ \d+ \+ )?length \w+\.now ≤ 4096", "AT-AND-TEXT", fact)
    fact = re.sub(r"at \+ .* ≤ length out\.old", "ROOM", fact)
    fact = re.sub(r"line\.len ≤ length buffer\.(?:now|old)", "LINE", fact)
    return fact


counted = collections.Counter(said(f) for _, f in facts)
for where, fact in facts:
    if counted[said(fact)] >= 3:
        place("5 facts required by three functions and more", where, fact)

# Twins: items that are one but for the names of types, kinds, functions and numbers.
groups = collections.OrderedDict()
for path, number, word, text in items:
    name = re.search(r"(?:fn|struct|enum|impl)\s*(?:<[^>]*>)?\s*([\w<>: ]+)", text).group(1).strip()
    if word == "impl" or text.count("\n") < 3:
        continue
    key = re.sub(r"\b" + re.escape(name) + r"\b", "NAME", text)
    key = re.sub(r"\b\w*" + KIND + r"\w*\b", "K", key)
    key = re.sub(r"\b[A-Z]\w*(?:::[A-Z]\w*)?", "T", key)
    key = re.sub(r"b?'(?:\\.|.)'|b?\"(?:\\.|[^\"])*\"|\b\d+\b", "L", key)
    key = re.sub(r"ensures \{.*?\}\n", "", key, flags=re.S)
    groups.setdefault((word, " ".join(key.split())), []).append((f"{path}:{number}", f"{word} {name}"))
for members in groups.values():
    if len(members) > 1:
        for where, text in members:
            place("2 twins", where, f"{text} (one of {len(members)})")

answers = lines = 0
for path, text in files(".antt", ["proofs"]):
    if os.path.basename(path) in ("Answers.antt", "Invariants.antt"):
        for number, line in enumerate(text.split("\n"), 1):
            if re.match(r"pub \S+ : goal\.", line):
                answers += 1
        lines += text.count("\n")
for what in sorted(places):
    print(f"{len(places[what]):5} {what}")
    if "-v" in sys.argv:
        for where, text in places[what]:
            print(f"        {where}: {text}")
print(f"{answers:5} 8 answers by hand, {lines} lines of proof files")
