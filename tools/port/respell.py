#!/usr/bin/env python3
"""Gives the repository's own names in specs/, proofs/, clauses and edits the spelling of today's Rattle.

usage: tools/port/respell.py [--check]        at the top of the repository, once, after the kit's port.py

A word in lower camel case becomes snake case (activeList -> active_list); if what it names is a type, it becomes upper camel case
(isStored -> IsStored). A dash that joins two names stays, as does every name that begins with a capital. Functions of src/, fields of its
structs, exported names, strings, inputs and outputs are snake case already and are not touched.

It stops, and writes nothing, where a new name would meet another one. With --check it prints the names and writes nothing.
"""

import glob
import re
import sys

WORD = r"[^\s(){}.;,@\"«»\[\]:`]+"
TOKEN = re.compile(r"[\w'-]+")
BARE = re.compile(r"(?<![\w'.-])[\w'-]+")
MARKS = r"(?:(?:pattern|unfoldable|abbrev|pub|axiom) +)*"
SIGNATURE = re.compile(rf"(?m)^( *){MARKS}({WORD})((?: \{{[^{{}}\n]*\}})*) :(?=\s)")
# Lemmas and local names whose spelling a definition takes now, each with its new name.
GIVE_WAY = {"is_leaf": "is_leaf_lem", "next_one": "next_one_lem", "same_int": "same_int_lem", "walked_on": "went_on"}


def texts():
    found = glob.glob("crates/*/specs/**/*.antt", recursive=True) + glob.glob("crates/*/proofs/**/*.antt", recursive=True)
    return sorted(found) + sorted(glob.glob("crates/*/src/*.rt")) + sorted(glob.glob("crates/*/must-fail/*.edit"))


def signature_of(text, at):
    """The text of a signature: to the next line that is not indented deeper."""
    lines = text[at:].split("\n")
    got = [lines[0]]
    for line in lines[1:]:
        if not line.startswith("    ") or re.match(rf" *{MARKS}{WORD}(?: {WORD})* (?:=|:) ", line):
            break
        got.append(line)
    return " ".join(got)


def is_camel(word):
    return re.match(r"[a-z]", word) and "_" not in word and re.search(r"[a-z0-9][A-Z]", word)


def snake(word):
    word = re.sub(r"([a-z0-9])([A-Z])", r"\1_\2", word)
    return re.sub(r"([A-Z])([A-Z][a-z])", r"\1_\2", word).lower()


def main():
    files = {f: open(f, encoding="utf-8").read() for f in texts()}
    for f, text in files.items():
        if "/proofs/" in f:
            files[f] = BARE.sub(lambda m: GIVE_WAY.get(m[0], m[0]), text)
    types, camel, bare = set(), set(), {}
    for f, text in files.items():
        camel |= {p for w in TOKEN.findall(text) for p in w.split("-") if is_camel(p)}
        if f.endswith(".antt"):
            types |= {m[2] for m in SIGNATURE.finditer(text) if re.search(r"[→:] Type 0 *$", signature_of(text, m.start()).rstrip())}
            for line in text.split("\n"):
                if not line.startswith("use ") and not line.lstrip().startswith("--"):
                    for w in BARE.findall(line):
                        bare.setdefault(w, f)
        elif f.endswith(".rt"):
            for params in re.findall(r"\bfn \w+(?:<[^>]*>)?\(([^)]*)\)", text):
                bare |= {p: f for p in re.findall(r"(\w+)\s*:", params)}
    new = {p: p[0].upper() + p[1:] if p in types else snake(p) for p in sorted(camel)}
    # what port.py spelled so already, and a field of a struct
    known = {"bytes_of", "flat_map", "leaf_count", "le_z", "lt_z", "next_at", "place_in"}
    met = [f"{a} -> {b} in {bare[b]}" for a, b in new.items() if b in bare and b not in known]
    met += [b for b in set(new.values()) if list(new.values()).count(b) > 1]
    if "--check" in sys.argv:
        print("\n".join(f"{a} -> {b}" for a, b in new.items()))
    if met:
        print("names that meet another:", ", ".join(met), file=sys.stderr)
        return 2
    if "--check" in sys.argv:
        return 0
    for f, text in files.items():
        to = TOKEN.sub(lambda m: "-".join(new.get(p, p) for p in m[0].split("-")), text)
        with open(f, "w", encoding="utf-8") as it:
            it.write(to)
    return 0


if __name__ == "__main__":
    raise SystemExit(main())
