#!/usr/bin/env python3
"""Respells the repository's own definitions, fields and lemmas in snake case, and says which names would fall together.

usage: python3 tools/respell.py [FOLDER]    with the repository's top, or this one's

A name is the repository's own where a file of specs/ or proofs/ declares it. Dashes become underscores. Three names would
then be those of a field, a parameter or a function of the library, and get another word. A fact's name, as Parts-stand,
keeps its dash, and so does what the prover makes up, as loop-x-preserved.
"""

import pathlib
import re
import sys

TOP = pathlib.Path(sys.argv[1] if len(sys.argv) > 1 else pathlib.Path(__file__).parent.parent)
WORD = r"[A-Za-z_«][\w'\-«»⊎≡∷ℕ≤<]*"
DECLARED = re.compile(r"\s*(?:pub |abbrev |unfoldable )*(" + WORD + r") :(?! goal\.)")
OTHER = {"in-service": "is_in_service", "system-peak": "system_peak_of", "bit-and": "bit_both"}


def declared():
    names = set()
    for file in sorted(TOP.glob("crates/*/specs/**/*.antt")) + sorted(TOP.glob("crates/*/proofs/**/*.antt")):
        for line in file.read_text().splitlines():
            found = DECLARED.match(line)
            if found:
                names.add(found[1])
    return names


def respelled(names):
    new = {name: OTHER.get(name, name.replace("-", "_")) for name in names if "-" in name and name[0].islower()}
    taken = {}
    for name in sorted(names):
        taken.setdefault(new.get(name, name), []).append(name)
    for name, olds in taken.items():
        if len(olds) > 1:
            print("fall together:", *olds)
    return new


def main():
    new = respelled(declared())
    token = re.compile(r'"(?:[^"\\\n]|\\.)*"|' + WORD)
    for pattern in ("crates/*/src/**/*.rt", "crates/*/specs/**/*.antt", "crates/*/proofs/**/*.antt"):
        for file in sorted(TOP.glob(pattern)):
            text = file.read_text()
            turned = token.sub(lambda m: new.get(m[0], m[0]), text)
            if turned != text:
                file.write_text(turned)
    pages = sorted(TOP.glob("docs/*.md")) + [TOP / "README.md"]
    for file in pages:
        text = file.read_text()
        turned = re.sub(r"`(" + WORD + r")`", lambda m: "`" + new.get(m[1], m[1]) + "`", text)
        if turned != text:
            file.write_text(turned)
    print(len(new), "names respelled")


main()
