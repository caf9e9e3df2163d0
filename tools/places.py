#!/usr/bin/env python3
"""Counts the places of src/ that are written by hand where the language or its library has a form for it.

usage: python3 tools/places.py [COMMIT] [-v]    of a commit, or of the files as they stand; -v lists the places

docs/DESIGN-PASS.md says what each count is, and which of the places stay as they are.
"""

import pathlib
import re
import subprocess
import sys

TOP = pathlib.Path(__file__).resolve().parent.parent
ARGS = [a for a in sys.argv[1:] if a != "-v"]
COMMIT = ARGS[0] if ARGS else None


def git(*words):
    return subprocess.run(["git", "-C", str(TOP), *words], capture_output=True, text=True, check=True).stdout


def sources(ending, part):
    """Each file of a folder of the crates, with its text."""
    if COMMIT:
        names = [n for n in git("ls-tree", "-r", "--name-only", COMMIT, "crates").split("\n")]
        texts = ((n, lambda n=n: git("show", f"{COMMIT}:{n}")) for n in names)
    else:
        texts = ((str(p.relative_to(TOP)), p.read_text) for p in sorted(TOP.glob("crates/**/*" + ending)))
    for name, text in texts:
        if re.match(rf"crates/\w+/{part}/", name) and name.endswith(ending):
            yield name, text()


CODE = list(sources(".rt", "src"))
PROOFS = list(sources(".antt", "proofs"))


def places(pattern, files=CODE):
    found = []
    for name, text in files:
        for m in re.finditer(pattern, text, re.M):
            found.append((name, text.count("\n", 0, m.start()) + 1, m.group(0).strip().split("\n")[0]))
    return found


def repeated_facts():
    """Clauses `requires` that stand word for word in three functions or more."""
    found = places(r"^ *requires \w* ?\{.*\}$")
    alike = {}
    for place in found:
        alike.setdefault(re.sub(r"requires \w* ?", "", place[2]), []).append(place)
    return [p for ps in alike.values() if len(ps) >= 3 for p in ps]


def long_parameter_lists():
    """Functions of six parameters or more."""
    found = []
    for name, text in CODE:
        for m in re.finditer(r"\bfn (\w+)(?:<[^(]*>)?\(([^{]*?)\)(?: ->|\s*\{|\s*\n)", text):
            if len([p for p in re.sub(r"\([^()]*\)|<[^<>]*>", "", m.group(2)).split(",") if p.strip()]) >= 6:
                found.append((name, text.count("\n", 0, m.start()) + 1, "fn " + m.group(1)))
    return found


def answers():
    """Answers to goals of the check."""
    return places(r"^(pub )?(returns|loop|overflow|index|part|slice|requires|invariant_of|cast|the_|in_|then|else|\w+-requires)[\w-]* :", [f for f in PROOFS if f[0].endswith("Answers.antt")])


# A count's name, what it counts, and the pattern of a place or the function that finds them.
POINTS = [
    ("1a", "own enums (each is read for the shape of Option or Result)", r"^ *(pub(\(\w+\))? )?enum "),
    ("1b", "let-else that only hands on None or an error", r"^ *let (Some|Ok)\(.*\) = .* else \{\s*return (None|Err\(.*\));\s*\};"),
    ("1c", "arms that only hand on None or an error", r"^ *(Err\((\w+)\) => (return )?Err\(.*\)|None => (return )?None|Ok\((\w+)\) => Ok\(\5\)),$"),
    ("1d", "fields that are a flag", r"^    (pub(\(\w+\))? )?\w+: bool,$"),
    ("1e", "an answer that stands for yes", r"Answer::Number\(0\)"),
    ("3a", "for loops over a counted range", r"^ *for \w+ in [^{]*\.\.[^{]*\{"),
    ("3b", "while loops", r"^ *while "),
    ("3c", "for loops that only search", r"^ *for [^{]*\{\n *if [^{]*\{\n *return [^\n]*\n *\}\n *\}\n"),
    ("3d", "for loops that only add up", r"^ *for [^{]*\{\n *\w+ (\+=|= \w+\.saturating_add)[^\n]*\n *\}\n"),
    ("4a", "functions that compare field by field", r"fn (is_same_\w+|is_for|is_on|is_among|precedes|stands_at|stands_before|replaces)\b"),
    ("4b", "chains of comparisons with words", r"if is\(text, "),
    ("4c", "structs made only to be printed", r"struct Words\("),
    ("5a", "facts required word for word by three functions or more", repeated_facts),
    ("5b", "functions of six parameters or more", long_parameter_lists),
    ("5c", "clauses that read the state off a month, or the facts off workings", r"(state_of S\.Readings\.meaning|facts_for R\.Readings\.meaning)"),
    ("6a", "arrays with a count beside", r"^    \w+: \[\w+; \w+\],\n    \w+: usize,"),
    ("6b", "lent slices with a count beside", r"^    (used: usize,\n    \w+: &'a mut \[|\w+: &'a mut \[.*\],\n    used: usize,)"),
    ("7", "tables of functions, steps chosen by a number", r"\bfn\([^)]*\) ->|\[fn\b|match step\b"),
    ("8", "answers in proofs/", answers),
]

for point, what, find in POINTS:
    found = find() if callable(find) else places(find)
    print(f"{point:3} {len(found):4}  {what}")
    if "-v" in sys.argv:
        for name, line, text in found:
            print(f"          {name}:{line}: {text[:100]}")
