#!/usr/bin/env python3
"""Respells the repository's own definitions and lemmas as today's Rattle spells words: in snake case.

usage: python3 tools/respell.py    at the top of the repository, once, after the toolchain's port.py

Respelled are names that specs/ and proofs/*.antt declare: definitions, lemmas, labels of records,
constructors, and what modules inside them declare. `withWork` becomes `with_work`, `turn-by-due` becomes `turn_by_due`. Types and modules keep
their capital, names of src/ and of the library keep theirs. Names are replaced as whole words in .antt
files, in the clauses of .rt files, in must-fail edits and between back quotes in README.md and docs/.
It stops, and writes nothing, where two names would fall together.
"""
import os
import re
import subprocess
import sys

WORD = r"[^\s(){}\[\],;:.=λ×→⌜⌝∗`'\"|]"
DECLARED = re.compile(r"^(?:(?:abbrev|unfoldable|pub|data|record|deriving|mutual)\s+)*([^\s:(){}=;.,]+)\s*:(?!:)")
INNER = re.compile(r"^\s+(?:(?:abbrev|unfoldable|pub)\s+)*([a-z][^\s:(){}=;.,]*)\s*:(?!:)")
NOT_NAMES = {"where"}
# Names that the rule would make one with another name in use, and what they become instead. A lemma with the
# name of its function gets `_lem`.
CHOSEN = {
    "change-in-range": "change_in_range_lem",
    "command-ends": "command_ends_lem",
    "digits-read": "digits_read_lem",
    "fed-after": "fed_after_lem",
    "given-work": "given_work_lem",
    "has-work": "has_some_work",
    "lookup-effect": "lookup_effect_lem",
    "no-command": "not_a_command",
    "reach-after": "reach_is_after",
    "search-left": "search_left_lem",
    "stores-slot": "does_store_slot",
    "in-range": "is_in_range",
    "in-turn": "steps_in_turn",
    "word-of": "word_of_lem",
    "reader-digit": "reader_digit_lem",
    "largest-counted": "largest_counted_lem",
    "work-in-range": "work_in_range_lem",
    "reading-after": "reading_after_lem",
    "served-by": "served_by_lem",
    "feeds-now": "feeds_now_lem",
    "rows-now": "rows_now_lem",
    "sizes-in-range": "sizes_in_range_lem",
    "others-empty": "others_empty_lem",
    "change-access": "change_access_lem",
    "put-access": "put_access_lem",
    "removal-access": "removal_access_lem",
    "goesOn": "going_on",
    "fieldIn": "field_read",
}


def files(folder, endings):
    for at, folders, names in os.walk(folder):
        folders[:] = sorted(f for f in folders if f not in ("out", ".git", "target"))
        for name in sorted(names):
            if name.endswith(endings):
                yield os.path.join(at, name)


def is_of_function(path):
    """A file of a function's proof: what it declares is named by Rattle."""
    return "/proofs/" in path and path.endswith(("/Proof.antt", "/Answers.antt", "/Invariants.antt"))


def snake(name):
    if name[0].isupper():
        head = re.match(r"[A-Za-z0-9]+", name).group(0)
        return head + name[len(head):].replace("-", "_")
    words = re.sub(r"(?<=[a-z0-9])([A-Z])", lambda m: "_" + m.group(1).lower(), name)
    return words.replace("-", "_")


def read(path):
    with open(path, encoding="utf-8") as f:
        return f.read()


def declared():
    """Names declared at the top of a file, and those in a record, a data type or a module in it."""
    names = {}
    for path in files("crates", (".antt",)):
        if is_of_function(path):
            continue
        for line in read(path).splitlines():
            found = DECLARED.match(line) or INNER.match(line)
            if found:
                names.setdefault(found.group(1), path)
    return names


def imported():
    """Names that a `use` line takes from the library."""
    names = {}
    for path in files("crates", (".antt", ".rt")):
        for module, list_ in re.findall(r"use ([\w.◌·+-]+)\.\{([^}]*)\}", read(path)):
            parts = module.split(".")
            own = parts[0] == "Rattle" and parts[1] in OWN and parts[2:3] in (["specs"], ["proofs"])
            if not own:
                for name in list_.split(","):
                    names.setdefault(name.strip().split(" as ")[-1].strip(), path)
    return names


OWN = set(os.listdir("crates")) if os.path.isdir("crates") else set()


def main():
    theirs = imported()
    renamed, clashes = {}, []
    ours = declared()
    for name in sorted(ours):
        new = CHOSEN.get(name) or snake(name)
        if new == name or name in NOT_NAMES:
            continue
        if name in theirs:
            clashes.append(f"{name} of {ours[name]} is also imported from the library in {theirs[name]}")
        renamed[name] = new
    # Names that fall together in a file: with one another, or with a word that stands there already.
    back = {}
    for name, new in renamed.items():
        back.setdefault(new, []).append(name)
    for path in files("crates", (".antt",)):
        text = re.sub(r"--.*", "", read(path))
        words = set(re.findall(WORD + "+", text))
        bare = set(re.findall(r"(?<![\w.·'-])[A-Za-z_][\w'-]*(?![\w'-])(?!\.)", text))
        for new, names in back.items():
            here = [n for n in names if n in words]
            if len(here) > 1:
                clashes.append(f"{' and '.join(here)} of {path} both become {new}")
            if here and new in bare:
                clashes.append(f"{here[0]} becomes {new}, a word of {path}")
    if "--list" in sys.argv:
        for name, new in sorted(renamed.items()):
            print(name, new)
    if clashes:
        print("\n".join(clashes))
        if "--anyway" not in sys.argv:
            return 1

    pattern = re.compile("(?<!" + WORD + ")(?:" + "|".join(re.escape(n) for n in sorted(renamed, key=len, reverse=True)) + ")(?!" + WORD + ")")

    def turn(text):
        return pattern.sub(lambda m: renamed[m.group(0)], text)

    if "--list" in sys.argv:
        return 0
    for path in files("crates", (".antt", ".edit")):
        write(path, turn(read(path)))
    for path in files("crates", (".rt",)):
        write(path, turn_clauses(read(path), turn))
    pages = list(files("docs", (".md",))) + ["README.md"]
    for path in pages:
        write(path, re.sub(r"`[^`\n]+`", lambda m: turn(m.group(0)), read(path)))
    return 0


def turn_clauses(text, turn):
    """Only what contracts say: `ghost use` items, clauses and ghost fields; code keeps its words."""
    out, depth = [], 0
    for line in text.split("\n"):
        begins = re.match(r"^\s*(ghost use|requires|ensures|ghost)\b", line)
        if begins or depth > 0:
            depth += line.count("{") - line.count("}")
            line = turn(line)
            if begins and begins.group(1) == "ghost use":
                depth = 0 if line.rstrip().endswith(";") else 1
        out.append(line)
    return "\n".join(out)


def write(path, text):
    if text != read(path):
        with open(path, "w", encoding="utf-8") as f:
            f.write(text)


if __name__ == "__main__":
    sys.exit(main())
