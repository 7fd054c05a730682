#!/usr/bin/env python3
"""Respells the definitions and lemmas of this repository: types in camel case, everything else in snake case.

usage: tools/respell.py [FOLDER]      FOLDER: the top of a checkout; its crates/ and wip/ are rewritten in place

A name is respelled if a file of specs/ or proofs/ declares it, or binds it as a variable, with a hyphen in it (or, a type, with an underscore).
A name that a file imports from the standard library stays in that file.
Names that the check makes from the source (behind goal. and c., and the fields x-is of a variable) stay.
"""
import os
import re
import sys

NAME = r'[^\s(){}.;,@"«»]+'
ANSWERS = ("Answers.antt", "Invariants.antt", "Choices.antt")
# Variables with a hyphen that are no names of the standard library.
VARIABLES = """first-rules second-rules short-s short-t all-m all-n all-xs all-ys fits-e fits-f fits-y fits-z e-second tered-cons x-is y-is
n-other yes-parts none-given true-first cut-s cut-t is-s is-t rest-s rest-t is-ten is-fine one-accepting s-is ps-is e-is same-p same-q n-is
one-is other-is now-trees other-low a-is b-is is-other zero-link find-rule measure-ranks""".split()
DECLARED = re.compile(r"(?m)^ *(?:(?:abbrev|unfoldable|pub|record|data) )*(%s)(?: \{[^{}\n]*\}| \([^\n]*?\))* : (.*)" % NAME)


# What a file imports from a library keeps its name there.
LIBRARY = re.compile(r"(?m)\buse (?:Rattle\.std\.|lib\.|mathlib\.|denote\.)[^{\n]*\{([^}]*)\}")


def bare(text):
    return re.sub(r"--.*", "", text)


def files(top):
    for part in ("crates", "wip"):
        for folder, dirs, names in os.walk(os.path.join(top, part)):
            dirs[:] = sorted(d for d in dirs if d != "out")
            for name in sorted(names):
                if name.endswith((".antt", ".rt", ".edit")):
                    yield os.path.join(folder, name)


def declared(paths):
    """The names with a hyphen that the files declare, each with whether it is a type."""
    found = {}
    for path in paths:
        if not path.endswith(".antt"):
            continue
        with open(path, encoding="utf-8") as f:
            text = bare(f.read())
        for it in DECLARED.finditer(text):
            name, of = it[1], it[2].strip()
            if of == "goal." + name:
                continue
            is_type = re.search(r"Type 0\s*(where)?$", of) is not None
            if "-" in name.strip("-") or is_type and "_" in name:
                found[name] = found.get(name, False) or is_type
    return found


def respelled(name, is_type):
    if is_type:
        return "".join(word[:1].upper() + word[1:] for word in re.split("[-_]", name))
    return name.replace("-", "_")


def main(top):
    paths = list(files(top))
    table = {name: respelled(name, is_type) for name, is_type in declared(paths).items()}
    for path in paths:
        own = dict(table)
        is_answer = os.path.basename(path) in ANSWERS
        if not is_answer:
            own.update({name: respelled(name, False) for name in VARIABLES})
        with open(path, encoding="utf-8") as f:
            text = f.read()

        for it in LIBRARY.finditer(text):
            for name in re.findall(NAME, it[1]):
                own.pop(name, None)

        def turn(it):
            if is_answer and text[max(0, it.start() - 2):it.start()] == "w." and it[0].endswith("-is"):
                return it[0]
            return own.get(it[0], it[0])

        new = re.sub(NAME, turn, text)
        if new != text:
            with open(path, "w", encoding="utf-8") as f:
                f.write(new)
    for old, new in sorted(table.items()):
        print(old, new)


if __name__ == "__main__":
    main(sys.argv[1] if len(sys.argv) > 1 else ".")
