#!/usr/bin/env python3
"""Spells the repository's own definitions, fields and laws in snake case, as today's libraries are spelled.

usage: tools/respell.py [--say] FOLDER      FOLDER is the top of a checkout in which the port.py of the kit has run

A name that a file of specs/ or proofs/ declares and that has a capital inside a word, as eventOf or length-upTo, gets an underscore there:
event_of, length-up_to. Types and modules keep their capitals; names that src/ declares, strings, inputs and outputs stay. Pages and edits are
respelled too. A law that would have its function's name afterwards ends in _lem (APART). With --say nothing is written, and each name that would
meet another one in some file is listed; a function of src/ may be called as the definition that its contract cites.
"""
import glob
import os
import re
import sys

WORD = re.compile(r"[^\s(){}.;,@\"«»\[\]\\|`:&]+")
DECLARED = re.compile(r"^ *(?:(?:pattern|unfoldable|abbrev|pub|data|record|ruleset) )*([^\s(){}.;,@\"]+)(?: \{[^{}\n]*\})* :(?!:)", re.M)
HUMP = re.compile(r"(?<=[a-z0-9])[A-Z]")
# Laws, aliases and fields that a definition's new name would meet: where they stand, their name, and the name that they get.
APART = [
    (r"crates/(packed|ontology|dossier)/proofs/.*\.antt", "is_within", "is_within_lem"),
    (r"crates/event/proofs/.*Laws\.antt", "head_bytes", "head_bytes_lem"),
    (r"crates/event/proofs/.*Laws\.antt", "text_at", "text_arms"),
    (r"crates/\w+/proofs/\w+\.antt", "has_room", "has_room_lem"),
    (r"crates/values/proofs/\w+\.antt", "is_digit", "is_digit_lem"),
    (r"crates/ways/proofs/RuleQuestionLaws\.antt", "version_of", "version_is"),
    (r"crates/theorems/(specs|proofs)/IdentityExamples\.antt", "by_lines", "joined-by_lines"),
]
# Binders that no signature declares.
BINDERS = ["textOfS", "textOfR"]


def texts(folder):
    paths = [p for e in ("antt", "rt", "edit") for p in glob.glob(os.path.join(folder, f"crates/*/**/*.{e}"), recursive=True)]
    paths += glob.glob(os.path.join(folder, "docs/**/*.md"), recursive=True) + [os.path.join(folder, "README.md")]
    for path in sorted(paths):
        if "/out/" not in path:
            with open(path, encoding="utf-8", newline="") as file:
                yield os.path.relpath(path, folder), file.read()


def snake(name):
    return "-".join(HUMP.sub(lambda m: "_" + m[0].lower(), p) if p[:1].islower() else p for p in name.split("-"))


def declared(files):
    names = set(BINDERS)
    for path, text in files:
        if path.endswith(".antt"):
            names.update(DECLARED.findall(re.sub(r"--[^\n]*", "", text)))
    return {n: snake(n) for n in names if n[:1].islower() and snake(n) != n}


def respelled(path, text, names):
    apart = {old: new for where, old, new in APART if re.fullmatch(where, path)}
    return WORD.sub(lambda m: names.get(m[0], apart.get(m[0], m[0])), text)


def say(files, names):
    for path, text in files:
        apart = {old: new for where, old, new in APART if re.fullmatch(where, path)}
        words = {apart.get(w, w) for w in WORD.findall(text)}
        for old, new in names.items():
            if old in words and new in words and path.endswith(("antt", "rt")):
                print(f"{path}: {old} {new}")


def main():
    folder = sys.argv[-1]
    files = list(texts(folder))
    names = declared(files)
    if "--say" in sys.argv:
        say(files, names)
        return
    for path, text in files:
        new = respelled(path, text, names)
        if new != text:
            with open(os.path.join(folder, path), "w", encoding="utf-8", newline="") as file:
                file.write(new)


main()
