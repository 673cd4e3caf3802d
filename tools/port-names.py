#!/usr/bin/env python3
"""What the kit's port.py leaves of this repository's spelling, in two steps, each run once at the top.

usage: port-names.py links     before port.py: each link becomes a copy of what it leads to; a link that leads nowhere goes
       port-names.py names     after port.py: the definitions and lemmas that are declared here get the kit's spelling

A definition, lemma or field is spelled in snake case: `fitsFour` is `fits_four`, `within-near` is `within_near`. Types, modules, constructors,
functions of src/, strings and the names of the kit stay. A lemma that would then have the name of another declaration gets `_lem`.
"""

import os
import re
import shutil
import sys

NAME = r"[^\s(){}.;,@\"«»:=\[\]→λ]+"
DECLARED = re.compile(rf"(?m)^ *(?:(?:unfoldable|abbrev|pub|ruleset) )*({NAME}) :")
# Lemmas within a file that have the new name of a definition which the file uses too.
WITHIN = {
    "crates/claims/proofs/Answers.antt": "one_more",
    "crates/claims/proofs/Plate.antt": "one_more",
    "crates/claims/proofs/Runs.antt": "one_less",
    "crates/claims/proofs/Sixteen.antt": "at_block",
    "crates/execution/proofs/Ready.antt": "pass_fits",
    "crates/interpreter/proofs/Rounds.antt": "going_on",
    "crates/reading/proofs/Wording.antt": "is_known",
}


def files(*endings):
    for folder, dirs, names in os.walk("crates"):
        dirs[:] = sorted(d for d in dirs if d != "out")
        for name in sorted(names):
            if name.endswith(endings):
                yield os.path.join(folder, name)


def read(path):
    with open(path, encoding="utf-8") as it:
        return it.read()


def links():
    for folder, dirs, names in os.walk("."):
        dirs[:] = sorted(d for d in dirs if d not in (".git", "out"))
        for name in sorted([*dirs, *names]):
            path = os.path.join(folder, name)
            if not os.path.islink(path):
                continue
            to = os.path.join(folder, os.readlink(path))
            os.remove(path)
            if os.path.isdir(to):
                shutil.copytree(to, path, symlinks=True)
            elif os.path.isfile(to):
                shutil.copyfile(to, path)
            print(f"{path}: {'a copy of ' + to if os.path.exists(path) else 'led nowhere, and is gone'}")


def snake(name):
    flat = name.replace("-", "_").replace("·", "_")
    return re.sub(r"(?<=[a-z0-9])([A-Z])", lambda it: "_" + it[1].lower(), flat)


def words_in(text):
    """The words of a file that stand for themselves: no comments, no fields, of a path the last word alone."""
    text = re.sub(r"(?m)--.*$", "", text)
    text = re.sub(rf"{NAME}\.(?={NAME})", "", "\n".join(it for it in text.split("\n") if it.startswith("use "))) + "\n" + re.sub(
        rf"(?<=[^\s(])\.{NAME}", "", "\n".join(it for it in text.split("\n") if not it.startswith("use ")))
    return set(re.findall(NAME, text))


def names():
    for path, name in WITHIN.items():
        text = re.sub(rf"(?<![\w.-]){name}(?![\w-])", name + "_lem", read(path))
        with open(path, "w", encoding="utf-8") as it:
            it.write(text)
    specs, lemmas = set(), set()
    for path in files(".antt"):
        if path.endswith("/Proof.antt"):
            continue
        found = {it for it in DECLARED.findall(read(path)) if re.match(r"[a-z]", it)}
        (specs if "/specs/" in path else lemmas).update(found)
    declared = specs | lemmas
    beside = {}
    for path in files(".antt"):
        here = words_in(read(path))
        for name in here:
            beside.setdefault(name, set()).update(here)
    turned, back = {}, {}
    # first the definitions, and of these what is written without a dash: a lemma gives way to one
    for name in sorted((it for it in declared if snake(it) != it), key=lambda it: (it not in specs, "-" in it, it)):
        new = snake(name)
        met = beside.get(new, set()) & {name} or {it for it in back.get(new, ()) if it in beside[name]}
        turned[name] = new + "_lem" if met else new
        back.setdefault(new, set()).add(name)
    word = re.compile(rf"(?<![^\s(){{}}.;,@\"«»:=\[\]])({NAME})")
    for path in files(".antt", ".rt", ".edit"):
        text = read(path)
        new = word.sub(lambda it: turned.get(it[1], it[1]), text)
        if new != text:
            with open(path, "w", encoding="utf-8") as it:
                it.write(new)
    for name, new in sorted(turned.items()):
        print(f"{name} {new}")


if __name__ == "__main__":
    {"links": links, "names": names}[sys.argv[1]]()
