#!/usr/bin/env python3
"""Brings the repository's own names to the spelling of today's Rattle: a definition, a field, a constructor or a lemma
that begins with a small letter is in snake case, as `leAt`, which becomes `le_at`.

usage: tools/respell.py        once, at the top, right after the kit's port.py; it prints how many names and files

A lemma that would then have the name of a definition ends in `_lem`. What begins with a capital, as types do, stays;
so does everything that src/ declares, as functions, constants and fields.
"""
import os
import re
import sys

CRATES = os.path.join(os.path.dirname(os.path.dirname(os.path.realpath(__file__))), "crates")
WORD = r"[\w'-]"
# The lemmas whose names fall together with those of definitions, each with its file.
LEMMAS = {
    "reader/proofs/Found.antt": ["text_at"],
    "payload/proofs/Onto.antt": ["moved_by"],
    "cells/proofs/Inside.antt": ["cell_in"],
    "rpc/proofs/Inside.antt": ["told_in", "asked_in"],
    "fit/proofs/SetTurns.antt": ["sets_end"],
    "round_trip/proofs/Reading.antt": ["sets_end"],
    "script/proofs/Values.antt": ["no_number"],
    "cells/proofs/CodeChunks.antt": ["goes_on"],
    "rpc/proofs/Walk.antt": ["goes_on"],
    "reader/proofs/Runs.antt": ["goes_on"],
    "script/proofs/Walk.antt": ["head_at"],
    "station/proofs/Lasting.antt": ["room_of"],
}


def files(*endings):
    for folder, folders, names in os.walk(CRATES):
        folders[:] = sorted(f for f in folders if f != "out")
        for name in sorted(names):
            if name.endswith(endings):
                yield os.path.join(folder, name)


def text_of(path):
    with open(path, encoding="utf-8") as file:
        return file.read()


def replaced(text, names):
    if not names:
        return text
    any_name = "|".join(re.escape(n) for n in sorted(names, key=len, reverse=True))
    return re.sub(f"(?<!{WORD})({any_name})(?!{WORD})", lambda m: names[m.group(1)], text)


def lemmas_renamed(path, text):
    """The text with the lemmas of LEMMAS under their new names: where they are declared and where they are brought in."""
    own = os.path.relpath(path, CRATES)
    names = {}
    if own in LEMMAS:
        names = {n: n + "_lem" for n in LEMMAS[own]}
    for place, lemmas in LEMMAS.items():
        crate, _, file = place.split("/")
        module = f"Rattle.{crate}.proofs.{file[:-len('.antt')]}"
        for brought in re.finditer(re.escape(module) + r"\.\{([^}]*)\}", text):
            for lemma in lemmas:
                if lemma in [n.strip() for n in brought.group(1).split(",")]:
                    names[lemma] = lemma + "_lem"
    return replaced(text, names)


def declared(text):
    text = re.sub(r"--.*", "", text)
    found = re.findall(r"^\s*(?:(?:abbrev|unfoldable|pub) )*([^\s(){}\[\]:,]+)(?: \{[^}]*\})? :(?= |$)", text, re.M)
    return [n for n in found if re.fullmatch(r"[a-z][a-z0-9]*(?:[A-Z][a-z0-9]*)+", n)]


def snake(name):
    return re.sub(r"(?<=[a-z0-9])([A-Z])", lambda m: "_" + m.group(1).lower(), name)


def main():
    changed = 0
    for path in files(".antt"):
        before = text_of(path)
        after = lemmas_renamed(path, before)
        if after != before:
            with open(path, "w", encoding="utf-8") as file:
                file.write(after)
    names = {}
    for path in files(".antt"):
        for name in declared(text_of(path)):
            names[name] = snake(name)
    # Bound in terms, and not declared.
    for name in ("isFirst", "isAsked", "rowCells", "userType", "nthAnswer", "inPlace"):
        names[name] = snake(name)
    for path in files(".antt", ".rt", ".edit"):
        before = text_of(path)
        after = replaced(before, names)
        if after != before:
            changed += 1
            with open(path, "w", encoding="utf-8") as file:
                file.write(after)
    print(f"{len(names)} names, {changed} files")


if __name__ == "__main__":
    sys.exit(main())
