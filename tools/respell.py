#!/usr/bin/env python3
"""Spells the repository's own definitions and lemmas as today's Rattle does, after port.py.

usage: python3 tools/respell.py        at the top of the repository, once

A name that specs/ or a lemma file of proofs/ defines and that has a dash gets an underscore in its place (`fill-of`
becomes `fill_of`). A dash stays in a lemma that joins the names of two definitions, as in `length-turned`, and a fact
keeps its capital there, as in `Bytes-take`. Functions of src/, strings, inputs and outputs keep their names: of a file
of src/ only the `ghost` lines and the clauses are read.
"""
import os
import re

# Lemmas whose dash joins the names of two definitions.
JOINED = """digits-little elements-bytes elements-differenced elements-take folded-folded folded-running index-offset
length-bytes length-differenced length-differences length-elements length-gathered length-lessened length-restored
length-summed length-sums length-turned little-digits loaded-stored offset-index product-count restored-differenced
summed-lessened sums-differences turned-turned""".split()

# Names that say more than a dash: what std's word is called now, a fact with its capital.
OTHER = {
    "getD-gathered": "get_or-gathered",
    "getD-turned": "get_or-turned",
    "bytes-append": "Bytes-append",
    "bytes-bytes": "Bytes-bytes",
    "bytes-digits": "Bytes-digits",
    "bytes_drop": "Bytes-drop",
    "bytes-gathered": "Bytes-gathered",
    "bytes-stored": "Bytes-stored",
    "bytes-tail": "Bytes_tail",
    "bytes_take": "Bytes-take",
    "bytes-turned": "Bytes-turned",
}

NAME = re.compile(r"(?<![\w'.\-·])[A-Za-z][\w']*(?:-[\w']+)*|(?<=\.)[A-Za-z][\w']*(?:-[\w']+)*")
DEFINED = re.compile(r"\s*(?:abbrev pub |abbrev |unfoldable pub |unfoldable |pub record |pub data |pub |record |data )?([A-Za-z][\w']*(?:-[\w']+)*)(?:\s*\([^=]*\))?\s*:\s")


def files(top):
    for folder, dirs, names in os.walk(os.path.join(top, "crates")):
        dirs[:] = sorted(d for d in dirs if d != "out")
        for f in sorted(names):
            yield os.path.join(folder, f)


def is_own(path):
    """Whether a file holds definitions and lemmas under names of the repository's own."""
    return path.endswith(".antt") and os.path.basename(path) not in ("Answers.antt", "Invariants.antt", "Lib.antt")


def table(top):
    new = dict(OTHER)
    for path in files(top):
        if not is_own(path):
            continue
        with open(path, encoding="utf-8") as f:
            for line in f:
                m = DEFINED.match(line)
                if m and "-" in m[1] and m[1] not in JOINED and m[1] not in OTHER and not line.lstrip().startswith(("use ", "let ")):
                    new[m[1]] = m[1].replace("-", "_")
    return new


def ghost_parts(text):
    """The parts of a source file that contracts and proofs read: `ghost` items and clauses, by their places."""
    for m in re.finditer(r"^\s*(?:pub )?ghost use [^;]*;", text, re.M):
        yield m.span()
    for m in re.finditer(r"\b(?:requires|ensures|ghost)\b\*?[ \w]*:?[ =]*\{", text):
        depth, i = 1, m.end()
        while depth and i < len(text):
            depth += {"{": 1, "}": -1}.get(text[i], 0)
            i += 1
        yield m.end(), i


def main():
    top = os.getcwd()
    new = table(top)
    turn = lambda part: NAME.sub(lambda m: new.get(m[0], m[0]), part)
    changed = 0
    for path in files(top):
        if not path.endswith((".rt", ".antt")):
            continue
        with open(path, encoding="utf-8") as f:
            old = f.read()
        if path.endswith(".antt"):
            text = turn(old)
        else:
            text, at = "", 0
            for a, b in sorted(ghost_parts(old)):
                if a >= at:
                    text += old[at:a] + turn(old[a:b])
                    at = b
            text += old[at:]
        if text != old:
            with open(path, "w", encoding="utf-8") as f:
                f.write(text)
            changed += 1
    print(f"respell: {len(new)} names, {changed} files")


main()
