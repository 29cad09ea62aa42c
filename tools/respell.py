#!/usr/bin/env python3
"""Brings the definitions and lemmas of this repository to snake case.

usage: python3 tools/respell.py        at the top of the repository, once, after the kit's port/port.py

`keptOf` becomes `kept_of`. A name is turned where a file of specs/ or proofs/ declares it (or where it is one of LOCAL), in every .antt file,
and in the clauses, ghost items and comments of every .rt file; text in quotes stays. Lemmas that would have a definition's name get `_lem`
(LEMMA_FILES). It says where two names stand together in a file. Those of src/ are a function and the definition that its contract cites, which
had one name before too; those of proofs/ are a record's field and a variable that is put into it, or a step of a proof. With --look it writes
nothing.
"""
import collections
import os
import re
import sys

DECLARED = re.compile(r"\s*(?:(?:abbrev|unfoldable|pub)\s+)*([\w'-]+)\s*:")
TOKEN = re.compile(r"(?<![\w'-])[A-Za-z_][\w'-]*")
HUMPED = re.compile(r"[a-z][a-z0-9_'-]*[A-Z][\w'-]*")
# Names that a pattern or a λ binds.
LOCAL = {"fateWord", "rowAt", "shopAt'"}
# Lemmas of these names stand beside definitions whose new names are the same, in these files; in the others the name is a step of a
# function's proof.
LEMMA_FILES = {
    "entered_by": ["limits/proofs/EntryLaws", "limits/proofs/WeekLaws", "limits/proofs/AnswerLaws"],
    "none_above": ["reader/proofs/FileLaws", "reader/proofs/AcceptedLaws"],
    "one_more": ["duality/proofs/RowLaws", "late/proofs/Demand"],
    "fits_both": ["theory/proofs/NetworkLaws"],
    "joined_bytes": ["joinfile/proofs/FileLaws"],
    "kept_of": ["joined/proofs/CountLaws", "exchange/proofs/CutLaws"],
}


def snake(name):
    return re.sub(r"(?<=[a-z0-9])([A-Z])", lambda m: "_" + m.group(1).lower(), name)


def files(ending):
    """The files below crates/ whose names end so; several endings are a tuple."""
    for folder, dirs, names in os.walk("crates"):
        dirs[:] = sorted(d for d in dirs if d != "out")
        for f in sorted(names):
            if f.endswith(ending):
                yield os.path.join(folder, f)


def read(path):
    with open(path, encoding="utf-8") as f:
        return f.read()


def outside_strings(text, change):
    """The text of a source file, changed outside of text in double quotes."""
    return "".join(p if i % 2 else change(p) for i, p in enumerate(re.split(r'("(?:[^"\\\n]|\\.)*")', text)))


def main():
    texts = {p: read(p) for p in files(".antt")}
    sources = {p: read(p) for p in files(".rt")}
    declared = set(LOCAL)
    for text in texts.values():
        for line in text.split("\n"):
            m = DECLARED.match(line.split("--")[0])
            if m and HUMPED.fullmatch(m.group(1)):
                declared.add(m.group(1))
    turned = {name: snake(name) for name in declared if snake(name) != name}
    lemma = {}
    for name, where in LEMMA_FILES.items():
        for p in texts:
            if any(p == f"crates/{w}.antt" for w in where) or f"{{{name}}}" in texts[p] or re.search(r"use [^\n]*Laws\.\{[^}\n]*\b" + name + r"\b", texts[p]):
                lemma.setdefault(p, set()).add(name)

    def change(path):
        def one(m):
            word = m.group(0)
            if word in lemma.get(path, ()):
                return word + "_lem"
            return turned.get(word, word)

        return lambda text: TOKEN.sub(one, text)

    new = {}
    for p, text in list(texts.items()) + list(sources.items()):
        words = set(TOKEN.findall(text))
        for old in words & set(turned):
            if turned[old] in words and turned[old] not in lemma.get(p, ()):
                code = re.sub(r"Rattle[\w.+'-]*", "", re.sub(r"\.[\w'-]+", "", text))
                if turned[old] in TOKEN.findall(code):
                    print(f"look: {p}: {old} becomes {turned[old]}, which stands there")
        new[p] = change(p)(text) if p.endswith(".antt") else outside_strings(text, change(p))
    if "--look" in sys.argv:
        return 0
    count = collections.Counter()
    for p, text in new.items():
        old = texts.get(p, sources.get(p))
        if text != old:
            with open(p, "w", encoding="utf-8") as f:
                f.write(text)
            count[p.rsplit(".", 1)[1]] += 1
    print(f"{len(turned)} names turned, in {count['antt']} proof files and {count['rt']} source files")
    return 0



if __name__ == "__main__":
    raise SystemExit(main())
