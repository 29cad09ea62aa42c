#!/usr/bin/env python3
"""Brings the fields of this repository's records to snake case.

usage: python3 tools/respell_fields.py        at the top of the repository, once, after tools/respell.py

`cards-most` becomes `cards_most`: a field is a label, spelled as in Rust. A dash stays in the name of a lemma, where it joins two names. A field is
turned wherever its name stands, in every .antt file, in clauses and ghost items of .rt files and in the texts of must-fail edits. Where a
definition has the new name already (SHARED), only projections, labels of records and what a record's declaration says of its own fields are
turned, and a lemma of the field's name keeps its dash.
"""
import re

from respell import TOKEN, files, read

FIELD = re.compile(r"\s*(?:pub\s+)?([a-z][\w']*(?:-[\w']+)+)\s*:(?!:)")
RECORD = re.compile(r"\s*(?:pub\s+)?record\b")
# Fields whose new names are those of definitions.
SHARED = {"card-held", "after-cards", "after-shops", "card-node", "shop-node", "from-source", "to-sink"}


def fields(text):
    """The names with a dash that records of the text declare as fields."""
    inside = None
    for line in text.split("\n"):
        code = line.split("--")[0]
        indent = len(code) - len(code.lstrip())
        if RECORD.match(code):
            inside = indent
        elif inside is not None and code.strip() and indent <= inside:
            inside = None
        m = FIELD.match(code)
        if m and inside is not None:
            yield m.group(1)


def own(text):
    """Where a record's declaration names its own fields: their places in the text."""
    inside, start, mine = None, 0, set()
    for line in text.split("\n"):
        code = line.split("--")[0]
        indent = len(code) - len(code.lstrip())
        if RECORD.match(code):
            inside, mine = indent, set()
        elif inside is not None and code.strip() and indent <= inside:
            inside = None
        if inside is not None:
            m = FIELD.match(code)
            if m:
                mine.add(m.group(1))
            for t in TOKEN.finditer(code):
                if t.group(0) in mine:
                    yield start + t.start()
        start += len(line) + 1


def labels(text):
    """Where labels of record literals begin."""
    stack, start = [], 0
    for line in text.split("\n"):
        code = line.split("--")[0]
        for i, c in enumerate(code):
            if c in "([{":
                stack.append((c, c == "{" and bool(re.search(r"record[^{}()]*$", code[:i])), True))
            elif c in ")]}":
                if stack:
                    stack.pop()
            elif stack and stack[-1][1]:
                bracket, record, fresh = stack[-1]
                if c == ";":
                    stack[-1] = (bracket, record, True)
                elif not c.isspace() and fresh:
                    stack[-1] = (bracket, record, False)
                    yield start + i
        start += len(line) + 1


def main():
    names = set()
    for p in files(".antt"):
        names |= set(fields(read(p)))
    count = 0
    for p in files((".antt", ".rt", ".edit")):
        text = read(p)
        at = set(labels(text)) | set(own(text)) if p.endswith(".antt") else set()

        def one(m):
            word = m.group(0)
            if word not in names:
                return word
            if word in SHARED and text[m.start() - 1] != "." and m.start() not in at:
                return word
            return word.replace("-", "_")

        new = TOKEN.sub(one, text)
        if new != text:
            with open(p, "w", encoding="utf-8") as f:
                f.write(new)
            count += 1
    print(f"{len(names)} fields turned, in {count} files")


if __name__ == "__main__":
    main()
