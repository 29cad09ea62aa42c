#!/usr/bin/env python3
"""Counts the places of each point of docs/DESIGN-PASS.md in the crates' sources.

    tools/forms.py            the counts, a line for each
    tools/forms.py NAME       the places behind a count, one a line

Comments are left out. A count of a kind of text is a place for each line that has it, and one of functions a place for each function.
"""
import collections
import glob
import re
import sys

TEXT = {
    "own enums with a refused variant": r"^\s*(Refused|Fault|Faulty|Turned)(\(|\s*\{|,)",
    "numbers for kinds, tables and answers": r"^(pub )?const [A-Z_0-9]+: (usize|u8|u32) = \d;",
    "while loops": r"\bwhile\b",
    "for loops": r"\bfor [a-z_]+ in\b",
    "casts": r" as (usize|u64|u32|u16|u8)\b",
    "fields copied one by one": r"^\s*(\w+): \w+\.\1,$",
}


def sources():
    for path in sorted(glob.glob("crates/*/src/*.rt")):
        lines = [re.sub(r"//.*", "", line.rstrip("\n")) for line in open(path, encoding="utf-8")]
        yield path, lines


def functions():
    """(path, line, name, head) of each function, the head without its clauses."""
    for path, lines in sources():
        text = "\n".join(lines)
        for found in re.finditer(r"^ *(?:pub )?(?:extern \"C\" )?fn (\w+)(<[^(]*>)?\((.*?)\)( -> [^\n]*)?\n", text, re.M | re.S):
            line = text.count("\n", 0, found.start()) + 1
            yield path, line, found.group(1), found.group(3), found.group(4) or ""


def parameters(head):
    return [" ".join(part.split()) for part in re.split(r",\s*(?=\w+: |mut |&)", head) if ":" in part]


def places():
    found = collections.OrderedDict((name, []) for name in TEXT)
    for path, lines in sources():
        for number, line in enumerate(lines, 1):
            for name, pattern in TEXT.items():
                if re.search(pattern, line):
                    found[name].append(f"{path}:{number}: {line.strip()}")
    heads = list(functions())
    found["functions over two widths of cells"] = [f"{p}:{n}: {f}" for p, n, f, head, _ in heads if "wide: bool" in head]
    widening = r"^\s*(x|n) as \w+$"
    texts = {path: lines for path, lines in sources()}
    found["functions that only widen"] = [
        f"{p}:{n}: {f}" for p, n, f, head, _ in heads
        if any(re.match(widening, line) for line in texts[p][n : n + 8]) and len(parameters(head)) == 1]
    found["functions that choose the lesser"] = [f"{p}:{n}: {f}" for p, n, f, _, _ in heads if f in ("lesser", "fewer")]
    pairs = collections.Counter()
    for _, _, _, head, _ in heads:
        names = sorted(set(parameters(head)))
        for i, one in enumerate(names):
            for other in names[i + 1 :]:
                pairs[one, other] += 1
    found["pairs of parameters in ten functions or more"] = [f"{n} {a}; {b}" for (a, b), n in pairs.most_common() if n >= 10]
    found["a buffer with the place behind what is written"] = [
        f"{p}:{n}: {f}" for p, n, f, head, result in heads
        if "at: usize" in head and "out: &mut [u8]" in head and "usize" in result]
    found["kept, with a reason beside"] = [
        f"{path}:{n}: {line.strip()}" for path in sorted(glob.glob("crates/*/src/*.rt"))
        for n, line in enumerate(open(path, encoding="utf-8"), 1) if "// stays: " in line]
    return found


def main():
    found = places()
    if len(sys.argv) > 1:
        for name, them in found.items():
            if name.startswith(" ".join(sys.argv[1:])):
                print(*them, sep="\n")
        return
    for name, them in found.items():
        print(f"{len(them):5}  {name}")


main()
