#!/usr/bin/env python3
"""Brings the names of this repository's own definitions and lemmas to snake case: dashes and inner capitals become underscores.

usage: python3 tools/respell.py          at the top of the repository, once, after port.py

Only names that the files of specs/ and proofs/ declare are touched, there and in the clauses of src/. Names of the
library, names that answer a goal, strings and comments stay. Names of functions in src/ stay too: a lemma that would
have the name of one, or of a word of the library, ends in _lem.
"""

import glob
import re
import subprocess
import sys

WORD = r"[A-Za-z_][\w'?\u2080-\u2099-]*"

# Laws of a field, which join the names of two operations as the library's own laws do.
KEPT = {"nil-add", "neg-add", "mul-add", "one-mul", "inv-mul"}

# Names that would fall together with a function, a field or a word of the library.
OWN = {
    "F3": "f3",
    "all-long": "all_long_lem",
    "bit-and": "bit_and_lem",
    "bit-or": "bit_or_lem",
    "bit-xor": "bit_xor_lem",
    "checkDigits": "check_digits_of",
    "dual-within": "dual_within_lem",
}


def files():
    found = []
    for part in ("specs", "proofs"):
        found += glob.glob(f"crates/*/{part}/**/*.antt", recursive=True)
    return sorted(found)


def declared(text):
    """The names that a file declares, but for the answers to goals."""
    names = set()
    for line in text.split("\n"):
        code = line.split("-- ")[0]
        kind = re.match(rf"\s*(?:pub )?(?:record|data)\s+({WORD})", code)
        if kind:
            names.add(kind.group(1))
        if re.match(r"\s*(?:use|let|open)\b", code):
            continue
        sig = re.match(rf"\s*(?:(?:abbrev|unfoldable|pub)\s+)*({WORD}(?:\s+{WORD})*)\s*:\s(.*)$", code)
        if sig and not re.match(r"(?:goal|given|need)\.", sig.group(2).strip()):
            names.update(sig.group(1).split())
    return names


def new_name(name):
    if name in OWN:
        return OWN[name]
    if name in KEPT or not re.match(r"[a-z_]", name):
        return name
    name = name.replace("-", "_")
    return re.sub(r"(?<=[a-z0-9])([A-Z])", lambda m: "_" + m.group(1).lower(), name)


def turned_code(text, table):
    return re.sub(WORD, lambda m: table.get(m.group(0), m.group(0)), text)


def turned_antt(text, table):
    lines = []
    for line in text.split("\n"):
        at = re.search(r"(?:^|\s)--(?:\s|$)", line)
        cut = at.start() if at else len(line)
        lines.append(turned_code(line[:cut], table) + line[cut:])
    return "\n".join(lines)


def turned_rt(text, table):
    parts = re.split(r"(\"(?:[^\"\\]|\\.)*\"|//[^\n]*)", text)
    return "".join(part if i % 2 else turned_code(part, table) for i, part in enumerate(parts))


def main():
    texts = {path: open(path, encoding="utf-8").read() for path in files()}
    names = set().union(*(declared(text) for text in texts.values()))
    table = {name: new_name(name) for name in sorted(names) if new_name(name) != name}
    if len(set(table.values())) != len(table) or names & set(table.values()):
        sys.exit("two names fall together: " + ", ".join(sorted(names & set(table.values()))))
    for path in glob.glob("crates/*/src/**/*.rt", recursive=True):
        texts[path] = open(path, encoding="utf-8").read()
    changed = 0
    for path, text in texts.items():
        new = turned_rt(text, table) if path.endswith(".rt") else turned_antt(text, table)
        if new != text:
            changed += 1
            with open(path, "w", encoding="utf-8") as f:
                f.write(new)
    for crate in sorted(glob.glob("crates/*/")):
        subprocess.run(["rt", "fmt"], cwd=crate, stdout=subprocess.DEVNULL, stderr=subprocess.DEVNULL)
    print(f"{len(table)} names respelled in {changed} files")


main()
