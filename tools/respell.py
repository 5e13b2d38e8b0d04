#!/usr/bin/env python3
"""Brings this repository's own names in specs/ and proofs/ to one spelling.

A definition or lemma whose name has dashes gets underscores, and a type gets
upper camel case: find-name becomes find_name, Has-trees becomes HasTrees.
Names that the toolchain makes (goals, steps, loops) keep theirs, and so do
names of src/, strings, comments, inputs and outputs.

usage: respell.py [--check]      at the top of the repository
--check writes nothing. Each name that would meet another is printed on a line
that begins 'meets:', and then nothing is written.
"""

import collections
import glob
import os
import re
import sys

WORD = re.compile(r'[^\s(){}.;,@"«»]+')
MARKS = r"(?:(?:abbrev|unfoldable|pub|pattern|axiom)\s+)*"
DECLARES = re.compile(r"^(\s*)" + MARKS + r"(record|data)?\s*([^\s(){}.;,@\"«»]+)(?=\s[^\n=]*:|\s*:)")
MADE = ("Answers.antt", "Invariants.antt", "Choices.antt", "Proof.antt")
NOT_NAMES = {"use", "mod", "where", "module", "let", "in", "(", "elim", "record", "data", "--"}
GOAL = re.compile(r"^\s*(?:(?:abbrev|pub)\s+)*([^\s(){}.;,@\"«»]+)\s*:[^\n]*(?:goal|given)\.", re.M)


def texts():
    for kind in ("specs", "proofs"):
        yield from sorted(glob.glob(f"crates/*/{kind}/**/*.antt", recursive=True))


def new_name(name):
    if name[0].isupper():
        return "".join(w[:1].upper() + w[1:] for w in name.split("-"))
    return name.replace("-", "_")


def declared():
    """The dashed names that the texts declare, and those among them that are fields or constructors."""
    names, labels = set(), set()
    for path in texts():
        made = os.path.basename(path) in MADE
        block = None
        with open(path, encoding="utf-8") as f:
            for line in f:
                if made and GOAL.match(line):
                    continue
                m = DECLARES.match(line)
                indent = len(line) - len(line.lstrip())
                if line.strip() and block is not None and indent <= block:
                    block = None
                if m and m.group(2):
                    block = indent
                if not m:
                    continue
                name = m.group(3)
                if "-" not in name or name in NOT_NAMES or name.startswith("-") or "→" in name:
                    continue
                names.add(name)
                if block is not None and not m.group(2):
                    labels.add(name)
    return names, labels


def pieces(text, kind):
    """(piece, is code): comments and strings are no code."""
    quiet = r'"(?:[^"\\\n]|\\.)*"|(?<![^\s(){}.;,@"«»])--[^\n]*' if kind == "antt" else r'"(?:[^"\\\n]|\\.)*"|//[^\n]*'
    at = 0
    for m in re.finditer(quiet, text):
        yield text[at : m.start()], True
        yield m.group(), False
        at = m.end()
    yield text[at:], True


def turn(text, kind, table, labels, made):
    out = []
    kept = {m.group(1) for m in GOAL.finditer(text)} if made else set()
    for piece, code in pieces(text, kind):
        if not code:
            out.append(piece)
            continue

        def put(m):
            w = m.group()
            if w not in table or w in kept:
                return w
            before = piece[: m.start()]
            if before.endswith(".") and made and w not in labels:
                line = before[before.rfind("\n") + 1 :]
                if not line.lstrip().startswith(("use ", "pub use ")):
                    return w
            return table[w]

        out.append(WORD.sub(put, piece))
    return "".join(out)


def spans(text, table):
    def put(m):
        return "`" + WORD.sub(lambda w: table.get(w.group(), w.group()), m.group(1)) + "`"

    return re.sub(r"`([^`\n]+)`", put, text)


def main(argv):
    names, labels = declared()
    table = {n: new_name(n) for n in sorted(names)}
    meets = []
    reverse = collections.defaultdict(list)
    for a, b in table.items():
        reverse[b].append(a)
    meets += [f"meets: {' '.join(a)} as {b}" for b, a in reverse.items() if len(a) > 1]
    files = [(p, "antt") for p in texts()] + [(p, "rt") for p in sorted(glob.glob("crates/*/src/**/*.rt", recursive=True))]
    for path, kind in files:
        with open(path, encoding="utf-8") as f:
            text = f.read()
        words = set()
        for piece, code in pieces(text, kind):
            if code:
                words |= set(WORD.findall(piece))
        for w in sorted(words & set(table)):
            if table[w] in words:
                meets.append(f"meets: {path}: {w} and {table[w]}")
    for line in meets:
        print(line)
    print(f"respell: {len(table)} names")
    if "--check" in argv:
        for a, b in table.items():
            print(f"{a}\t{b}")
        return 0
    for path, kind in files:
        with open(path, encoding="utf-8") as f:
            text = f.read()
        new = turn(text, kind, table, labels, os.path.basename(path) in MADE)
        if new != text:
            with open(path, "w", encoding="utf-8") as f:
                f.write(new)
    for path in ["README.md", *sorted(glob.glob("docs/*.md"))]:
        with open(path, encoding="utf-8") as f:
            text = f.read()
        new = spans(text, table)
        if new != text:
            with open(path, "w", encoding="utf-8") as f:
                f.write(new)
    return 0


if __name__ == "__main__":
    sys.exit(main(sys.argv[1:]))
