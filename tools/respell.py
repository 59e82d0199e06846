#!/usr/bin/env python3
"""Spells the names that this repository's definitions and lemmas declare as Rattle spells words: in snake case.

usage: python3 tools/respell.py        at the top of the repository, once, after the kit's port.py

A name that begins with a small letter and that a file of specs/ or of proofs/ (not of a function's folder) declares, as
`fieldAt` or `node-done`, becomes `field_at` and `node_done`: in every .antt and .rt file, in the must-fail edits, and between
backquotes in the pages. Types and facts, which begin with a capital, stay. A lemma whose new name is that of a definition gets
`_lem` behind it. Names that the check makes (behind a dot in a function's folder, as `c.read-some`) stay.
A second run finds nothing to do. Names that would fall together otherwise are printed, and nothing is written then.
"""

import collections
import glob
import re
import sys

DECLARED = re.compile(
    r"^\s*(?:\| )?(?:(?:abbrev|unfoldable|pub|record|data) )*([^\s(){}.;,@\"«»|]+)(?: \{[^}]*\})* :(?: |$)"
)
RENAMED = re.compile(r"[ {]([^\s{}.;,]+) as ([^\s{}.;,]+)")
WORD = re.compile(r'[^\s(){}.;,@"«»`]+')
SPAN = re.compile(r"`[^`\n]*`")


def snake(name):
    return re.sub(r"(?<=[a-z0-9])[A-Z]", lambda m: "_" + m[0].lower(), name).replace("-", "_")


def read(path):
    with open(path, encoding="utf-8") as f:
        return f.read()


def declared():
    names = set()
    files = glob.glob("crates/*/specs/*.antt") + glob.glob("crates/*/proofs/*.antt")
    for path in files:
        for line in read(path).split("\n"):
            found = DECLARED.match(line)
            if found:
                names.add(found[1])
    for path in files + glob.glob("crates/*/src/**/*.rt", recursive=True):
        for line in read(path).split("\n"):
            if re.match(r"(ghost )?use ", line):
                names.update(m[2] for m in RENAMED.finditer(line))
    return names


def table():
    names = declared()
    turned, met = {}, []
    for name in sorted(names, key=lambda n: ("-" in n, n)):
        to = snake(name)
        if to == name or not name[0].islower():
            continue
        if to in names or to in turned.values():
            if "-" not in name or to + "_lem" in names:
                met.append((name, to))
                continue
            to += "_lem"
        turned[name] = to
    return turned, met


def turn(text, turned, counts, held, made=False):
    def one(m):
        word = m[0]
        if word not in turned:
            return word
        if made and "-" in word and text[m.start() - 1 : m.start()] == ".":
            held[word] += 1
            return word
        counts[word] += 1
        return turned[word]

    return WORD.sub(one, text)


def main():
    turned, met = table()
    if met:
        print("these fall together:", met)
        return 1
    counts, held = collections.Counter(), collections.Counter()
    whole = (
        glob.glob("crates/**/*.antt", recursive=True)
        + glob.glob("crates/*/src/**/*.rt", recursive=True)
        + glob.glob("crates/*/must-fail/*.edit")
    )
    for path in whole:
        text = read(path)
        new = turn(text, turned, counts, held, made=bool(re.search(r"/proofs/.+/[^/]+$", path)))
        if new != text:
            with open(path, "w", encoding="utf-8") as f:
                f.write(new)
    for path in ["README.md"] + glob.glob("docs/**/*.md", recursive=True) + glob.glob("sheets/*.md"):
        text = read(path)
        new = SPAN.sub(lambda m: turn(m[0], turned, counts, held), text)
        if new != text:
            with open(path, "w", encoding="utf-8") as f:
                f.write(new)
    print(f"{len(turned)} names, {sum(counts.values())} places")
    for word, n in sorted(held.items()):
        print(f"look: {word} stays behind a dot, {n} places")
    return 0


if __name__ == "__main__":
    sys.exit(main())
