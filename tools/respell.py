#!/usr/bin/env python3
"""Respells the definitions and lemmas of specs/ and proofs/: words in snake case, and a dash only where it joins two names.

usage: python3 tools/respell.py [--list]      at the top of the repository, once, behind port.py
       --list prints the old and the new names, and changes nothing

A name in lower camel case becomes snake case. A dash of a lemma stays where it joins two names (JOINED), and else it is an
underscore; a lemma that would have a definition's name gets `_lem`. A crate with the name of a library of the toolchain gets
another (CRATES). Whole tokens are turned: in .antt and .rt files, in the pairs of must-fail edits, and between backticks of comments,
README.md and docs/. Functions of src/, strings, generated names and proofs that walk the code by hand keep theirs.
It stops where two names would fall together.
"""
import collections
import glob
import os
import re
import sys

DECL = re.compile(r"^[ \t]*(?:(?:pub|abbrev|unfoldable|opaque|data|record)[ ]+)*([^\s:(){}]+)(?:[ ][^:\n]*?)?[ ]?:(?:\s|$)", re.M)
TOKEN = re.compile(r"[^\s(){}\[\].,;:|\"`@=+*/<>^&%!?#$\\]+")
# No names.
KEEP = {"--"}
# The lemmas named by the left side of an equation: the outer call, and then the inner.
JOINED = {
    "length-splice",
    "take-splice",
    "drop-splice",
    "store-splice",
    "drop-replicate",
    "length-givens",
    "number-rankFrom",
    "rankFrom-number",
}
# Crates that have the name of a library of the toolchain.
CRATES = {"log": "logs"}


def files(*patterns):
    return sorted(p for pattern in patterns for p in glob.glob(pattern, recursive=True) if "/out/" not in p)


def text(path):
    with open(path, encoding="utf-8") as f:
        return f.read()


def code(line):
    """The line's code without its comment."""
    return re.split(r"(?:^|\s)--(?:\s|$)|//", line)[0]


def declared(path):
    lines = "\n".join(code(line) for line in text(path).splitlines())
    return {m.group(1) for m in DECL.finditer(lines)} - KEEP


def snake(part):
    part = re.sub(r"([a-z0-9'])([A-Z])", r"\1_\2", part)
    return part.lower() if re.match(r"[a-z]", part) else part


def names():
    specs = {p: declared(p) for p in files("crates/*/specs/**/*.antt")}
    of_function = re.compile(r"/proofs/.+/(Proof|Answers|Invariants)\.antt$")
    proofs = {p: declared(p) for p in files("crates/*/proofs/**/*.antt") if not of_function.search(p)}
    found = {n for names in [*specs.values(), *proofs.values()] for n in names if re.match(r"[a-z]", n)}
    camel = {n: snake(n) for n in found if "-" not in n}
    taken = set(camel.values())
    for path in [*specs, *proofs]:
        for line in text(path).splitlines():
            taken |= {t for t in TOKEN.findall(code(line)) if "_" in t and not t.startswith("_")} - set(re.findall(r"Rattle\.(\w+)", line))
    new = {n: to for n, to in camel.items() if n != to}
    # A lemma that port.py respelled, and that now has a definition's name.
    new |= {n: n + "_lem" for n, to in camel.items() if n == to and n in new.values()}
    for name in sorted(n for n in found if "-" in n):
        if name in JOINED:
            to = "-".join(snake(part) for part in name.split("-"))
        else:
            to = snake(name.replace("-", "_"))
            if to in taken:
                to += "_lem"
        if to != name:
            new[name] = to
    return new


def clashes(new):
    """Names that fall together: two of one file, or one that a file names already. A function of src/ may have its definition's
    name, and so may a crate and what a `let` binds in a body that does not name the definition."""
    told = []
    back = collections.defaultdict(set)
    for old, to in new.items():
        back[to].add(old)
    for path in files("crates/*/specs/**/*.antt", "crates/*/proofs/**/*.antt"):
        if path.endswith("/Proof.antt"):
            continue
        tokens = set()
        for line in text(path).splitlines():
            tokens |= set(TOKEN.findall(re.sub(r"Rattle\.\w+", "", code(line))))
        tokens -= set(re.findall(r"\blet (\w+) ", text(path)))
        for to, olds in back.items():
            here = olds & tokens
            if len(here) > 1 or (here and to in tokens and to not in new):
                told.append((path, to, sorted(here), to in tokens))
    return told


def turned(line, new):
    line = TOKEN.sub(lambda m: new.get(m.group(0), m.group(0)), line)
    for old, to in CRATES.items():
        line = re.sub(rf"\bRattle\.{old}\.", f"Rattle.{to}.", line)
        line = re.sub(rf"(?<![\w:.]){old}::", f"{to}::", line)
    return line


def quoted(line, new):
    def within(m):
        said = turned(m.group(0), new)
        for old, to in CRATES.items():
            said = re.sub(rf"(?<![\w/]){old}/", f"{to}/", said)
        return said

    return re.sub(r"`[^`]*`", within, line)


def main():
    new = names()
    if "--list" in sys.argv:
        for old in sorted(new):
            print(old, new[old])
    told = clashes(new)
    for path, to, olds, there in told:
        print(f"clash: {path}: {to} of {' '.join(olds)}{' and a name there' if there else ''}", file=sys.stderr)
    if "--list" in sys.argv:
        return
    if told:
        sys.exit("respell: names fall together; nothing was changed")
    for path in files("crates/*/specs/**/*.antt", "crates/*/proofs/**/*.antt", "crates/*/src/**/*.rt"):
        lines = []
        # A function of src/ keeps its name.
        here = {n: to for n, to in new.items() if n + "_lem" != to} if path.endswith(".rt") else new
        for line in text(path).split("\n"):
            front = code(line)
            lines.append(turned(front, here) + quoted(line[len(front):], here))
        with open(path, "w", encoding="utf-8") as f:
            f.write("\n".join(lines))
    for path in files("crates/*/must-fail/*.edit"):
        lines = [turned(line, new) if line.startswith(("old:", "new:")) else quoted(line, new) for line in text(path).split("\n")]
        with open(path, "w", encoding="utf-8") as f:
            f.write("\n".join(lines))
    for old, to in CRATES.items():
        os.rename(f"crates/{old}", f"crates/{to}")
    lines = [re.sub(rf"\b({'|'.join(CRATES)})\b", lambda m: CRATES[m.group(0)], line) if line[:1] != "#" else line for line in text("crates.txt").split("\n")]
    with open("crates.txt", "w", encoding="utf-8") as f:
        f.write("\n".join(lines))
    for path in files("README.md", "docs/**/*.md"):
        with open(path, encoding="utf-8") as f:
            lines = [quoted(line, new) for line in f.read().split("\n")]
        with open(path, "w", encoding="utf-8") as f:
            f.write("\n".join(lines))


if __name__ == "__main__":
    main()
