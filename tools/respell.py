#!/usr/bin/env python3
"""Spells this repository's own names of specs/ and proofs/ as Rattle's library does: definitions, lemmas and fields in snake case, with no dash and no capital within.

usage: tools/respell.py            in the repository, once, behind the port's own script
       tools/respell.py --names    lists the names that it would turn, each with its new spelling

It goes by spelling: a name that a file of specs/ or proofs/ declares, wherever it stands in .antt and .rt files and in the pages' code spans. A goal's name in a function's
proof stays, since the check gives it. Where two names of one file would fall together, the lemma gets `_lem` behind it. Types and modules keep their names, but for the four
files specs/Contracts.antt, whose name the check takes for its own: they are specs/Promises.antt.
"""

import collections
import os
import re
import subprocess
import sys

WORD = re.compile(r"[^\s(){}.;,@\"«»`\[\]]+")
DECLARED = re.compile(r"^ *(?:(?:pub|abbrev|unfoldable|opaque) )*([^\s(){}.;,@\"«»:]+)(?: \{[^{}\n]*\})* : *(\S*)", re.M)
GOAL = re.compile(r"(?:tie|goal|given)\.")
SPAN = re.compile(r"(`+)(?:[^\n]|\n(?!\s*\n))*?\1")
RENAMED = {"Contracts": "Promises"}


def snake(name):
    return re.sub(r"(?<=[a-z0-9])[A-Z]", lambda m: "_" + m[0].lower(), name).replace("-", "_")


def turns(name):
    return bool(re.match(r"[a-z]", name)) and name != snake(name) and bool(re.fullmatch(r"[\w'₀-₉-]+", name))


def files(*endings):
    for folder, dirs, names in os.walk("crates"):
        dirs[:] = sorted(d for d in dirs if d not in ("out", "target"))
        for name in sorted(names):
            if name.endswith(endings):
                yield os.path.join(folder, name)


def read(path):
    with open(path, encoding="utf-8") as f:
        return f.read()


def write(path, text):
    with open(path, "w", encoding="utf-8") as f:
        f.write(text)


def declared():
    found = collections.Counter()
    for path in files(".antt"):
        for name, kind in DECLARED.findall(read(path)):
            if turns(name) and not (path.endswith("Proof.antt") and GOAL.match(kind)):
                found[name] += 1
    return found


def table(names):
    """The new spelling of each name: its snake case, and `_lem` behind a dashed one that would meet another name of one of its files."""
    new = {n: snake(n) for n in names}
    for path in files(".antt"):
        words = set(WORD.findall(re.sub(r"--.*|\buse [\w.+]*", "", read(path))))
        here = collections.defaultdict(set)
        for w in words:
            here[new.get(w, w)].add(w)
        for spelled, olds in here.items():
            if len(olds) > 1:
                for n in olds:
                    if n in new and ("-" in n or len([o for o in olds if o in new]) == 1):
                        new[n] = spelled + "_lem" if "-" in n else spelled + "_of"
    return new


def turned(text, new):
    return WORD.sub(lambda m: new.get(m[0], m[0]), text)


def rename_files():
    for path in list(files(".antt")):
        folder, name = os.path.split(path)
        if os.path.basename(folder) == "specs" and name[:-5] in RENAMED:
            subprocess.run(["git", "mv", path, os.path.join(folder, RENAMED[name[:-5]] + ".antt")], check=True)
    for path in files(".antt", ".rt"):
        text = read(path)
        made = text
        for old, name in RENAMED.items():
            made = re.sub(rf"(specs\.){old}(?=\.\{{)", rf"\1{name}", made)
            made = re.sub(rf"(pub mod ){old}$", rf"\1{name}", made, flags=re.M)
            made = re.sub(rf"(specs/){old}\.antt", rf"\1{name}.antt", made)
        if made != text:
            write(path, made)


def main(argv):
    new = table(declared())
    if "--names" in argv:
        for n in sorted(new):
            print(n, new[n])
        return 0
    for path in files(".antt", ".rt"):
        text = read(path)
        made = turned(text, new)
        if made != text:
            write(path, made)
    rename_files()
    pages = ["README.md", "CONTRIBUTING.md"] + [os.path.join("docs", p) for p in sorted(os.listdir("docs")) if p.endswith(".md")]
    for path in pages:
        text = read(path)
        made = SPAN.sub(lambda m: turned(m[0], new), text)
        for old, name in RENAMED.items():
            made = re.sub(rf"((?:catalogue|evaluate|next_bit|records)/){old}\.", rf"\1{name}.", made)
        if made != text:
            write(path, made)
    return 0


if __name__ == "__main__":
    sys.exit(main(sys.argv[1:]))
