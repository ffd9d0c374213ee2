#!/usr/bin/env python3
"""What makes a proof readable and is plain to see: no long line, no long path to a fact, a header that names the function, no import
that nothing uses; and that the mark of bytes that were read is put in one place. CONTRIBUTING.md says how a proof is written.

usage: tests/proofs.py     ends with 1 and a line for each fault
"""
import pathlib
import re
import sys

ROOT = pathlib.Path(__file__).resolve().parent.parent
WIDTH = 180  # characters to a line
LINKS = 6  # to a path, as `c.loop-t.invariant.turns.made.long`: a fact further in has a name, by `let` or as an argument of a law

PATH = re.compile(r"(?<![\w.'])[\w'-]+(?:\s*\.[\w'-]+)+")
IMPORT = re.compile(r"^use [^\n{]*(?:\.\{([^}]*)\}|(?<= as )(\S+)$)", re.M)
# A name ends where another kind of character stands; an operator, as ◌+◌, is used as the words between its places.
END = r"\s(){}\[\].,;"

# The mark of bytes that were read, crates/streams/specs/Received.antt: one file of laws names its constructor `given`, and one proof names those laws.
RECEIVED = re.compile(r"Rattle\.streams\.specs\.Received\b(?:\.\{([^}]*)\})?")
RECEIVING = re.compile(r"Rattle\.streams\.proofs\.laws\.Receiving\b")
GIVES = ROOT / "crates/streams/proofs/laws/Receiving.antt"
READS = ROOT / "crates/streams/proofs/stream/receive"

# What is written of a function's proof, in a folder of its own: the answers to its goals, its invariants and measures, or the whole by hand.
PARTS = ("Answers.antt", "Invariants.antt", "Proof.antt")


def has(word, body):
    return re.search(rf"(?:^|[{END}]){re.escape(word)}(?:$|[{END}])", body)


def used(name, body):
    """Whether a text has the name, or each word of an operator."""
    name = name.split(" as ")[-1]
    return has(name, body) or all(has(word, body) for word in name.split("◌") if word)


def imports(text, body):
    """The imported names that the text does not use."""
    for line in IMPORT.finditer(text):
        for name in (line[1] or line[2]).split(","):
            if not used(name.strip(), body):
                yield f"nothing uses {name.strip()}"


def header(path, text):
    """The first line of a function's proof names it: crates/NAME/proofs/MODULE/FUNCTION/ is of `NAME::MODULE::FUNCTION`. It stands in the first of the folder's files."""
    crate, part, *modules, name = path.relative_to(ROOT / "crates").parts
    first = next((each for each in PARTS if (path.parent / each).is_file()), None)
    if part == "proofs" and modules and modules[0] != "laws" and name == first:
        function = "::".join([crate, *modules])
        if not text.startswith(f"-- `{function}`"):
            yield f"the header does not begin with `{function}`"


def marks(path, text):
    """No other file can put the mark: what it takes of the mark's module is a list of names without `given`."""
    for taken in RECEIVED.finditer(text):
        if path != GIVES and (taken[1] is None or "given" in re.split(r"[\s,]+", taken[1])):
            yield "names `given`, which marks bytes as read"
    if path.parent != READS and RECEIVING.search(text):
        yield "names the laws that mark bytes as read"


def faults(path):
    text = path.read_text()
    body = re.sub(r"^(?:pub |unfoldable )*use [^\n]*|--.*", "", text, flags=re.M)
    for number, line in enumerate(text.split("\n"), 1):
        if len(line) > WIDTH:
            yield f"line {number} has {len(line)} characters"
    for path_ in PATH.finditer(body):
        links = path_[0].count(".")
        if links > LINKS:
            yield f"line {body.count(chr(10), 0, path_.start()) + 1} has a path of {links} links"
    yield from imports(text, body)
    yield from marks(path, text)
    yield from header(path, text)


def main():
    files = sorted(p for folder in ("proofs", "specs") for p in ROOT.glob(f"crates/*/{folder}/**/*.antt"))
    found = [f"{path.relative_to(ROOT)}: {fault}" for path in files for fault in faults(path)]
    print("\n".join(found + [f"{len(files)} files, {len(found)} faults"]))
    return 1 if found or not files else 0


if __name__ == "__main__":
    sys.exit(main())
