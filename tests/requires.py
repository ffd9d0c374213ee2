#!/usr/bin/env python3
"""docs/DECISIONS.md lists every public function that asks for something: each `pub fn` with a `requires` that another crate can name, and each such
method of a `pub trait`, stands in its section by its path, and each function that stands there is one. A call for C has no `requires`.

usage: tests/requires.py     ends with 1 and a line for each function that is not listed, or listed and none
"""
import pathlib
import re
import sys

ROOT = pathlib.Path(__file__).resolve().parent.parent
HEADING = "## Public functions that ask for something"
FUNCTION = re.compile(r"^ *(?P<pub>pub )?(?P<c>extern \"C\" )?fn (?P<name>\w+)(?P<head>.*?)\{\}?$", re.M | re.S)
METHOD = re.compile(FUNCTION.pattern.replace(r"\{\}?$", r"(?:\{\}?|;)$"), re.M | re.S)
TRAIT = re.compile(r"^pub trait [^\n]*\{$.*?^\}", re.M | re.S)
PASSED_ON = re.compile(r"^pub use (?:crate::)?(\w+)::(\w+|\{[^}]*\});", re.M)


def functions(path):
    """Of each function of a file: whether it is public, whether it is for C, its name, and whether it asks for something."""
    text = path.read_text()
    traits = TRAIT.findall(text)
    for part, pattern in [(TRAIT.sub("", text), FUNCTION), *((trait, METHOD) for trait in traits)]:
        for found in pattern.finditer(part):
            public = bool(found["pub"]) or pattern is METHOD
            yield public, bool(found["c"]), found["name"], bool(re.search(r"^ +requires\b", found["head"], re.M))


def asking(crate):
    """The paths of a library's functions that ask for something, and that another crate can name or C can call."""
    library = crate / "src/lib.rt"
    if not library.is_file():
        return
    root = library.read_text()
    opened = set(re.findall(r"^pub mod (\w+);", root, re.M))
    passed_on = {(module, name) for module, names in PASSED_ON.findall(root) for name in re.findall(r"\w+", names)}
    for path in sorted(crate.glob("src/**/*.rt")):
        module = [] if path == library else list(path.relative_to(crate / "src").with_suffix("").parts)
        for public, for_c, name, asks in functions(path):
            if not asks or not (public or for_c):
                continue
            if for_c or not module or module[0] in opened:
                yield "::".join([crate.name, *module, name]), for_c
            elif (module[0], name) in passed_on:
                yield f"{crate.name}::{name}", for_c


def main():
    found = dict(entry for crate in sorted((ROOT / "crates").iterdir()) for entry in asking(crate))
    page = (ROOT / "docs/DECISIONS.md").read_text()
    section = re.search(rf"^{re.escape(HEADING)}\n(.*?)(?=^## |\Z)", page, re.M | re.S)
    listed = set(re.findall(r"^\| *((?:`[\w:]+`(?:, )?)+)", section[1], re.M)) if section else set()
    listed = {name for cell in listed for name in re.findall(r"`(\w+(?:::\w+)+)`", cell)}
    faults = [] if section else [f"docs/DECISIONS.md has no section '{HEADING[3:]}'"]
    faults += [f"{name}: asks for something and C can call it" for name, for_c in found.items() if for_c]
    faults += [f"{name}: asks for something and is not listed" for name in sorted(found.keys() - listed)]
    faults += [f"{name}: is listed, and is no public function that asks for something" for name in sorted(listed - found.keys())]
    print("\n".join(faults + [f"{len(found)} public functions that ask for something, {len(faults)} faults"]))
    return 1 if faults or not found else 0


if __name__ == "__main__":
    sys.exit(main())
