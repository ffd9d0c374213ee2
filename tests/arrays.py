#!/usr/bin/env python3
"""docs/DECISIONS.md lists every array that stands beside the lent part while a set or a table is made: each array of a function that the maker's two calls
run through stands in its section by the function's path and its name, and each that stands there is one. Which of them holds words, and that none holds
an encoded one, is said there.

An array of a function is a local of an array type, written out, typed or what a call returns, and a parameter that is handed over by value. The functions
are those that the two calls reach in the crates that theirs depends on (crates.txt). Where a call's path does not tell which of several functions of a
name it means, all of them count.

usage: tests/arrays.py     ends with 1 and a line for each array that is not listed, or listed and none
"""
import pathlib
import re
import sys

ROOT = pathlib.Path(__file__).resolve().parent.parent
HEADING = "### The arrays beside a table's part"
CALLS = ["tables::make::make_set", "tables::make::make_table"]
FUNCTION = re.compile(r"^ *(?:pub(?:\(crate\))? )?fn (\w+)", re.M)
TYPE = r"\[[\w:]+; [^\]]+\]"
RESULT = re.compile(rf"-> {TYPE}")
PARAMETER = re.compile(rf"(\w+): {TYPE}")
LOCAL = re.compile(rf"\blet (?:mut )?(\w+)(?:: ([^=;]*?(?:{TYPE})?))? =\s*(\[|[\w:]+\()?")
CALL = re.compile(r"((?:\w+::)*|\.)(\w+)(?:::<[^>]*>)?\(")
METHOD = re.compile(r"\((?:&(?:mut )?)?(?:mut )?self\b")
CLAUSE = re.compile(r"^ *(?:requires|ensures)\b[^{]*\{", re.M)
IMPORT = re.compile(r"^use ([\w:]+)::(?:(\w+)|\{([^}]*)\});", re.M)


def crates(name):
    """The crate and all that it depends on."""
    rows = [row.partition("#")[0].partition(":") for row in (ROOT / "crates.txt").read_text().splitlines()]
    rows = {kind.split()[0]: uses for kind, _, uses in rows if kind.strip()}
    reached, open_ = set(), [name]
    while open_:
        crate = open_.pop()
        if crate in rows and crate not in reached:
            reached.add(crate)
            open_ += rows[crate].split()
    return sorted(reached)


def behind(text, at):
    """The place behind the brace that closes the one right before `at`."""
    depth = 1
    while depth:
        depth += {"{": 1, "}": -1}.get(text[at], 0)
        at += 1
    return at


def bare(text):
    """The code without its comments and contracts."""
    text = re.sub(r"//.*", "", text)
    while clause := CLAUSE.search(text):
        text = text[: clause.start()] + " " + text[behind(text, clause.end()) :]
    return text


def imported(text):
    """The names that a file's code imports, each with the path in front of it."""
    return {name: where for where, alone, names in IMPORT.findall(text) for name in re.findall(r"\w+", alone or names)}


def functions(names):
    """Each function's path, with its header, its body and the names that its file imports."""
    found = {}
    for crate in names:
        for path in sorted((ROOT / "crates" / crate / "src").rglob("*.rt")):
            module = [crate] if path.stem == "lib" else [crate, path.stem]
            text = bare(path.read_text())
            imports = imported(text)
            starts = list(FUNCTION.finditer(text))
            for start, end in zip(starts, [each.start() for each in starts[1:]] + [len(text)]):
                header, _, body = text[start.start() : end].partition("{")
                found["::".join([*module, start[1]])] = header, body, imports
    return found


def meant(all_, path, where, name):
    """The functions that a call of `name` in the function `path` may mean: `where` is what stands in front of the name. A dot does not tell the type."""
    named = [each for each in all_ if each.split("::")[-1] == name]
    if where == ".":
        return [each for each in named if METHOD.search(all_[each][0])]
    imports = all_[path][2]
    if not where:
        own = path.rsplit("::", 1)[0] + "::" + name
        if own in all_:
            return [own]
        if name not in imports:
            return []
        where = imports[name] + "::"
    last = where.split("::")[-2]
    return [each for each in named if last in each.split("::")[:-1] or last == "crate"] or named


def reach(all_):
    """The functions that the calls run through."""
    reached, open_ = set(), list(CALLS)
    while open_:
        path = open_.pop()
        if path not in reached:
            reached.add(path)
            open_ += [each for where, name in CALL.findall(all_[path][1]) for each in meant(all_, path, where, name)]
    return reached


def arrays(all_, path):
    """The names of a function's arrays."""
    header, body, _ = all_[path]
    yield from PARAMETER.findall(header)
    for name, type_, value in LOCAL.findall(body):
        if value == "[" or type_.startswith("["):
            yield name
        elif value.endswith("("):
            where, called = re.fullmatch(r"((?:\w+::)*)(\w+)\(", value).groups()
            if any(RESULT.search(all_[each][0]) for each in meant(all_, path, where, called)):
                yield name


def main():
    all_ = functions(crates(CALLS[0].split("::")[0]))
    reached = reach(all_)
    found = {(path, name) for path in reached for name in arrays(all_, path)}
    page = (ROOT / "docs/DECISIONS.md").read_text()
    section = re.search(rf"^{re.escape(HEADING)}\n(.*?)(?=^##|\Z)", page, re.M | re.S)
    rows = re.findall(r"^\| `([\w:]+)` \| ((?:`\w+`(?:, )?)+) \|", section[1], re.M) if section else []
    listed = {(function, name) for function, names in rows for name in re.findall(r"`(\w+)`", names)}
    faults = [] if section else [f"docs/DECISIONS.md has no section '{HEADING[4:]}'"]
    faults += [f"{function}: its array {name} is not listed" for function, name in sorted(found - listed)]
    faults += [f"{function}: {name} is listed, and is no array of a making" for function, name in sorted(listed - found)]
    print("\n".join(faults + [f"{len(reached)} functions, {len(found)} arrays, {len(faults)} faults"]))
    return 1 if faults or not found else 0


if __name__ == "__main__":
    sys.exit(main())
