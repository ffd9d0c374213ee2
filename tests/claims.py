#!/usr/bin/env python3
"""Every name that docs/CLAIMS.md gives is there: definitions, theorems and laws, functions, must-fail edits, test programs and paths.
So is every name with a path that the other pages give. What it calls a theorem is what a law gives, or a part of that. And what it quotes stands in the
request: documents 01 and 02 and the demands, where these are at hand in the folder that the environment names (REQUEST), or in `shared` beside the clone.

usage: tests/claims.py     ends with 1 and a line for each name that is not there, for each statement without a law, for each must-fail
                           edit that no claim names, and for each quotation that is nowhere; it says which papers were not at hand
"""
import os
import pathlib
import re
import sys

ROOT = pathlib.Path(__file__).resolve().parent.parent
CRATES = ROOT / "crates"
CRATE_NAMES = {p.name for p in CRATES.iterdir()}
WORDS = {"requires", "ensures"}  # of the language, not of a file


def text(path):
    return path.read_text() if path.is_file() else ""


def declares(path, names):
    """Each of the names, a declaration and then fields of records, is declared public in an antt file, or is a constructor there."""
    body = text(path)
    return all(re.search(rf"^ *(?:(?:unfoldable |abbrev )?pub (?:record |data )?|  ){re.escape(n)}(?= |$)", body, re.M) for n in names)


def defines(path, name):
    return re.search(rf"\b(?:fn|struct|enum) {name}\b", text(path)) is not None


def place(reference):
    """The file of a reference that has one, as a key for the names behind it, and whether its own name is there; else None."""
    if match := re.fullmatch(r"(\w+)/(?:(laws)/)?([A-Z]\w*)\.([^\s`]+)", reference):
        crate, laws, module, name = match.groups()
        path = CRATES / crate / ("proofs/laws" if laws else "specs") / f"{module}.antt"
        return ("antt", path), declares(path, name.split("."))
    if match := re.fullmatch(r"(\w+)((?:::\w+)+)", reference):
        crate, *modules, name = reference.split("::")
        path = CRATES / crate / "src" / f"{modules[0] if modules else 'lib'}.rt"
        return ("rt", path), crate in CRATE_NAMES and (defines(path, name) or (path.parent / f"{name}.rt").is_file())
    if (match := re.fullmatch(r"(\w+)/([a-z][a-z0-9_]*)", reference)) and match[1] in CRATE_NAMES:
        path = CRATES / match[1] / "must-fail"
        return ("edit", path), (path / f"{match[2]}.edit").is_file()
    return None


def there(reference, kind, path):
    """A name alone is of the file named before it."""
    if kind == "antt":
        return declares(path, reference.split("."))
    if kind == "rt":
        return defines(path, reference)
    return (path / f"{reference}.edit").is_file()


def test_there(reference):
    return reference in CRATE_NAMES or (ROOT / reference.split(" ")[0]).exists()


def missing(cells):
    """The names of a row that are not there. The last column names tests, the others what they are proved by."""
    for cell in cells[1:-1]:
        before = None
        for reference in re.findall(r"`([^`]+)`", cell):
            if found := place(reference):
                before, good = found
            elif re.fullmatch(r"[\w'-]+(?:\.[\w'-]+)*", reference) and before and reference not in WORDS:
                good = there(reference, *before)
            else:
                good = True  # a term, a path or a number, in words of its own
            if not good:
                yield reference
    for reference in re.findall(r"`([^`]+)`", cells[-1]):
        if not test_there(reference):
            yield reference


def edits_named(cells):
    for cell in cells[1:-1]:
        crate = None
        for reference in re.findall(r"`([^`]+)`", cell):
            if found := place(reference):
                crate = found[0][1].parent.name if found[0][0] == "edit" else None
            if crate:
                yield f"{crate}/{reference.split('/')[-1]}"


LAW = re.compile(r"^ *(?:abbrev |unfoldable )?(?:pub )?[^\s:-][^\s:]* : ([^\n]*(?:\n {4,}[^\n]*)*)", re.M)
IMPORT = re.compile(r"^use Rattle\.(\w+)\.specs\.(\w+)\.\{([^}]*)\}", re.M)


def imported(body):
    """The names that a file brings in from definitions, each with its crate and file."""
    return {name: (crate, file, name) for crate, file, names in IMPORT.findall(body) for name in names.split(", ")}


def results(kind):
    """The words behind the last arrow of a type, and of each field of a record."""
    return [word for part in re.split(r"\bpub\b", kind) for word in re.findall(r"[A-Z]\w*", part.split("→")[-1])]


def bodies():
    """Each declaration of specs/ that has a capital: its text, and what the names in it mean."""
    found = {}
    for path in CRATES.glob("*/specs/*.antt"):
        body = re.sub(r"^ *--.*$", "--", text(path), flags=re.M)
        crate, file = path.parts[-3], path.stem
        here = {name: (crate, file, name) for name in re.findall(r"^ *(?:abbrev |unfoldable )?pub (?:record )?([A-Z]\w*)", body, re.M)}
        for name in here:
            texts = re.findall(rf"^( *)(?:abbrev )?pub (?:record )?{name}\b([^\n]*(?:\n(?:\1 +[^\n]*|\1{name}\b[^\n]*|--)?$)*)", body, re.M)
            found[here[name]] = (" ".join(t for _, t in texts), {**imported(body), **here})
    return found


def stated():
    """What laws give, as (crate, file, name): what their results name, and then what these consist of."""
    declared, names = bodies(), set()
    for path in CRATES.glob("*/proofs/laws/*.antt"):
        means = imported(text(path))
        names |= {means[word] for kind in LAW.findall(text(path)) for word in results(kind) if word in means}
    todo = list(names)
    while todo:
        body, means = declared.get(todo.pop(), ("", {}))
        fresh = {means[word] for word in results(body) if word in means} - names
        names |= fresh
        todo += fresh
    return names


def unproved(cells, names):
    """The statements of the column of theorems that no law gives."""
    file = None
    for reference in re.findall(r"`([^`]+)`", cells[3]):
        if found := place(reference):
            file, reference = found[0], reference.split(".", 1)[1] if "." in reference else ""
        if file and file[0] == "antt" and "laws" not in file[1].parts and reference[:1].isupper():
            if (file[1].parts[-3], file[1].stem, reference.split(".")[0]) not in names:
                yield reference


PAST = {"DESIGN-PASS.md"}  # it sets what was before beside what is there now, so it names what is gone


def pages_missing():
    for page in [ROOT / "README.md", *(page for page in (ROOT / "docs").glob("*.md") if page.name not in PAST)]:
        for reference in re.findall(r"`([^`\n]+)`", text(page)):
            if re.split("::|/", reference)[0] in CRATE_NAMES and (found := place(reference)) and not found[1]:
                yield f"{page.name}: no {reference}"


REQUEST = pathlib.Path(os.environ.get("REQUEST", ROOT.parent / "shared"))
PAPERS = {"document 01": "01-scope.md", "document 02": "02-change-requests.md", "the demands": "demands.md"}
QUOTED = re.compile(r'"((?:[^"]|"[A-Z]\w*")*?)"(?=[\s,;:.)|]|$)')


def plain(words):
    """Words as they are compared: without marks of layout, lists or tables, on one line."""
    words = re.sub(r"[`*|]|^- ", " ", words, flags=re.M).replace("−", "-").replace("–", "-")
    return re.sub(r"\s+", " ", words).strip()


def quotations():
    """Of each quotation in the first column: the paper that its section is about, and its parts between marks of what is left out."""
    paper = "document 01"
    for line in text(ROOT / "docs/CLAIMS.md").splitlines():
        if line.startswith("## "):
            paper = "the demands" if line.startswith("## Demands") else "document 02" if line.startswith("## Document 02") else "document 01"
        elif line.startswith("| "):
            for quoted in QUOTED.findall(line[2:].split(" | ")[0]):
                yield paper, [plain(part) for part in re.split(r"\[\.\.\]|\.\.", quoted) if plain(part)]


def misquoted():
    """The parts of quotations that do not stand in the request, and a word on papers that are not at hand."""
    papers = {name: plain(text(REQUEST / file)) for name, file in PAPERS.items()}
    quoted = list(quotations())
    faults = [f"nowhere in the request: {part[:80]}" for paper, parts in quoted if papers[paper] for part in parts
              if not any(part.rstrip(",;:.") in papers[name] for name in papers)]
    words = [f"not at hand: {name}; {n} quotations of it were not looked up"
             for name in PAPERS if not papers[name] and (n := sum(paper == name for paper, _ in quoted))]
    return faults, words


def main():
    lines = [line.strip("| ").split(" | ") for line in text(ROOT / "docs/CLAIMS.md").splitlines() if line.startswith("| ")]
    rows = [cells for cells in lines if len(cells) == 6 and cells[4] != "Must-fail edit"]
    faults = [f"{row[0][:60]}: no {name}" for row in rows for name in missing(row)]
    names = stated()
    faults += [f"{row[0][:60]}: no law gives {name}" for row in rows for name in unproved(row, names)]
    faults += pages_missing()
    named = {edit for row in rows for edit in edits_named(row)}
    for edit in sorted(CRATES.glob("*/must-fail/*.edit")):
        name = f"{edit.parent.parent.name}/{edit.stem}"
        if name not in named:
            faults.append(f"no claim names the must-fail edit {name}")
    wrong, words = misquoted()
    faults += wrong
    print("\n".join(faults + words + [f"{len(rows)} claims, {len(faults)} faults"]))
    return 1 if faults or not rows else 0


if __name__ == "__main__":
    sys.exit(main())
