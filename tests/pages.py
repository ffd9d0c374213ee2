#!/usr/bin/env python3
"""The pages' examples are true. The worked one of docs/bundle-format.md: its program writes a bundle that the reference accepts, whose first bytes are those on the page, and
its commands print what the page says; with the change that the page names it writes the reference's plain bundle, which is refused. The trial of docs/many-sets.md: its
commands make the houses, a set for each of six, and the refusals that the page shows. Commands are run in a folder of their own.

usage: tests/pages.py     needs target/bin/maker, walker and catalogue_list (tools/build); ends with 1 where a page is wrong
"""
import contextlib
import pathlib
import re
import subprocess
import sys
import tempfile

ROOT = pathlib.Path(__file__).resolve().parent.parent
sys.path.insert(0, str(ROOT / "tests" / "reference"))
import tickets
import wbref

RULES = tickets.Rules(5)
KEY = bytes(16)


def run(*command, given=b""):
    return subprocess.run(command, input=given, stdout=subprocess.PIPE, check=True, cwd=ROOT).stdout


def indented(page, first):
    """The indented block that begins with this line, without its indent."""
    block = re.search(rf"^    {re.escape(first)}.*?(?=^\S)", page, re.M | re.S)[0]
    return "\n".join(line[4:] for line in block.split("\n"))


@contextlib.contextmanager
def folder_for(page):
    """A folder in which the page's commands can be run, and a function that runs the block which begins so and gives its status and output."""
    with tempfile.TemporaryDirectory() as name:
        folder = pathlib.Path(name)
        for part in ("examples", "target", "tests"):
            (folder / part).symlink_to(ROOT / part)

        def ended(first):
            done = subprocess.run(["bash", "-ec", indented(page, first)], stdout=subprocess.PIPE, text=True, cwd=folder)
            return done.returncode, done.stdout.strip()

        yield folder, ended


def written(program):
    return run(sys.executable, "-c", program, given=run("target/bin/catalogue_list"))


def check_bundle(page, program):
    """A fault for each sentence about the program's bundle that is not true."""
    bundle = written(program)
    if RULES.judge(bundle) != (0, 0):
        yield f"the reference judges the bundle {RULES.judge(bundle)}"
    if bundle[:40] != bytes.fromhex(indented(page, "00000028 ")):
        yield "the five pairs are not those of the program"
    with folder_for(page) as (folder, ended):
        (folder / "bundle.py").write_text(program)
        answer = ended("{ head -c 16 /dev/zero; target/bin/catalogue_list")
        if answer != (0, re.search(r"target/bin/walker +# ([0-9a-f]+)", page)[1]):
            yield f"the commands give {answer}"


def check_plain(program):
    plain = written(program.replace("b\"\".join(mixing(", "b\"\".join(identity("))
    if plain != wbref.build_bundle(wbref.plain_sections()):
        yield "with identity for mixing the program does not write the reference's plain bundle"
    if RULES.judge(plain) != (5, 0) or run("target/bin/maker", given=KEY + plain) != b"refused 5 0\n":
        yield "the plain bundle is not refused with 5 and 0"


def check_trial(page):
    """A fault for each of the trial's commands that does something else than the page says."""
    with folder_for(page) as (folder, ended):
        refusals = indented(page, "sets/house-7.refused").strip()
        if ended("mkdir -p houses sets") != (0, "") or len(list(folder.glob("houses/*.in"))) != 8:
            yield "the trial does not make eight houses"
        if ended("printf ") != (123, "") or {p.name for p in folder.glob("sets/*.set")} != {f"house-{n}.set" for n in range(1, 7)}:
            yield "the sets of the trial are not those of houses 1 to 6"
        if ended("grep -H ") != (0, refusals):
            yield f"the refusals of the trial are not {refusals}"
        if ended("for input in houses/*.in; do\n        out=") != (0, ""):
            yield "a house of the trial has neither a set nor a refusal"
        if ended("examples/check-set ")[0] != 0:
            yield "a set of the trial fails its check, or the sums"


def main():
    page, trial = ((ROOT / "docs" / name).read_text() for name in ("bundle-format.md", "many-sets.md"))
    program = indented(page, "import random")
    faults = [*check_bundle(page, program), *check_plain(program), *check_trial(trial)]
    print("\n".join(faults + [f"pages: {len(faults)} faults"]))
    return 1 if faults else 0


if __name__ == "__main__":
    sys.exit(main())
