#!/usr/bin/env python3
"""Makes crates/catalogue_list/stdout, the catalogue of document 02's Ticket 4, from the reference (tests/reference/tickets.py).

usage: tests/catalogue_list.py                     write the file
       tests/catalogue_list.py --check [PROGRAM]   compare it with what the reference says, and run PROGRAM, the compiled program, by default
                                                   target/bin/catalogue_list

The program writes that file in under a second, whatever its standard input is. What it says of a write that fails is in tests/streams.py.
"""
import os
import random
import subprocess
import sys
import time

HERE = os.path.dirname(os.path.abspath(__file__))
STDOUT = os.path.join(HERE, "..", "crates", "catalogue_list", "stdout")
PROGRAM = os.path.join(HERE, "..", "target", "bin", "catalogue_list")
sys.path.insert(0, os.path.join(HERE, "reference"))
import tickets

SECONDS = 1
TRIES = 5  # the shortest counts: others may hold up the machine


def lines():
    return "".join("%04x\n" % matrix for matrix in tickets.catalogue()).encode()


def seconds(program):
    start = time.monotonic()
    subprocess.run([program], stdout=subprocess.DEVNULL, check=True)
    return time.monotonic() - start


def runs(program):
    """Runs with several standard inputs: bytes, a folder, of which a read fails, and one that is shut."""
    for data in (b"", b"0\n", random.Random(4).randbytes(200000)):
        yield subprocess.run([program], input=data, capture_output=True, check=True)
    folder = os.open(HERE, os.O_RDONLY)
    yield subprocess.run([program], stdin=folder, capture_output=True, check=True)
    os.close(folder)
    yield subprocess.run(["sh", "-c", 'exec "$0" <&-', program], capture_output=True, check=True)


def check(program):
    want = lines()
    with open(STDOUT, "rb") as f:
        assert f.read() == want, STDOUT
    for done in runs(program):
        assert (done.stdout, done.stderr) == (want, b""), (len(done.stdout), done.stderr)
    least = min(seconds(program) for _ in range(TRIES))
    assert least < SECONDS, least


def main():
    if sys.argv[1:2] == ["--check"]:
        check(sys.argv[2] if len(sys.argv) > 2 else PROGRAM)
    else:
        with open(STDOUT, "wb") as f:
            f.write(lines())


main()
