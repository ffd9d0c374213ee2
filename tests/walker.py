#!/usr/bin/env python3
"""Runs the program walker and compares it with the reference, tests/reference/.

usage: tests/walker.py [WALKER]     WALKER is the compiled program, target/bin/walker by default

Made sets under random bundles, random memory, document 01's zero case, and its refusals 9 and 10.
"""
import os
import random
import subprocess
import sys

HERE = os.path.dirname(os.path.abspath(__file__))
sys.path.insert(0, os.path.join(HERE, "reference"))
import tickets
import wbref

SIZE = wbref.SET_LEN
WALKER = sys.argv[1] if len(sys.argv) > 1 else os.path.join(HERE, "..", "target", "bin", "walker")


def run(data):
    return subprocess.run([WALKER], input=data, capture_output=True, check=True).stdout.decode()


def same(data, line):
    got = run(data)
    assert got == line + "\n", (got, line)


def made(seed):
    """A set that the reference makes enciphers, under the outer codings."""
    key, bundle = wbref.random_key(seed), tickets.random_bundle(random.Random(seed))
    tables, b = wbref.make_set(key, bundle), wbref.Bundle(bundle)
    for n in range(3):
        block = random.Random(1000 * seed + n).randbytes(16)
        coded = wbref.code(b, "out", wbref.encipher(key, block))
        same(wbref.code(b, "in", block) + tables, coded.hex())


def memory(rng):
    """Memory that no maker filled follows the same rules."""
    block, tables = rng.randbytes(16), rng.randbytes(SIZE)
    same(block + tables, wbref.walk_block(tables, block).hex())


def main():
    rng = random.Random(16)
    same(bytes(16 + SIZE), "00" * 16)
    for n in range(5):
        memory(rng)
    for seed in (1, 2):
        made(seed)
    for length in (0, 1, 15):
        same(bytes(length), "refused 10")
    for length in (0, 1, 4095, 4096, 65536, SIZE - 1, SIZE + 1, SIZE + 4096):
        same(bytes(16) + rng.randbytes(length), "refused 9")
    print("walker: as the reference")


main()
