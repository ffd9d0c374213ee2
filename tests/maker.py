#!/usr/bin/env python3
"""Runs the program maker and compares it with the reference, tests/reference/.

usage: tests/maker.py [MAKER]     MAKER is the compiled program, target/bin/maker by default

Sets of random bundles with and without gaps, the plain bundle, which is refused, keys cut short, bundles of wrong length, and bundles with a fault of
every cause, alone and together. Two sets of one key with the same outer codings are walked.
"""
import os
import random
import struct
import subprocess
import sys

HERE = os.path.dirname(os.path.abspath(__file__))
sys.path.insert(0, os.path.join(HERE, "reference"))
import mixing
import tickets
import wbref

RULES = mixing.Rules(5)
MAKER = sys.argv[1] if len(sys.argv) > 1 else os.path.join(HERE, "..", "target", "bin", "maker")
NONE, GAPS = (0, 0, 0, 0, 0, 0), (1, 2, 3, 5, 8, 13)


def same(data):
    got = subprocess.run([MAKER], input=data, capture_output=True, check=True).stdout
    want = RULES.maker_program(data)
    assert got == want, (len(data), got[:32], want[:32])
    return want


def faults(rng, bundle):
    """For each cause from 3 to 7, some changes (place, bytes) that bring it about, a bad block among them."""
    start = [offset for offset, _ in wbref.pairs(bundle)]
    byte_matrices, column_matrices = (mixing.Matrices(bundle, section) for section in (1, 2))
    yield from ((8 * i + 4, struct.pack(">I", 7)) for i in range(5))
    yield from ((start[0] + 8 * n, b"\x00") for n in (0, 3024, 6047))
    yield from ((start[1] + 8 * n, bytes(8)) for n in (0, 159))
    yield byte_matrices.put(80, mixing.any_bad_block(rng, 8))
    yield from ((start[2] + 128 * n, bytes(128)) for n in (0, 35))
    yield column_matrices.put(17, mixing.any_bad_block(rng, 32))
    yield from ((start[k], bytes(16)) for k in (3, 4))


def refused(rng, key, bundle):
    """Every fault, alone and with every other, with the right key and with one cut short."""
    some = list(faults(rng, bundle))
    causes = set()
    for i, f in enumerate(some):
        for g in some[i:]:
            causes.add(same(key + mixing.changed(bundle, [f, g])).split()[1])
    assert causes == {b"3", b"4", b"5", b"6", b"7"}, causes
    for length in (0, 1, 15):
        same(key[:length])
    for length in (0, 1, 39, 40, 58407):
        same(key + bundle[:length])
    for length in (65537, 65538, 131072):
        same(key + bundle + bytes(length - len(bundle)))


def alike(rng):
    """Two sets of one key with the same outer codings answer alike, whatever the rest of their bundles."""
    key, one, other = rng.randbytes(16), tickets.random_sections(rng), tickets.random_sections(rng)
    outer = 32 * 8
    other[0] = one[0][:outer] + other[0][outer:-outer] + one[0][-outer:]
    other[3:] = one[3:]
    first, second = (same(key + wbref.build_bundle(sections)) for sections in (one, other))
    assert first != second
    for _ in range(3):
        block = rng.randbytes(16)
        assert wbref.walk_block(first, block) == wbref.walk_block(second, block)


def main():
    rng = random.Random(9)
    alike(rng)
    for gaps in (NONE, GAPS):
        assert len(same(rng.randbytes(16) + wbref.build_bundle(tickets.random_sections(rng), gaps))) == wbref.SET_LEN
        assert same(rng.randbytes(16) + wbref.build_bundle(wbref.plain_sections(), gaps)) == b"refused 5 0\n"
    refused(rng, rng.randbytes(16), tickets.random_bundle(rng))
    print("maker: as the reference")


main()
