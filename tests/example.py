#!/usr/bin/env python3
"""Builds the examples in C and compares what they print with OpenSSL and with tests/reference/.

usage: tools/build host && tests/example.py
"""
import itertools
import os
import random
import subprocess
import sys
import tempfile

HERE = os.path.dirname(os.path.abspath(__file__))
ROOT = os.path.join(HERE, "..")
sys.path.insert(0, os.path.join(HERE, "reference"))
import mixing
import openssl_aes
import tickets
import wbref

RULES = tickets.Rules(7)
CIPHERS = ("forward", "inverse")


def build(folder, name):
    program = os.path.join(folder, name)
    source, archive = os.path.join(ROOT, "examples", "c", name + ".c"), os.path.join(ROOT, "target", "staticlib", "libhost.a")
    words = ["-std=c99", "-Wall", "-Wextra", "-Wpedantic", "-Werror", "-I", os.path.join(ROOT, "include")]
    subprocess.run(["cc", *words, source, archive, "-o", program], check=True)
    return program


def run(folder, program, *words, **inputs):
    """What the program prints for these words and inputs, each written to a file, and its status."""
    paths = []
    for name, data in inputs.items():
        paths.append(os.path.join(folder, name))
        with open(paths[-1], "wb") as f:
            f.write(data)
    done = subprocess.run([program, *words, *paths], stdout=subprocess.PIPE)
    return done.stdout, done.returncode


def refused(cause, second):
    return b"refused %d %d\n" % (cause, second), 1


# ---- host.c --------------------------------------------------------------------------------

def enciphered(key, bundle, block):
    """The lowest cause, or OpenSSL's cipher block and the block that OpenSSL reads from it."""
    cause = RULES.keyed(key, bundle)
    if cause == (0, 0) and len(block) != 16:
        cause = (10, 0)
    if cause != (0, 0):
        return refused(*cause)
    cipher_block = openssl_aes.encipher(key, block)
    return b"%s\n%s\n" % (cipher_block.hex().encode(), openssl_aes.decipher(key, cipher_block).hex().encode()), 0


def check_host(rng, folder):
    program = build(folder, "host")
    for _ in range(4):
        key, bundle, block = rng.randbytes(16), tickets.random_bundle(rng), rng.randbytes(16)
        faulty = mixing.changed(bundle, [(wbref.pairs(bundle)[0][0] + 8 * rng.randrange(6048), bytes(8))])
        bad_block = mixing.changed(bundle, [mixing.Matrices(bundle, 2).put(rng.randrange(36), mixing.any_bad_block(rng, 32))])
        given = [(key, bundle, block), (key[1:], faulty, block), (key, faulty, block), (key, bad_block, block), (key, bundle, block + b"\x00"), (key, bundle, b"")]
        for k, b, x in given:
            got = run(folder, program, key=k, bundle=b, block=x)
            assert got == enciphered(k, b, x), (got, enciphered(k, b, x))


# ---- bench.c -------------------------------------------------------------------------------

def replayed(cipher, memory, block, record):
    cause, second, differs = RULES.replay(memory, block, record, cipher)
    if cause:
        return refused(cause, second)
    return (b"own\n", 0) if differs is None else (b"differs at lookup %d\n" % differs, 1)


def recorded(cipher, memory, block, own):
    """The walk's own record, or the refusal of memory and block, which a replay has too."""
    due = replayed(cipher, memory, block, own)
    return (own, 0) if due == (b"own\n", 0) else due


def check_walk(rng, folder, program, cipher, memory):
    block = rng.randbytes(16)
    own = RULES.record_of(memory, block, cipher)
    altered = [own[:at] + bytes([own[at] ^ 1 << rng.randrange(8)]) + own[at + 1 :] for at in (0, rng.randrange(len(own)), len(own) - 1)]
    for m, b in ((memory, block), (memory[1:], b""), (memory + b"\x00", block), (memory, block[1:]), (memory, block + b"\x00")):
        assert run(folder, program, "record", CIPHERS[cipher], memory=m, block=b) == recorded(cipher, m, b, own)
        for r in [own, *altered, own[1:], own + b"\x00", b""]:
            got = run(folder, program, "replay", CIPHERS[cipher], memory=m, block=b, record=r)
            assert got == replayed(cipher, m, b, r), (got, replayed(cipher, m, b, r))


def check_bench(rng, folder):
    program = build(folder, "bench")
    for cipher in range(len(CIPHERS)):
        check_walk(rng, folder, program, cipher, tickets.Maker(cipher, rng.randbytes(16), tickets.random_bundle(rng)).tables())
        check_walk(rng, folder, program, cipher, rng.randbytes(wbref.SET_LEN))


# ---- cells.c -------------------------------------------------------------------------------

def cells(cipher, memory, block):
    cause, second, _ = RULES.next_bit(memory, block, 0, cipher)
    if cause:
        return refused(cause, second)
    return b"".join(b"%d %d\n" % (bit // 8, 7 - bit % 8) for bit in RULES.bits(memory, block, cipher)), 0


def check_cells(rng, folder):
    program = build(folder, "cells")
    for cipher, name in enumerate(CIPHERS):
        made = tickets.Maker(cipher, rng.randbytes(16), tickets.random_bundle(rng)).tables()
        for memory in (made, rng.randbytes(wbref.SET_LEN), bytes(wbref.SET_LEN), b"\xff" * wbref.SET_LEN):
            block = rng.randbytes(16)
            for m, b in ((memory, block), (memory[1:], b""), (memory + b"\x00", block), (memory, block[1:]), (memory, block + b"\x00")):
                assert run(folder, program, name, memory=m, block=b) == cells(cipher, m, b)


# ---- mixing.c ------------------------------------------------------------------------------

def positions(data):
    """The positions that these bytes name, two bytes each, without numbers that would favour some; with each, how many bytes are used up to it."""
    for at in range(0, len(data) - 1, 2):
        number = int.from_bytes(data[at : at + 2], "big")
        if number < 3 * mixing.MATRICES:
            yield number % mixing.MATRICES, at + 2


def joined(blocks, n):
    """The matrix of these blocks, put together as text: row r of a block is its hex digit r."""
    digits = ["%04x" % block for block in blocks]
    strips = [digits[at : at + n // 4] for at in range(0, len(digits), n // 4)]
    return bytes.fromhex("".join(block[r] for strip in strips for r in range(4) for block in strip))


def mixed(data):
    """The matrices that the bytes give, of each width the first of its blocks that have an inverse, and how many bytes they use; or nothing."""
    drawn, out, used = positions(data), b"", 0
    for n in [8] * 160 + [32] * 36:
        matrix = None
        while matrix is None or wbref.mat_inv(wbref.mat_rows(matrix, n), n) is None:
            some = list(itertools.islice(drawn, (n // 4) ** 2))
            if len(some) < (n // 4) ** 2:
                return b"", 0
            matrix, used = joined([tickets.catalogue_at(position)[2] for position, _ in some], n), some[-1][1]
        out += matrix
    return out, used


def drawn_from(program, data):
    done = subprocess.run([program], input=data, stdout=subprocess.PIPE, stderr=subprocess.DEVNULL)
    return done.stdout, done.returncode


def accepted_in_a_bundle(matrices):
    sections = wbref.plain_sections()
    sections[1:3] = matrices[: len(sections[1])], matrices[len(sections[1]) :]
    return RULES.judge(wbref.build_bundle(sections)) == (0, 0)


def check_mixing(rng, folder):
    program = build(folder, "mixing")
    for _ in range(6):
        data = rng.randbytes(60000)
        matrices, used = mixed(data)
        assert drawn_from(program, data) == drawn_from(program, data[:used]) == (matrices, 0)
        assert accepted_in_a_bundle(matrices)
        for size in (0, 1, 8, rng.randrange(used), used - 1):
            assert drawn_from(program, data[:size]) == (b"", 2)


def main():
    rng = random.Random(16)
    with tempfile.TemporaryDirectory() as folder:
        check_host(rng, folder)
        check_bench(rng, folder)
        check_cells(rng, folder)
        check_mixing(rng, folder)
    print("examples: as OpenSSL and the reference")


if __name__ == "__main__":
    main()
