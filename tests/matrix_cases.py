#!/usr/bin/env python3
"""Makes crates/matrix_cases/stdin and stdout by the reference's matrix arithmetic, or with --check compares them with what stands there."""
import os
import random
import sys

HERE = os.path.dirname(os.path.abspath(__file__))
sys.path.insert(0, os.path.join(HERE, "reference"))
import wbref

FOLDER = os.path.join(HERE, "..", "crates", "matrix_cases")
rng = random.Random(197)


def identity(n):
    return [1 << (n - 1 - i) for i in range(n)]


def invertible(n):
    while True:
        rows = [rng.getrandbits(n) for _ in range(n)]
        if wbref.mat_inv(rows, n):
            return rows


def singular(n):
    """The last row is the xor of three others: no row is 0, no two are equal."""
    while True:
        rows = invertible(n)
        rows[n - 1] = rows[0] ^ rows[1] ^ rows[2]
        if rows[n - 1] and len(set(rows)) == n:
            return rows


def matrices(n):
    yield identity(n)
    yield identity(n)[::-1]
    yield [0] * n
    for _ in range(4):
        yield invertible(n)
        yield singular(n)
        yield [rng.getrandbits(n) for _ in range(n)]
    twice = invertible(n)
    twice[n - 1] = twice[n - 2]
    yield twice
    empty = invertible(n)
    empty[n // 2] = 0
    yield empty


stdin, lines = b"", []
for w in (1, 4, 16):
    n = 8 * w
    for k, rows in enumerate(matrices(n)):
        v = 1 << (n - 1) if k == 1 else rng.getrandbits(n)
        stdin += bytes([w]) + b"".join(r.to_bytes(w, "big") for r in rows) + v.to_bytes(w, "big")
        lines.append(wbref.mat_mul(rows, v, n).to_bytes(w, "big").hex())
        inverse = wbref.mat_inv(rows, n)
        lines.append(b"".join(r.to_bytes(w, "big") for r in inverse).hex() if inverse else "singular")

files = {"stdin": stdin, "stdout": ("\n".join(lines) + "\n").encode()}
for name, data in files.items():
    path = os.path.join(FOLDER, name)
    if "--check" in sys.argv:
        if open(path, "rb").read() != data:
            sys.exit("%s differs" % name)
    else:
        open(path, "wb").write(data)
