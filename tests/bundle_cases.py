#!/usr/bin/env python3
"""Makes crates/bundle_cases/stdin and stdout from the reference (tests/reference/), never from the project's own code.

usage: tests/bundle_cases.py           write both files
       tests/bundle_cases.py --check   compare them with what the reference says

The input is a row of orders of 8 bytes (kind, k, a, n; see crates/bundle_cases/src/main.rt) over a memory of 65,537 bytes:
kind 0 puts the next n bytes at place a, kind 1 judges the first a bytes, kinds 2 and 3 show part n of kind k of the first a bytes, by the
bundle's call and by a view, and kind 4 calls coding k under the first a bytes with a block of n // 256 bytes, which follow, into one of
n % 256 bytes.
"""
import os
import random
import struct
import sys

HERE = os.path.dirname(os.path.abspath(__file__))
sys.path.insert(0, os.path.join(HERE, "reference"))
import mixing
import tickets
import wbref

RULES = mixing.Rules(5)
TARGET = os.path.join(HERE, "..", "crates", "bundle_cases")
ROOM = 65537
SHORTEST = 40 + sum(wbref.lengths())
SIZES = (8, 8, 128, 2048, 2048)
CALLS = (("in", wbref.code), ("in", wbref.uncode), ("out", wbref.code), ("out", wbref.uncode))


class Cases:
    def __init__(self):
        self.mem = bytearray(ROOM)
        self.orders = bytearray()
        self.expected = []
        self.judged = {}

    def order(self, kind, k, a, n):
        self.orders += bytes([kind, k]) + a.to_bytes(3, "big") + n.to_bytes(3, "big")

    def say(self, cause):
        self.expected.append("%d %d" % cause)

    def put(self, at, data):
        self.order(0, 0, at, len(data))
        self.orders += data
        self.mem[at:at + len(data)] = data

    def load(self, bundle):
        self.put(0, bundle + b"\xa5" * (ROOM - len(bundle)))

    def verdict(self, length):
        key = bytes(self.mem[:length])
        if key not in self.judged:
            self.judged[key] = RULES.judge(key)
        return self.judged[key]

    def judge(self, length):
        self.order(1, 0, length, 0)
        self.say(self.verdict(length))

    def with_changes(self, changes, act):
        """Makes the changes (place, bytes), acts, and takes them back."""
        old = [(at, bytes(self.mem[at:at + len(data)])) for at, data in changes]
        for at, data in changes:
            self.put(at, data)
        act()
        for at, data in reversed(old):
            self.put(at, data)

    def judge_with(self, length, *changes):
        self.with_changes(changes, lambda: self.judge(length))

    def part(self, length, k, n):
        far = n % 8 << 61
        section, number = (k, n if k < 3 else 0) if k < 5 else (k - 5, far)
        data = bytes(self.mem[:length])
        out = b""
        if self.verdict(length)[0] not in (2, 3) and number < wbref.lengths()[section] // SIZES[section]:
            at = wbref.pairs(data)[section][0] + SIZES[section] * number
            out = data[at:at + SIZES[section]]
        for kind in (2, 3):
            self.order(kind, k, length, n)
            self.expected.append(out.hex())

    def code(self, length, k, block, room):
        self.order(4, k, length, 256 * len(block) + room)
        self.orders += block
        cause = self.verdict(length)
        if cause == (0, 0) and (len(block) != 16 or room != 16):
            cause = (10, 0)
        self.say(cause)
        out = b"\x5a" * room
        if cause == (0, 0):
            side, call = CALLS[k]
            out = call(wbref.Bundle(bytes(self.mem[:length])), side, block)
        self.expected.append(out.hex())


def pair(i, offset, length):
    return (8 * i, struct.pack(">II", offset % 2 ** 32, length % 2 ** 32))


def pair_cases(c, length):
    pairs = wbref.pairs(bytes(c.mem[:length]))
    for i, (o, n) in enumerate(pairs):
        for d in (1, -1):
            c.judge_with(length, pair(i, o + d, n))
            c.judge_with(length, pair(i, o, n + d))
        for offset in (0, 39, 40, length - n, length - n + 1, length, 2 ** 32 - 1, 2 ** 32 - n, 2 ** 32 - n + 40, 2 ** 31):
            c.judge_with(length, pair(i, offset, n))
        for stated in (0, 2 ** 32 - 1, 2 ** 32 - o, 2 ** 32 - o + length, 2 ** 31):
            c.judge_with(length, pair(i, o, stated))
    for i in range(4):
        (o, n), (p, m) = pairs[i], pairs[i + 1]
        c.judge_with(length, pair(i, p, m), pair(i + 1, o, n))
        c.judge_with(length, pair(i + 1, o, m))
        c.judge_with(length, pair(i, p, n))
        c.judge_with(length, pair(i, o + 1, n), pair(i + 1, p, m + 1))


def list_at(bundle, n):
    return wbref.pairs(bundle)[0][0] + 8 * n


def bad_lists(bundle, n):
    """Lists that repeat an image: first and second, first and last, the last two, all alike, and a good one."""
    images = wbref.Bundle(bundle).list(n)
    for a, b in ((0, 1), (0, 15), (14, 15), (7, 8), (3, 3)):
        changed = list(images)
        changed[b] = changed[a]
        yield (list_at(bundle, n), wbref.pack_list(changed))
    yield (list_at(bundle, n), bytes(8))


def matrices(rng, n, rows):
    """Matrices made from one that has an inverse: most have none, some of them with no zero row and no two equal rows."""
    a, b = rng.sample(range(n), 2)
    alike = list(rows)
    alike[a] = alike[b]
    empty = list(rows)
    empty[a] = 0
    summed = list(rows)
    summed[a] = 0
    for i in rng.sample([i for i in range(n) if i != a], 3):
        summed[a] ^= rows[i]
    last = list(rows)
    last[n - 1] = rows[0] ^ rows[1] ^ rows[2]
    column = [r & ~(1 << (n - 1 - a)) for r in rows]
    across = [1 << i for i in range(n)]
    for m in (alike, empty, summed, last, column, across, list(reversed(rows)), [0] * n):
        yield mixing.to_bytes(m, n)


def matrix_cases(c, rng, length):
    b = wbref.Bundle(bytes(c.mem))
    start = b.start
    for i in (0, 1, 80, 158, 159):
        for m in matrices(rng, 8, b.byte_rows(i)):
            c.judge_with(length, (start[1] + 8 * i, m))
    for i in (0, 17, 34, 35):
        for m in matrices(rng, 32, b.column_rows(i)):
            c.judge_with(length, (start[2] + 128 * i, m))
    for s, rows in ((3, b.input_rows()), (4, b.output_rows())):
        for m in matrices(rng, 128, rows):
            c.judge_with(length, (start[s], m))


def several_faults(c, length):
    b = wbref.Bundle(bytes(c.mem))
    s = b.start
    no_list, no_byte, no_column, no_block = bytes(8), bytes(8), bytes(128), bytes(2048)
    o, n = wbref.pairs(c.mem)[4]
    faults = [
        pair(4, o, n + 1),
        (s[0] + 8 * 6047, no_list),
        (s[0] + 8 * 5, no_list),
        (s[1] + 8 * 100, no_byte),
        (s[1] + 8 * 3, no_byte),
        (s[2] + 128 * 30, no_column),
        (s[2] + 128 * 29, no_column),
        (s[4], no_block),
        (s[3], no_block),
    ]
    for i in range(len(faults)):
        c.judge_with(length, *faults[i:])
        c.judge_with(length, faults[i], faults[-1])
    c.judge_with(SHORTEST - 1, *faults)


def part_cases(c, length):
    counts = [n // m for n, m in zip(wbref.lengths(), SIZES)]
    for k in (0, 1, 2):
        for n in (0, 1, counts[k] // 2, counts[k] - 1, counts[k], counts[k] + 1, 65536, 2 ** 24 - 1):
            c.part(length, k, n)
    for k in (3, 4):
        c.part(length, k, 0)
    for k in (5, 6, 7):
        for n in (0, 1, 7):
            c.part(length, k, n)


def few_parts(c, length):
    for k in range(5):
        c.part(length, k, 0)


def code_cases(c, rng, length):
    for k in range(4):
        for block in (bytes(16), b"\xff" * 16, bytes(range(16)), rng.randbytes(16), rng.randbytes(16)):
            c.code(length, k, block, 16)
        for m, room in ((15, 16), (16, 15), (17, 16), (16, 17), (0, 16), (16, 0), (0, 0), (32, 32), (255, 255)):
            c.code(length, k, rng.randbytes(m), room)


def refused_codes(c, rng, length):
    for k in range(4):
        c.code(length, k, rng.randbytes(16), 16)
        c.code(length, k, rng.randbytes(15), 16)


def turned_down(c, rng, length, *changes):
    """Parts and calls under a bundle that these changes make a bad one."""
    c.with_changes(changes, lambda: few_parts(c, length))
    c.with_changes(changes, lambda: refused_codes(c, rng, length))


def without_gaps(c, rng):
    """A bundle of the shortest length, and free bytes behind it."""
    c.load(wbref.build_bundle(tickets.random_sections(rng)))
    for length in (SHORTEST - 1, SHORTEST, SHORTEST + 1, 65535, 65536, 65537, 0, 1, 39, 40, 41, 58000):
        c.judge(length)
    pair_cases(c, SHORTEST)
    for n in (0, 1, 31, 32, 3000, 6016, 6046, 6047):
        for fault in bad_lists(bytes(c.mem), n):
            c.judge_with(SHORTEST, fault)
    matrix_cases(c, rng, SHORTEST)
    for changes in mixing.changes(rng, c.mem):
        c.judge_with(SHORTEST, *changes)
    several_faults(c, SHORTEST)
    part_cases(c, SHORTEST)
    code_cases(c, rng, SHORTEST)

    # Parts and calls under a bundle that is turned down: parts are served from cause 4 on.
    few_parts(c, SHORTEST - 1)
    few_parts(c, 65537)
    few_parts(c, 0)
    refused_codes(c, rng, SHORTEST - 1)
    o, n = wbref.pairs(c.mem)[2]
    turned_down(c, rng, SHORTEST, pair(2, o, n + 1))
    starts = [list_at(c.mem, 6047)] + wbref.Bundle(bytes(c.mem)).start[1:]
    for at, data in zip(starts, (bytes(8), bytes(8), bytes(128), bytes(2048), bytes(2048))):
        turned_down(c, rng, SHORTEST, (at, data))
    for section, number in ((1, 159), (2, 35)):
        m = mixing.Matrices(c.mem, section)
        turned_down(c, rng, SHORTEST, m.put(number, mixing.any_bad_block(rng, m.n)))


def with_gaps(c, rng):
    """A bundle whose free bytes are not read; then its last section at the end of the longest bundle."""
    bundle = wbref.build_bundle(tickets.random_sections(rng), (1000, 900, 7, 800, 600, 500))
    c.load(bundle)
    for length in (len(bundle) - 1, len(bundle), 65536, 65537):
        c.judge(length)
    pair_cases(c, len(bundle))
    several_faults(c, len(bundle))
    part_cases(c, len(bundle))
    code_cases(c, rng, len(bundle))
    o, n = wbref.pairs(c.mem)[4]
    end = 65536 - n
    c.put(end, bytes(c.mem[o : o + n]))
    c.put(*pair(4, end, n))
    c.judge(65536)
    c.judge(65535)
    c.judge_with(65536, pair(4, end + 1, n))
    c.judge_with(65537, pair(4, end + 1, n))
    code_cases(c, rng, 65536)


def plain(c, rng):
    """The plain bundle, which is refused for its byte matrix 0, behind its pairs and lists and before its output matrix; with its last section moved too, and with the
    first of its matrices good."""
    c.load(wbref.build_bundle(wbref.plain_sections()))
    for length in (SHORTEST - 1, SHORTEST, 65536):
        c.judge(length)
    refused_codes(c, rng, SHORTEST)
    o, n = wbref.pairs(c.mem)[4]
    for fault in (pair(4, o, n + 1), (list_at(c.mem, 6047), bytes(8)), (o, bytes(n))):
        c.judge_with(SHORTEST, fault)
    c.judge_with(65536, (65536 - n, bytes(c.mem[o : o + n])), pair(4, 65536 - n, n))
    _, narrow, wide, _, _ = wbref.Bundle(bytes(c.mem)).start
    _, byte_matrices, column_matrices, _, _ = tickets.random_sections(rng)
    for bytes_good, columns_good in ((159, 0), (160, 0), (160, 35), (160, 36)):
        c.judge_with(SHORTEST, (narrow, byte_matrices[: 8 * bytes_good]), (wide, column_matrices[: 128 * columns_good]))


def make():
    c = Cases()
    rng = random.Random(3)
    without_gaps(c, rng)
    with_gaps(c, rng)
    plain(c, rng)
    return bytes(c.orders), "".join(line + "\n" for line in c.expected).encode()


def main():
    ok = True
    for name, data in zip(("stdin", "stdout"), make()):
        path = os.path.join(TARGET, name)
        if sys.argv[1:] == ["--check"]:
            with open(path, "rb") as f:
                same = f.read() == data
            print("%s: %s" % (name, "as the reference has it" if same else "DIFFERS from the reference"))
            ok = ok and same
        else:
            with open(path, "wb") as f:
                f.write(data)
    sys.exit(0 if ok else 1)


if __name__ == "__main__":
    main()
