"""Mixing matrices (byte and column matrices), good and bad by document 02's Ticket 5, and changes of a bundle that put them in, for the tests of its
judgement.

A matrix is the list of its n rows, column 0 the top bit. Its block i, j has the bits of rows 4i to 4i + 3 and columns 4j to 4j + 3. Whether a matrix or a
block has an inverse is the reference's to say.
"""
import functools
import itertools
import os
import sys

sys.path.insert(0, os.path.join(os.path.dirname(os.path.abspath(__file__)), "reference"))
import tickets
import wbref

MATRICES = 20160  # in the catalogue


class Rules(tickets.Rules):
    """The reference's rules. A test judges a bundle again and again with a few bytes changed, so the answer for a matrix is kept."""

    def fits(self, rows, n):
        return self.answer(tuple(rows), n)

    @functools.lru_cache(maxsize=None)
    def answer(self, rows, n):
        return super().fits(rows, n)


def has_inverse(rows, n):
    return wbref.mat_inv(rows, n) is not None


def to_bytes(rows, n):
    return b"".join(row.to_bytes(n // 8, "big") for row in rows)


def identity(n):
    return [1 << (n - 1 - i) for i in range(n)]


def block(rows, n, i, j):
    return [rows[4 * i + a] >> (n - 4 - 4 * j) & 15 for a in range(4)]


def with_block(rows, n, i, j, small):
    out, shift = list(rows), n - 4 - 4 * j
    for a in range(4):
        out[4 * i + a] = rows[4 * i + a] & ~(15 << shift) | small[a] << shift
    return out


def places(n):
    """The numbers i, j of all blocks."""
    return itertools.product(range(n // 4), repeat=2)


def bad_blocks(rows, n):
    """The numbers of the blocks that have no inverse."""
    return [(i, j) for i, j in places(n) if not has_inverse(block(rows, n, i, j), 4)]


# ---- drawn by blocks -----------------------------------------------------------------------

def until(draw, test):
    while True:
        rows = draw()
        if test(rows):
            return rows


def good_block(rng):
    number = tickets.catalogue_at(rng.randrange(MATRICES))[2]
    return [number >> shift & 15 for shift in (12, 8, 4, 0)]


def of_blocks(rng, n):
    """Every block has an inverse; the whole may have none."""
    rows = [0] * n
    for i, j in places(n):
        rows = with_block(rows, n, i, j, good_block(rng))
    return rows


def good(rng, n):
    return until(lambda: of_blocks(rng, n), lambda rows: has_inverse(rows, n))


def singular_block(rng):
    """Of any rank below 4: each row is a sum of at most three vectors."""
    vectors = [rng.randrange(16) for _ in range(rng.randrange(4))]
    return [functools.reduce(int.__xor__, (v for v in vectors if rng.randrange(2)), 0) for _ in range(4)]


def one_bad_block(rng, n, i, j):
    """It has an inverse, and so has every block but i, j."""
    return until(lambda: with_block(of_blocks(rng, n), n, i, j, singular_block(rng)), lambda rows: has_inverse(rows, n))


def any_bad_block(rng, n):
    return one_bad_block(rng, n, *rng.choice(list(places(n))))


# ---- every block has an inverse, and the whole has none -------------------------------------

def equal_rows_of_blocks(rng, n):
    rows = of_blocks(rng, n)
    a, b = rng.sample(range(n // 4), 2)
    rows[4 * a : 4 * a + 4] = rows[4 * b : 4 * b + 4]
    return rows


def equal_columns_of_blocks(rng, n):
    rows = of_blocks(rng, n)
    a, b = rng.sample(range(n // 4), 2)
    for i in range(n // 4):
        rows = with_block(rows, n, i, a, block(rows, n, i, b))
    return rows


def equal_rows(rng, n):
    """The top rows of two rows of blocks."""
    rows = of_blocks(rng, n)
    a, b = rng.sample(range(n // 4), 2)
    for j in range(n // 4):
        top = block(rows, n, b, j)[0]
        rows = with_block(rows, n, a, j, until(lambda: good_block(rng), lambda small: small[0] == top))
    return rows


def singular_of_blocks(rng, n):
    return until(lambda: of_blocks(rng, n), lambda rows: not has_inverse(rows, n))


def whole_bad(rng, n):
    """Matrices without an inverse of blocks that have one: made so, and drawn."""
    for make in (equal_rows_of_blocks, equal_columns_of_blocks, equal_rows, singular_of_blocks, singular_of_blocks):
        rows = make(rng, n)
        assert not has_inverse(rows, n) and bad_blocks(rows, n) == []
        yield rows


# ---- kinds -----------------------------------------------------------------------------------

def block_bad(rng, n):
    """One bad block in a matrix that has an inverse, at each place in turn."""
    for i, j in places(n):
        rows = one_bad_block(rng, n, i, j)
        assert has_inverse(rows, n) and bad_blocks(rows, n) == [(i, j)]
        yield rows


def turned_over(rng, rows, n):
    """With one bit of one row turned over."""
    out = list(rows)
    out[rng.randrange(n)] ^= 1 << rng.randrange(n)
    return out


def drawn(rng, n, count):
    """So many times a good one, that with one bit turned over, one of good blocks, one with an inverse, and any bits: the reference judges them."""
    for _ in range(count):
        rows = good(rng, n)
        yield rows
        yield turned_over(rng, rows, n)
        yield of_blocks(rng, n)
        yield wbref.mat_rows(wbref.random_matrix(rng, n), n)
        yield [rng.getrandbits(n) for _ in range(n)]


def kinds(rng, n):
    """Matrices of every kind, the one that changes nothing first. Most are bad, some are good."""
    yield identity(n)
    yield from block_bad(rng, n)
    yield from whole_bad(rng, n)
    yield from drawn(rng, n, 5)


# ---- changes of a bundle ---------------------------------------------------------------------

def changed(data, parts):
    """With these parts, place and bytes each, written over what was there, one after the other."""
    out = bytearray(data)
    for at, part in parts:
        out[at : at + len(part)] = part
    return bytes(out)


class Matrices:
    """The matrices of one section of a bundle: n rows each, and how many there are."""

    def __init__(self, bundle, section):
        self.start, length = wbref.pairs(bundle)[section]
        self.n = (8, 32, 128, 128)[section - 1]
        self.bytes = self.n * self.n // 8
        self.count = length // self.bytes

    def put(self, number, rows):
        """The change, place and bytes, that puts a matrix in."""
        return self.start + self.bytes * number, to_bytes(rows, self.n)


def one_section(rng, m):
    """A matrix of every kind, alone, as the last; and one with a bad block beside one without an inverse, at any two numbers, either first."""
    for rows in kinds(rng, m.n):
        yield [m.put(m.count - 1, rows)]
    for whole in whole_bad(rng, m.n):
        one = any_bad_block(rng, m.n)
        for a, b in itertools.permutations(rng.sample(range(m.count), 2)):
            yield [m.put(a, one), m.put(b, whole)]


def two_sections(rng, narrow, wide):
    """A bad byte matrix and a bad column matrix, each for either reason."""
    for make, other in itertools.product((any_bad_block, singular_of_blocks), repeat=2):
        yield [narrow.put(narrow.count - 1, make(rng, narrow.n)), wide.put(0, other(rng, wide.n))]


def outer(rng, before, behind):
    """Input and output matrices, which need an inverse alone, whatever their blocks."""
    n = before.n
    plain, bad = identity(n), singular_of_blocks(rng, n)
    for rows in (plain, bad, good(rng, n), any_bad_block(rng, n)):
        yield [before.put(0, rows)]
        yield [behind.put(0, rows)]
    yield [before.put(0, plain), behind.put(0, plain)]
    yield [before.put(0, plain), behind.put(0, bad)]


def changes(rng, bundle):
    """Lists of changes of an accepted bundle. The reference judges what comes of them."""
    narrow, wide, before, behind = (Matrices(bundle, section) for section in range(1, 5))
    yield from one_section(rng, narrow)
    yield from one_section(rng, wide)
    yield from two_sections(rng, narrow, wide)
    yield from outer(rng, before, behind)
