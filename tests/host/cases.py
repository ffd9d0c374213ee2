#!/usr/bin/env python3
"""Makes the cases of the host tests from the reference (tests/reference/) and OpenSSL, never from the project's own code.

usage: tests/host/cases.py FOLDER SEED

Each file is rows, one behind the other. A number has 4 bytes, the most significant first; a string is a number and so many bytes. The rows:
bundles      an accepted bundle; the start and length of each of its six gaps; its judgement with one byte less, and with one more
judgements   a bundle; its judgement
places       a table's offset in the set; its length
codings      a number of a bundle; a number of CODINGS; a block; the coded block
sets         a number of a bundle; a cipher; a key; the set
tables       a number of a bundle; a cipher; a key; a number of a table; the table
walks        memory as long as a set; how many walks; for each a cipher, a block and the answer
records      a number of a memory, in the order of walks; a cipher; a block; the record of that walk
replays      a number of a record, whose walk is replayed; the number of the record that is altered, its own or another; how many parts of it are
             changed, for each its start and, a string, what is there now; the first lookup that differs, or 2^32 - 1 for none
bits         a number of a memory, in the order of walks; a cipher; a block; how many bits of the memory that walk reads; for each its number, rising
crossed      two accepted bundles, the input coding of each the output coding of the other
entries      a position, as two numbers, the higher half first; its judgement; the matrix at it, or 0 where it is refused
A judgement is the two numbers of a refusal, the cause first, or 0 and 0. A cipher is 0, forward, or 1, inverse: the tests name the inverse one by any
number but 0.
"""
import multiprocessing
import os
import random
import sys

HERE = os.path.dirname(os.path.abspath(__file__))
sys.path[:0] = [os.path.join(HERE, ".."), os.path.join(HERE, "..", "reference")]
import bundle_cases
import mixing
import openssl_aes
import tickets
import wbref

RULES = mixing.Rules(7)
CIPHERS = (openssl_aes.encipher, openssl_aes.decipher)
CODINGS = (("in", wbref.code), ("in", wbref.uncode), ("out", wbref.code), ("out", wbref.uncode))
LONGEST = 65536
FREE = LONGEST - bundle_cases.SHORTEST
WHOLE = 4  # of so many bundles whole sets are made, of the others single tables
LOOKUPS = len(wbref.LOOKS)
XORS = [n for n, look in enumerate(wbref.LOOKS) if not look.spread]
ENTRY = 5  # bytes of a lookup in a record
NONE = 2**32 - 1
ROUNDS = [496 + 224 * r for r in range(9)]
FIRST_AND_LAST = [0, 15, 16, 495, 2512, 2527, 2528, 3007] + [n + k for n in ROUNDS for k in (0, 15, 16, 111, 112, 127, 128, 223)]


def number(n):
    return n.to_bytes(4, "big")


def string(data):
    return number(len(data)) + data


def judged(bundle):
    cause, second = RULES.judge(bundle)
    return number(cause) + number(second)


# ---- accepted bundles ----------------------------------------------------------------------

def random_gaps(rng, total):
    cuts = sorted(rng.randrange(total + 1) for _ in range(5))
    return [b - a for a, b in zip([0] + cuts, cuts + [total])]


def plain_but_mixing(rng):
    """The plain bundle's sections but for byte and column matrices, which have to be others in an accepted bundle."""
    plain, drawn = wbref.plain_sections(), tickets.random_sections(rng)
    return plain[:1] + drawn[1:3] + plain[3:]


def accepted(rng):
    """Bundles with their gaps: one with plain lists and outer codings, a shortest one, a longest one, three of lengths between."""
    none = [0] * 6
    yield wbref.build_bundle(plain_but_mixing(rng)), none
    yield wbref.build_bundle(tickets.random_sections(rng)), none
    for total in [FREE] + [rng.randrange(1, FREE) for _ in range(3)]:
        gaps = random_gaps(rng, total)
        yield wbref.build_bundle(tickets.random_sections(rng), gaps), gaps


def bundle_row(bundle, gaps):
    ends = [40] + [offset + length for offset, length in wbref.pairs(bundle)]
    places = b"".join(number(start) + number(length) for start, length in zip(ends, gaps))
    return string(bundle) + places + judged(bundle[:-1]) + judged(bundle + b"\xa5")


# ---- faults --------------------------------------------------------------------------------

def pair_faults(bundle):
    pairs = wbref.pairs(bundle)
    for i, (o, n) in enumerate(pairs):
        for offset, length in ((o - 1, n), (39, n), (o, n - 1), (o, n + 1), (o, 0), (len(bundle) - n + 1, n), (2**32 - n, n), (2**31, n)):
            yield [bundle_cases.pair(i, offset, length)]
    for i in range(4):
        yield [bundle_cases.pair(i, *pairs[i + 1]), bundle_cases.pair(i + 1, *pairs[i])]


def some(rng, count):
    return sorted({0, count // 2, count - 1, rng.randrange(count)})


def list_faults(rng, bundle):
    for n in some(rng, 6048):
        for fault in bundle_cases.bad_lists(bundle, n):
            yield [fault]


def matrix_faults(rng, start, count, width, rows):
    for n in some(rng, count):
        for matrix in bundle_cases.matrices(rng, width, rows(n)):
            yield [(start + n * width * width // 8, matrix)]


def faults(rng, bundle):
    """Changes of a bundle by cause, 3 to 7. A few change nothing that counts: the reference judges each."""
    b = wbref.Bundle(bundle)
    return [
        list(pair_faults(bundle)),
        list(list_faults(rng, bundle)),
        list(matrix_faults(rng, b.start[1], 160, 8, b.byte_rows)),
        list(matrix_faults(rng, b.start[2], 36, 32, b.column_rows)),
        list(matrix_faults(rng, b.start[3], 1, 128, lambda _: b.input_rows()))
        + list(matrix_faults(rng, b.start[4], 1, 128, lambda _: b.output_rows())),
    ]


def flips(rng, bundle):
    """One bit anywhere in the head, in each section and behind it."""
    bounds = [0] + [offset for offset, _ in wbref.pairs(bundle)] + [len(bundle)]
    for low, high in zip(bounds, bounds[1:]):
        for _ in range(8):
            at = rng.randrange(low, high)
            yield [(at, bytes([bundle[at] ^ 1 << rng.randrange(8)]))]


def judgements(rng, bundle):
    """The bundle at other lengths, every single fault, two faults at once of all causes, flipped bits."""
    lengths = [1, 39, 40, 41, 58407, 58408, len(bundle) - 1, len(bundle), len(bundle) + 1, LONGEST, LONGEST + 1, rng.randrange(LONGEST)]
    for length in lengths:
        yield bundle[:length] + rng.randbytes(max(0, length - len(bundle)))
    by_cause = faults(rng, bundle)
    both = [rng.choice(a) + rng.choice(b) for a in by_cause for b in by_cause]
    for changes in sum(by_cause, []) + both + list(flips(rng, bundle)):
        yield mixing.changed(bundle, changes)


def plain(rng):
    """The plain bundle, without gaps and with some."""
    for gaps in ([0] * 6, random_gaps(rng, FREE), random_gaps(rng, rng.randrange(1, FREE))):
        yield wbref.build_bundle(wbref.plain_sections(), gaps)


def all_judgements(rng, bundles):
    """The plain bundle, every accepted one with its changes, and the last with mixing matrices of every kind."""
    yield from plain(rng)
    for bundle in bundles:
        yield from judgements(rng, bundle)
    for changes in mixing.changes(rng, bundles[-1]):
        yield mixing.changed(bundles[-1], changes)


# ---- blocks, tables, walks -----------------------------------------------------------------

def blocks(rng, count):
    return [bytes(16), b"\xff" * 16, bytes(range(16))] + [rng.randbytes(16) for _ in range(count)]


def codings(rng, bundles):
    for n, bundle in enumerate(bundles):
        view = wbref.Bundle(bundle)
        for k, (side, call) in enumerate(CODINGS):
            for block in blocks(rng, 60):
                yield number(n) + number(k) + block + call(view, side, block)


class Set:
    """The whole set of a cipher, a key and the bundle of a number."""

    def __init__(self, n, bundle, cipher, key):
        self.bundle, self.view, self.cipher, self.key = n, wbref.Bundle(bundle), cipher, key
        self.bytes = tickets.Maker(cipher, key, bundle).tables()

    def row(self):
        return number(self.bundle) + number(self.cipher) + self.key + string(self.bytes)

    def answer(self, block):
        """For its own cipher: what OpenSSL makes of the uncoded block, coded again."""
        return wbref.code(self.view, "out", CIPHERS[self.cipher](self.key, wbref.uncode(self.view, "in", block)))


def sets(rng, bundles):
    """The whole sets of the first bundles for both ciphers; the first one with the key of zeros."""
    keys = [bytes(16)] + [rng.randbytes(16) for _ in range(1, WHOLE)]
    with multiprocessing.Pool() as pool:
        return pool.starmap(Set, [(n, bundles[n], cipher, key) for n, key in enumerate(keys) for cipher in range(2)])


def tables(rng, bundles):
    """Single tables of some bundles: the first and the last of each kind in each stage, and some between."""
    for n, bundle in bundles:
        for cipher in range(2):
            key = rng.randbytes(16)
            maker = tickets.Maker(cipher, key, bundle)
            for t in FIRST_AND_LAST + [rng.randrange(3008) for _ in range(30)]:
                yield number(n) + number(cipher) + key + number(t) + string(maker.table(t))


def walked(memory, cipher, block):
    answer = bytearray(16)
    assert RULES.whole(memory, block, answer, cipher) == (0, 0)
    return bytes(answer)


def walks_row(memory, walks):
    return string(memory) + number(len(walks)) + b"".join(number(cipher) + block + answer for cipher, block, answer in walks)


def unfilled(rng):
    """Memory that no maker filled."""
    return [bytes(wbref.SET_LEN), b"\xff" * wbref.SET_LEN] + [rng.randbytes(wbref.SET_LEN) for _ in range(4)]


def walks(rng, made, others):
    """Walks for both ciphers over the sets, and over memory that no maker filled. For a set, that of the other cipher is such memory."""
    for s in made:
        own = [(s.cipher, block, s.answer(block)) for block in blocks(rng, 17)]
        other = [(1 - s.cipher, block, walked(s.bytes, 1 - s.cipher, block)) for block in blocks(rng, 3)]
        yield walks_row(s.bytes, own + other)
    for memory in others:
        yield walks_row(memory, [(cipher, block, walked(memory, cipher, block)) for cipher in range(2) for block in blocks(rng, 7)])


# ---- records of walks, and altered ones ----------------------------------------------------

class Record:
    """The record of the walk for a cipher over the memory of a number."""

    def __init__(self, n, memory, cipher, block):
        self.number, self.memory, self.cipher, self.block = n, memory, cipher, block
        self.own = RULES.record_of(memory, block, cipher)

    def row(self):
        return number(self.number) + number(self.cipher) + self.block + self.own

    def replayed(self, record):
        cause, second, differs = RULES.replay(self.memory, self.block, record, self.cipher)
        assert (cause, second) == (0, 0)
        return NONE if differs is None else differs


def records(rng, memories):
    """For each memory two blocks that begin alike, so that their walks do not part at lookup 0 always; each for both ciphers."""
    for n, memory in enumerate(memories):
        first, alike = rng.choice(blocks(rng, 3)), rng.randrange(1, 16)
        for block in (first, first[:alike] + rng.randbytes(16 - alike)):
            for cipher in range(2):
                yield Record(n, memory, cipher, block)


def another(rng, byte):
    return bytes([byte ^ rng.choice((1 << rng.randrange(8), rng.randrange(1, 256)))])


def alterations(rng, turn, own):
    """Changes of a record: none; a byte of an entry, each of the five at the first, the last and any lookup in turn; the upper half of the byte that
    has an XOR entry's half-byte; several bytes anywhere; a lookup left out."""
    def at(lookup, k):
        place = ENTRY * lookup + k
        return place, another(rng, own[place])

    yield []
    for k in range(ENTRY):
        yield [at((0, LOOKUPS - 1, rng.randrange(LOOKUPS))[(turn + k) % 3], k)]
    half = ENTRY * rng.choice(XORS) + ENTRY - 1
    yield [(half, bytes([own[half] ^ rng.randrange(1, 16) << 4]))]
    yield [at(rng.randrange(LOOKUPS), rng.randrange(ENTRY)) for _ in range(rng.randrange(2, 6))]
    left_out = ENTRY * rng.randrange(LOOKUPS)
    yield [(left_out, own[left_out + ENTRY :] + rng.randbytes(ENTRY))]


def replays(rng, made):
    """Each record's walk, with alterations of its own record and with the records for the other cipher and of the other block."""
    for n, record in enumerate(made):
        for m, changes in [(n, c) for c in alterations(rng, n, record.own)] + [(n ^ 1, []), (n ^ 2, [])]:
            parts = b"".join(number(start) + string(part) for start, part in changes)
            yield number(n) + number(m) + number(len(changes)) + parts + number(record.replayed(mixing.changed(made[m].own, changes)))


# ---- the bits that a walk reads ------------------------------------------------------------

def bits(rng, memories):
    for n, memory in enumerate(memories):
        for cipher in range(2):
            block = rng.choice(blocks(rng, 3))
            read = RULES.bits(memory, block, cipher)
            yield number(n) + number(cipher) + block + number(len(read)) + b"".join(map(number, read))


# ---- crossed bundles -----------------------------------------------------------------------

def across(rng, bundle):
    """Another bundle, whose input coding is the output coding of this one, and the other way round."""
    sections = tickets.random_sections(rng)
    lists, _, _, before, behind = [bundle[offset : offset + length] for offset, length in wbref.pairs(bundle)]
    outer = 32 * 8
    sections[0] = lists[-outer:] + sections[0][outer:-outer] + lists[:outer]
    sections[3:] = [behind, before]
    return wbref.build_bundle(sections)


def crossed(rng, bundles):
    for bundle in bundles:
        other = across(rng, bundle)
        assert RULES.judge(other) == (0, 0)
        yield string(bundle) + string(other)


# ---- positions of the catalogue ------------------------------------------------------------

def beyond(rng):
    """Positions that no matrix has: edges; those of which a part of the bits, or the rest of a division, is a position; any."""
    yield from (mixing.MATRICES, mixing.MATRICES + 1, 2**16 - 1, 2**16, 2**32 - 1, 2**32, 2**32 + 5, 2**63, 2**64 - 1)
    for k in range(15, 64):
        yield 2**k + rng.randrange(min(2**k, mixing.MATRICES))
        yield rng.randrange(2**k, 2 ** (k + 1))
    for _ in range(20):
        yield rng.randrange(1, 2**64 // mixing.MATRICES) * mixing.MATRICES + rng.randrange(mixing.MATRICES)


def entries(rng):
    """Every position that a matrix has, in order, then others."""
    for position in [*range(mixing.MATRICES), *beyond(rng)]:
        cause, second, matrix = tickets.catalogue_at(position)
        yield position.to_bytes(8, "big") + number(cause) + number(second) + number(matrix or 0)


def write(folder, name, rows):
    with open(os.path.join(folder, name), "wb") as f:
        f.writelines(rows)


def main():
    folder, seed = sys.argv[1], int(sys.argv[2])
    rng = random.Random(seed)
    os.makedirs(folder, exist_ok=True)
    pool = list(accepted(rng))
    bundles = [bundle for bundle, _ in pool]
    made, others = sets(rng, bundles), unfilled(rng)
    memories = [s.bytes for s in made] + others
    recorded = list(records(rng, memories))
    write(folder, "bundles", (bundle_row(*b) for b in pool))
    write(folder, "judgements", (string(b) + judged(b) for b in all_judgements(rng, bundles[1:4])))
    write(folder, "places", (number(look.off) + number(look.size) for look in wbref.LOOKS))
    write(folder, "codings", codings(rng, bundles))
    write(folder, "sets", (s.row() for s in made))
    write(folder, "tables", tables(rng, list(enumerate(bundles))[WHOLE:]))
    write(folder, "walks", walks(rng, made, others))
    write(folder, "records", (r.row() for r in recorded))
    write(folder, "replays", replays(rng, recorded))
    write(folder, "bits", bits(rng, memories))
    write(folder, "crossed", crossed(rng, bundles[:3]))
    write(folder, "entries", entries(rng))


if __name__ == "__main__":
    main()
