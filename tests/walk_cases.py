#!/usr/bin/env python3
"""Makes stdin and stdout of crates/walk_cases with the reference, tests/reference/tickets.py, which is of other authorship.

usage: tests/walk_cases.py           write crates/walk_cases/stdin and stdout
       tests/walk_cases.py --check   compare instead of writing, and run target/bin/walk_cases over other memory

For each cipher: one walk stop by stop, to every count from 0 to 3,008; one walk by moves of one lookup; one by lookups alone; walks by random stops
with refused calls mixed in; moves to the end of each stage or half, to one lookup before it and to one behind it; walks of any content that are
given. Then walks that hold any number as their cipher. The refusals are those of document 01's table "Turned down".

The line of a call has the cause, the cipher, the count, of a move the offset that it passes on (document 02, Ticket 2), and every byte of the walk
that the call changed. The line of a lookup alone has the offset and the half of the entry that it read; the bytes that it changed show in the lines behind it.

The other memory is a set for each cipher, which the reference makes from a random key and bundle, and random bytes. It is too long to stand in
stdin, so the compiled program is given it here and makes the walks of both ciphers over it.
"""
import itertools
import os
import random
import subprocess
import sys

HERE = os.path.dirname(os.path.abspath(__file__))
CRATE = os.path.join(HERE, "..", "crates", "walk_cases")
PROGRAM = os.path.join(HERE, "..", "target", "bin", "walk_cases")
sys.path.insert(0, os.path.join(HERE, "reference"))
import tickets
import wbref

RULES = tickets.Rules(5)
LAST = len(wbref.LOOKS)
# The counts at which a stage or half ends: behind each last XOR lookup.
ENDS = [n + 1 for n, look in enumerate(wbref.LOOKS) if not look.spread and look.last]
FORWARD = (0,)
INVERSE = (1, 2, 7, 255, 2**32, 2**63, 2**64 - 1)


def memory():
    """The bytes that the program fills its memory with: one more than a set has."""
    x, out = 197, bytearray()
    for _ in range(wbref.SET_LEN + 1):
        x = (x * 1103515245 + 12345) % 2**31
        out.append(x // 65536 % 256)
    return bytes(out)


def changes(old, new):
    return "".join(f" {i}:{b}" for i, (a, b) in enumerate(zip(old, new)) if a != b)


class Cases:
    def __init__(self):
        self.mem, self.rng = memoryview(memory()), random.Random(3008)
        self.stdin, self.lines = bytearray(), []
        self.walk = tickets.Walk()

    def order(self, kind, k=0, n=0, data=b""):
        self.stdin += bytes([kind, k]) + n.to_bytes(6, "big") + data

    def memory(self, data):
        """Gives the program these bytes as its memory from byte 0 on; what is behind them stays."""
        self.order(8, n=len(data), data=data)
        self.mem = memoryview(data + bytes(self.mem[len(data) :]))

    def report(self, cause, new, place=""):
        # The reference's walk of zeros has 0 rounds; ours has no such number.
        old, self.walk = self.walk, new.copy(rounds=10)
        self.lines.append(f"{cause} {new.cipher} {new.count}{place}{changes(old.standing, new.standing)} area{changes(old.area, new.area)}")

    def report_move(self, cause, _, new, offset):
        self.report(cause, new, f" {offset}")

    def start(self, cipher, block):
        self.order(0, len(block), data=cipher.to_bytes(8, "big") + block)
        cause, _, new = RULES.start(block, cipher)
        self.report(cause, new)

    def given(self, cipher, count, standing, area):
        far = count >= 2**48
        assert not far or count % 65536 == 65535
        self.order(1, int(far), count // 65536 if far else count, cipher.to_bytes(8, "big") + standing + area)
        self.report(0, tickets.Walk(count, standing, area, cipher))

    def moved(self, stop, more=0):
        self.report_move(*RULES.move_to(self.walk, self.mem[: wbref.SET_LEN + more], stop))

    def move(self, stop, more=0):
        far = stop >= 2**48
        self.order(3 if far else 2, 2 + more, stop // 65536 if far else stop)
        self.moved(stop, more)

    def one(self, more=0):
        """A move of one lookup with the table of the count, and `more` bytes; behind the last table, which has no bytes to leave out, with these alone."""
        self.order(4, 2 + more)
        at, size = wbref.SET_LEN, 0
        if self.walk.count < LAST:
            look = wbref.LOOKS[self.walk.count]
            at, size = look.off, look.size
        elif more < 0:
            return
        self.report_move(*RULES.move_one(self.walk, self.mem[at : at + size + more]))

    def look_up(self):
        """One lookup alone, which leaves the walk's number as it is; nothing past the last."""
        self.order(7)
        if self.walk.count < LAST:
            look = tickets.schedule(10, self.walk.cipher != 0)[0][self.walk.count]
            self.walk, read = tickets.look_up(self.walk, lambda a, n: bytes(self.mem[look.off + a : look.off + a + n]), look)
            self.lines.append(f"{read.offset} {read.half}")

    def fetch(self, size):
        self.order(5, size)
        held = bytes([90] * 256)
        block = bytearray(held[:size])
        cause, _ = RULES.fetch(self.walk, block)
        self.lines.append(f"{cause}{changes(held, block)}")

    def every(self):
        self.order(6)
        for stop in range(LAST + 1):
            self.moved(stop)

    def mixed(self):
        """Calls of every kind in random order, up to the last count."""
        r = self.rng
        while self.walk.count < LAST:
            kind = r.randrange(8)
            if kind == 0:
                self.move(r.choice([0, self.walk.count, LAST + 1, 2**48 - 1, 2**64 - 1, r.randrange(LAST)]))
            elif kind == 1:
                self.move(r.randrange(LAST + 2), r.choice([-2, -1, 1]))
            elif kind == 2:
                self.one(r.choice([-2, -1, 1]))
            elif kind == 3:
                self.fetch(r.choice([0, 15, 16, 17, 255]))
            elif kind == 4:
                self.move(min(LAST, self.walk.count + r.randrange(200)))
            elif kind == 5:
                self.look_up()
            else:
                self.one()


def walks(c, r, numbers):
    """Walks of one cipher, which is named by these numbers in turn."""
    ciphers = itertools.cycle(numbers)
    c.start(next(ciphers), r.randbytes(16))
    c.every()
    c.fetch(16)
    for size in (0, 15, 17, 255):
        c.start(next(ciphers), r.randbytes(size))
    c.start(next(ciphers), r.randbytes(16))
    for _ in range(LAST - 1):
        c.one()
    c.fetch(16)
    c.one()
    c.fetch(16)
    c.one()
    c.one(1)
    c.move(LAST)
    c.move(LAST + 1)
    c.move(LAST - 1)
    c.start(next(ciphers), r.randbytes(16))
    for _ in range(LAST + 1):
        c.look_up()
    c.fetch(16)
    ends(c, r, ciphers)
    for _ in range(6):
        c.start(next(ciphers), r.randbytes(16))
        c.mixed()
        c.fetch(16)
    for count in (0, 15, 16, 495, 496, 2000, 2511, 2512, LAST - 1, LAST, LAST + 1, 2**32, 2**48 - 1, 2**64 - 1):
        c.given(next(ciphers), count, r.randbytes(16), r.randbytes(256))
        c.one(-1)
        c.one()
        c.look_up()
        c.move(LAST)
        c.fetch(15)
        c.fetch(16)


def ends(c, r, ciphers):
    """Moves that end near the end of a stage or half: from the first lookup, and from near another end to two or three stages further."""
    for end, near in itertools.product(ENDS, (-1, 0, 1)):
        c.start(next(ciphers), r.randbytes(16))
        c.move(end + near)
    for further, near in itertools.product((2, 3), (-1, 0, 1)):
        c.start(next(ciphers), r.randbytes(16))
        for end in ENDS[::further]:
            c.move(end + near)


def starts(c, r, numbers):
    """Every number: an accepted start, and a refused one of zeros only."""
    for number in numbers:
        c.start(number, r.randbytes(16))
        c.move(512)
        c.start(number, r.randbytes(15))


def held(c, r, numbers):
    """A walk that holds any number: a refused move and a fetch leave it, an accepted move hands back 0 or 1, also one that makes no lookup."""
    for number, count in itertools.product(numbers, (0, 501, LAST)):
        w = number, count, r.randbytes(16), r.randbytes(256)
        c.given(*w)
        c.move(LAST + 1)
        c.move(count - 1 if count else 2**64 - 1)
        c.move(count, -1)
        c.one(1)
        c.fetch(15)
        c.fetch(16)
        c.move(count)
        c.fetch(16)
        c.given(*w)
        c.one()
        c.given(*w)
        c.look_up()
        c.move(min(count + 12, LAST))


def output(c):
    """What the program is to write."""
    return "".join(line + "\n" for line in c.lines).encode()


def make():
    c, r = Cases(), random.Random(11)
    walks(c, r, FORWARD)
    walks(c, r, INVERSE)
    starts(c, r, FORWARD + INVERSE)
    held(c, r, FORWARD + INVERSE)
    return {"stdin": bytes(c.stdin), "stdout": output(c)}


def made(r, cipher):
    """A set that the reference makes for a cipher from a random key and bundle."""
    memory = bytearray(wbref.SET_LEN)
    assert RULES.make_set(r.randbytes(16), tickets.random_bundle(r), memory, cipher) == (0, 0)
    return bytes(memory)


def same_over(r, memory):
    """Whether the compiled program makes the walks of both ciphers over this memory as the reference does."""
    c = Cases()
    c.memory(memory)
    walks(c, r, FORWARD)
    walks(c, r, INVERSE)
    return subprocess.run([PROGRAM], input=c.stdin, capture_output=True, check=True, timeout=60).stdout == output(c)


def same_as_written(name, content):
    """Whether the crate's file has this content."""
    with open(os.path.join(CRATE, name), "rb") as f:
        return f.read() == content


def main():
    files = make()
    if "--check" in sys.argv[1:]:
        r = random.Random(770048)
        same = {name: same_as_written(name, content) for name, content in files.items()}
        for name, memory in {"a forward set": made(r, 0), "an inverse set": made(r, 1), "random memory": r.randbytes(wbref.SET_LEN)}.items():
            same[name] = same_over(r, memory)
        wrong = [name for name, fine in same.items() if not fine]
        sys.exit("DIFFERS from the reference: " + ", ".join(wrong) if wrong else 0)
    for name, content in files.items():
        with open(os.path.join(CRATE, name), "wb") as f:
            f.write(content)


if __name__ == "__main__":
    main()
