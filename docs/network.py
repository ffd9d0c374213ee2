#!/usr/bin/env python3
"""Draws the lookup network of a table set.

usage: docs/network.py > docs/network.svg

Numbers of lookups, bytes and lists are counted here from document 01's layout and compared with its totals.
"""
from xml.sax.saxutils import escape

WIDTH, HEIGHT = 1280, 1125
INK, FAINT, WIRE = "#1f2933", "#5f6b7a", "#7b8794"
PAPER, LIST, MATRIX, KEY, SBOX, XOR = "#ffffff", "#dce9f7", "#dcf2e3", "#fdebc8", "#ecdff7", "#f8dcdc"
ROWS = ("#2b6cb0", "#2f855a", "#b7791f", "#805ad5")  # one for each row q of the state

# ---- counts --------------------------------------------------------------------------------

XOR_BYTES = 128


class Layer:
    """The entry, a half of a round or the exit: `word` bytes to a spread word, and as many words to a sum."""

    def __init__(self, word, table, offset, first_list):
        self.word, self.table, self.offset, self.list = word, table, offset, first_list
        self.sums = (16 // word) * (word - 1) * 2 * word
        self.tables = 16 + self.sums
        self.spread_bytes = 256 * word
        self.bytes = 16 * self.spread_bytes + self.sums * XOR_BYTES
        self.lists = 32 * word + self.sums


def layers():
    table, offset, first_list = 0, 0, 32
    for word in [16] + 18 * [4] + [16]:
        layer = Layer(word, table, offset, first_list)
        yield layer
        table, offset, first_list = table + layer.tables, offset + layer.bytes, first_list + layer.lists
    assert (table, offset, first_list) == (3008, 770048, 6048)


LAYERS = list(layers())
ENTRY, FIRST, SECOND, EXIT = LAYERS[0], LAYERS[1], LAYERS[2], LAYERS[-1]
ROUND_TABLES, ROUND_LISTS = 2 * FIRST.tables, 2 * FIRST.lists


def shifted(p):
    return 4 * ((p // 4 + p % 4) % 4) + p % 4

# ---- drawing -------------------------------------------------------------------------------

OUT = []


def text(x, y, words, size=13, anchor="start", color=INK, weight="normal"):
    OUT.append(f'<text x="{x}" y="{y}" font-size="{size}" text-anchor="{anchor}" fill="{color}" font-weight="{weight}">{escape(words)}</text>')


def heading(x, y, words):
    text(x, y, words, 17, weight="bold")


def box(x, y, w, h, fill=PAPER, stroke=INK):
    OUT.append(f'<rect x="{x}" y="{y}" width="{w}" height="{h}" rx="4" fill="{fill}" stroke="{stroke}"/>')


def labelled(x, y, w, h, words, fill=PAPER, size=13):
    box(x, y, w, h, fill)
    text(x + w / 2, y + h / 2 + size * 0.36, words, size, "middle")


def path(points, color=WIRE, arrow=False):
    d = "M" + " L".join(f"{x},{y}" for x, y in points)
    end = ' marker-end="url(#arrow)"' if arrow else ""
    OUT.append(f'<path d="{d}" fill="none" stroke="{color}" stroke-width="1.5"{end}/>')


def plus(x, y, r):
    OUT.append(f'<circle cx="{x}" cy="{y}" r="{r}" fill="{XOR}" stroke="{INK}"/>')
    path([(x - r, y), (x + r, y)], INK)
    path([(x, y - r), (x, y + r)], INK)


def rows_of_text(x, y, columns, rows):
    """Lines of a small table, its first line faint."""
    for i, row in enumerate(rows):
        for dx, words in zip(columns, row):
            text(x + dx, y + 20 * i, words, 13, color=FAINT if i == 0 else INK)

# ---- the stages ----------------------------------------------------------------------------

def stage(x, top, w, name, parts):
    first, last, middle = parts[0], parts[-1], x + w / 2
    box(x, top, w, 78, LIST if len(parts) == 1 else PAPER)
    text(middle, top + 19, name, 14, "middle", weight="bold")
    if len(parts) == 1:
        text(middle, top + 49, f"{first.tables} lookups", 12, "middle")
    else:
        labelled(x + 5, top + 27, w - 10, 21, "first half", LIST, 11)
        labelled(x + 5, top + 52, w - 10, 21, "second half", LIST, 11)
    text(middle, top + 101, f"{first.table:,}–{last.table + last.tables - 1:,}", 12, "middle")
    text(middle, top + 123, f"{first.offset:,}", 12, "middle")
    text(middle, top + 145, f"{first.list:,}–{last.list + last.lists - 1:,}", 12, "middle")


def stages(top):
    heading(40, top, "The stages, in order of use")
    left, w, gap = 120, 90, 8
    spans = [("entry", [ENTRY])] + [(f"round {r}", LAYERS[2 * r - 1:2 * r + 1]) for r in range(1, 10)] + [("exit", [EXIT])]
    right = left + len(spans) * (w + gap) - gap
    text(40, top + 61, "block", weight="bold")
    path([(84, top + 57), (left - 1, top + 57)], INK, arrow=True)
    path([(left, top + 57), (right + 16, top + 57)], INK, arrow=True)
    text(right + 19, top + 61, "answer", weight="bold")
    for row, name in enumerate(("lookups", "first byte", "lists")):
        text(40, top + 119 + 22 * row, name, color=FAINT)
    for i, (name, parts) in enumerate(spans):
        stage(left + i * (w + gap), top + 18, w, name, parts)

# ---- one layer -----------------------------------------------------------------------------

def sums(x, y, step, heights, radius):
    """Words come down from spread boxes that stand `step` apart, and word t is added to word 0's line at its height."""
    for t, height in heights.items():
        path([(x + t * step, y), (x + t * step, height), (x + radius, height)], INK)
    path([(x, y), (x, max(heights.values()) + 35)], INK, arrow=True)
    for height in heights.values():
        plus(x, height, radius)


def half(x, top):
    heading(x, top, "Each half of a round")
    text(x, top + 22, f"16 spread tables of {FIRST.spread_bytes:,} bytes, and {FIRST.sums} XOR tables of {XOR_BYTES}: {FIRST.bytes:,} bytes. "
         "Each + is 8 XOR tables, one for each nibble of a word.", color=FAINT)
    place = [x + 104 + 42 * p + 14 * (p // 4) for p in range(16)]
    labels = {"standing byte": 58, "spread": 139, "word 1 added": 194, "word 2 added": 229, "word 3 added": 264, "standing bytes": 316}
    for name, y in labels.items():
        text(x, top + y, name, color=FAINT)
    for p in range(16):
        path([(place[shifted(p)] + 18, top + 66), (place[p] + 18, top + 120)], ROWS[p % 4])
    for p in range(16):
        labelled(place[p], top + 40, 36, 26, str(p))
        labelled(place[p], top + 120, 36, 30, str(p), LIST)
    for c in range(4):
        sums(place[4 * c] + 18, top + 150, 42, {t: top + 155 + 35 * t for t in (1, 2, 3)}, 11)
        labelled(place[4 * c], top + 299, 162, 26, f"{4 * c} to {4 * c + 3}")
    t, n, per = FIRST.table, FIRST.list, f"{ROUND_TABLES}(r−1)"
    rows_of_text(x, top + 356, (0, 250, 450), [
        ("", "table", "lists of its result"),
        ("spread p, nibble h of its word", "T + p", "L + 8p + h"),
        ("column c, word t added, nibble h", "T + 16 + x", "L + 128 + x"),
        ("", "x = 24c + 8(t−1) + h", ""),
        ("first half", f"T = {t} + {per}", f"L = {n:,} + {ROUND_LISTS}(r−1)"),
        ("second half", f"T = {SECOND.table} + {per}", f"L = {SECOND.list:,} + {ROUND_LISTS}(r−1)"),
    ])
    text(x, top + 484, "Wires as in a first half: position p = 4c+q reads byte 4((c+q) mod 4)+q. In a second half position p reads byte p.",
         color=FAINT)


def whole_block(x, top):
    heading(x, top, "Entry and exit")
    text(x, top + 22, f"16 × {ENTRY.spread_bytes:,} and {ENTRY.sums} × {XOR_BYTES} bytes: {ENTRY.bytes:,} bytes", color=FAINT)
    place = [x + 22 * p for p in range(16)]
    for p in range(16):
        labelled(place[p], top + 40, 18, 26, str(p), size=11)
        path([(place[p] + 9, top + 66), (place[p] + 9, top + 120)])
        labelled(place[p], top + 120, 18, 30, str(p), LIST, 11)
    sums(x + 9, top + 150, 22, {1: top + 182, 2: top + 208, 15: top + 264}, 9)
    text(x + 180, top + 200, "word 1 to word 15 added in turn,", anchor="middle", color=FAINT)
    text(x + 180, top + 218, "each + is 32 XOR tables", anchor="middle", color=FAINT)
    labelled(x, top + 299, 348, 26, "standing bytes 0 to 15")
    rows_of_text(x, top + 356, (0, 90, 230), [
        ("", "table", "lists"),
        ("spread i", "T + i", "L + 32i + h"),
        ("word t", "T + 16 + x", "L + 512 + x"),
        ("", "x = 32(t−1) + h", ""),
        ("entry", f"T = {ENTRY.table}", f"L = {ENTRY.list}"),
        ("exit", f"T = {EXIT.table:,}", f"L = {EXIT.list:,}"),
    ])
    text(x, top + 484, "Wires as in the entry. The exit reads as a first half does.", color=FAINT)

# ---- what a table does ---------------------------------------------------------------------

CHAINS = (
    ("entry, i", [("decode, 2 lists", LIST), ("inverse of the input matrix, byte i", MATRIX), ("byte matrices (1, 0) to (1, 15)", MATRIX),
                  ("encode, 32 lists", LIST)]),
    ("first half, p", [("decode, 2 lists", LIST), ("inverse of byte matrix (r, j)", MATRIX), ("round key r−1, byte j", KEY), ("S-box", SBOX),
                       ("MixColumns, column q", SBOX), ("column matrix (r, c)", MATRIX), ("encode, 8 lists", LIST)]),
    ("second half, p", [("decode, 2 lists", LIST), ("inverse of column matrix (r, c), row q", MATRIX),
                        ("byte matrices (r+1, 4c) to (r+1, 4c+3)", MATRIX), ("encode, 8 lists", LIST)]),
    ("exit, p", [("decode, 2 lists", LIST), ("inverse of byte matrix (10, j)", MATRIX), ("round key 9, byte j", KEY), ("S-box", SBOX),
                 ("round key 10, byte p", KEY), ("output matrix, byte p", MATRIX), ("encode, 32 lists", LIST)]),
    ("XOR table", [("decode, 2 lists", LIST), ("a XOR b", XOR), ("encode, 1 list", LIST)]),
)


def chains(x, top):
    heading(x, top, "What the tables of each kind hold")
    for i, (name, steps) in enumerate(CHAINS):
        y, at = top + 20 + 40 * i, x + 120
        text(x, y + 19, name, weight="bold")
        for k, (words, fill) in enumerate(steps):
            width = 6.6 * len(words) + 18
            if k:
                path([(at - 14, y + 14), (at - 2, y + 14)], INK, arrow=True)
            labelled(at, y, width, 28, words, fill, 12)
            at += width + 16
    text(at, top + 20 + 40 * len(CHAINS) - 21, "entry e = 16a + b stands in byte e/2, even e in the high half", color=FAINT)
    text(x, top + 20 + 40 * len(CHAINS) + 14, "Of a forward set. In an inverse set position 4c+q reads byte 4((c−q) mod 4)+q; inverse S-box and InvMixColumns;", color=FAINT)
    text(x, top + 20 + 40 * len(CHAINS) + 32, "round key 10 before the first S-box, by the byte read; round key 10−r behind that of round r, by the position.", color=FAINT)


def main():
    text(40, 44, "The lookup network of a table set", 22, weight="bold")
    text(40, 68, "3,008 lookups, each over a table of its own: 770,048 bytes. A list is the encoding of a nibble; "
         "lists 0 to 31 are the input coding's, and 6,016 to 6,047,", color=FAINT)
    text(40, 86, "those of the exit's last sums, are the output coding's. T is the number of a stage's or half's first table, L of its first list.",
         color=FAINT)
    stages(124)
    half(40, 330)
    whole_block(892, 330)
    chains(40, 868)
    print(f'<svg xmlns="http://www.w3.org/2000/svg" viewBox="0 0 {WIDTH} {HEIGHT}" width="{WIDTH}" height="{HEIGHT}"'
          ' font-family="Helvetica, Arial, DejaVu Sans, sans-serif">')
    print('<defs><marker id="arrow" viewBox="0 0 8 8" refX="7" refY="4" markerWidth="7" markerHeight="7" orient="auto">'
          f'<path d="M0,0 L8,4 L0,8 z" fill="{INK}"/></marker></defs>')
    print(f'<rect width="{WIDTH}" height="{HEIGHT}" fill="{PAPER}"/>')
    print("\n".join(OUT))
    print("</svg>")


main()
