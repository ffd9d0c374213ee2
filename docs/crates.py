#!/usr/bin/env python3
"""Draws the crates and which stands on which, from crates.txt.

usage: docs/crates.py > docs/crates.svg

An arrow leads from a crate to one that it names, and is left out where a longer way leads there too. The kit's own crates are not drawn.
"""
import pathlib
from xml.sax.saxutils import escape

ROOT = pathlib.Path(__file__).resolve().parent.parent
INK, FAINT, WIRE = "#1f2933", "#5f6b7a", "#7b8794"
BOX_WIDTH, BOX_HEIGHT, GAP, RISE, EDGE, TOP = 112, 34, 26, 92, 40, 96

# Groups of crates, and how far from the left each crate stands; how high it stands goes by what it stands on.
GROUPS = {
    "mathematics and FIPS 197": ("#dce9f7", {
        "bits": 3.4, "matrices": 2.7, "inversion": 2.6, "narrow": 1.75, "invertible": 2.6, "catalogue": 3.45, "blocks": 3.0, "field": 4.3, "round": 4.3, "aes": 4.3,
    }),
    "answers and numbers of rounds": ("#e4e7eb", {"answers": 1.2, "rounds": 5.0}),
    "the bundle": ("#fdebc8", {"bundle": 1.6, "judgement": 2.1, "external": 2.1, "view": 0.9}),
    "the table set, as definitions and theorems": ("#ecdff7", {"network": 5.2, "layout": 5.2, "calls": 5.15, "whitebox": 3.5, "sensitivity": 3.5, "demands": 5.0}),
    "the maker": ("#dcf2e3", {"encodings": 0, "xor_tables": -0.1, "spread_tables": 0.9, "inverse_matrices": 2.2, "substitution": 1.6, "layers": 2.6, "stages": 0.9, "keyed_tables": 0.9, "tables": 0.9}),
    "the walk": ("#f8dcdc", {"lookups": 6.0, "layer_lookups": 6.7, "layer_record": 7.6, "passes": 5.7, "moves": 5.9, "evaluate": 5.6, "records": 7.0, "next_bit": 4.5}),
    "calls for C, chains of calls, programs": ("#ffffff", {"one_call": 6.0, "told": 4.5, "host": 3.0, "orders": 5.6, "chains": 1.6, "streams": 8.4, "maker": 0.1, "walker": 8.0, "catalogue_list": 8.9}),
}
TESTS = {"matrix_cases", "aes_vectors", "bundle_cases", "walk_cases"}
FILL = {name: color for color, names in GROUPS.values() for name in names}
COLUMN = {name: column for _, names in GROUPS.values() for name, column in names.items()}


def crates():
    """Each crate with the crates that its own files name."""
    lines = [line.partition("#")[0].partition(":") for line in (ROOT / "crates.txt").read_text().split("\n")]
    named = {kind.split()[0]: rest.split() for kind, _, rest in lines if kind.strip()}
    named = {name: others for name, others in named.items() if name not in TESTS}
    return {name: {other for other in others if other in named} for name, others in named.items()}


def reach(named, name):
    return named[name].union(*(reach(named, other) for other in named[name]))


def direct(named):
    """The arrows that no longer way replaces."""
    return {name: {o for o in others if not any(o in reach(named, via) for via in others)} for name, others in named.items()}


def heights(named):
    def height(name):
        return 1 + max((height(other) for other in named[name]), default=-1)

    return {name: height(name) for name in named}


def draw():
    named = crates()
    assert set(named) <= set(FILL), set(named) - set(FILL)
    arrows, height = direct(named), heights(named)
    levels = 1 + max(height.values())
    width = EDGE * 2 + round(max(COLUMN.values()) * (BOX_WIDTH + GAP)) + BOX_WIDTH
    bottom = TOP + levels * RISE
    tall = bottom + 30 * ((len(GROUPS) + 1) // 2)
    at = {name: (round(EDGE + COLUMN[name] * (BOX_WIDTH + GAP)), TOP + (levels - 1 - height[name]) * RISE) for name in named}
    out = [
        f'<svg xmlns="http://www.w3.org/2000/svg" viewBox="0 0 {width} {tall}" width="{width}" height="{tall}" font-family="Helvetica, Arial, DejaVu Sans, sans-serif">',
        f'<defs><marker id="arrow" viewBox="0 0 8 8" refX="7" refY="4" markerWidth="7" markerHeight="7" orient="auto"><path d="M0,0 L8,4 L0,8 z" fill="{WIRE}"/></marker></defs>',
        f'<rect width="{width}" height="{tall}" fill="#ffffff"/>',
        f'<text x="{EDGE}" y="44" font-size="22" fill="{INK}" font-weight="bold">The crates</text>',
        f'<text x="{EDGE}" y="68" font-size="13" fill="{FAINT}">An arrow leads to a crate that the upper one stands on, and is left out where a longer way leads there. Test programs are not drawn.</text>',
    ]
    for name, others in arrows.items():
        x, y = at[name]
        for other in sorted(others):
            u, v = at[other]
            x1, y1, x2, y2 = x + BOX_WIDTH / 2, y + BOX_HEIGHT, u + BOX_WIDTH / 2, v
            out.append(
                f'<path d="M{x1},{y1} C{x1},{y1 + RISE / 2} {x2},{y2 - RISE / 2} {x2},{y2}" fill="none" stroke="{WIRE}" stroke-width="1.3" marker-end="url(#arrow)"/>')
    for name, (x, y) in at.items():
        out.append(f'<rect x="{x}" y="{y}" width="{BOX_WIDTH}" height="{BOX_HEIGHT}" rx="4" fill="{FILL[name]}" stroke="{INK}"/>')
        out.append(f'<text x="{x + BOX_WIDTH / 2}" y="{y + 22}" font-size="14" text-anchor="middle" fill="{INK}">{escape(name)}</text>')
    for i, (words, (color, _)) in enumerate(GROUPS.items()):
        x, y = EDGE + i % 2 * 360, bottom + i // 2 * 30
        out.append(f'<rect x="{x}" y="{y}" width="22" height="16" rx="3" fill="{color}" stroke="{INK}"/>')
        out.append(f'<text x="{x + 32}" y="{y + 13}" font-size="13" fill="{INK}">{escape(words)}</text>')
    print("\n".join(out + ["</svg>"]))


if __name__ == "__main__":
    draw()
