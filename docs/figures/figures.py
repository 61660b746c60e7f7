#!/usr/bin/env python3
"""Draws the figures of the pages, card.svg and sponge.svg, beside this file.

usage: python3 docs/figures/figures.py

Both have a ground of their own and follow the reader's setting of light or dark. The card's bytes are
those of the bench card on docs/cards.md, the places those of the suites on docs/cipher.md.
"""

from pathlib import Path

HERE = Path(__file__).parent

STYLE = """
.ground { fill: #ffffff; } .line { stroke: #57606a; } .box { stroke: #57606a; fill: #f6f8fa; }
.rate { stroke: #57606a; fill: #cfe5ff; } .masked { stroke: #57606a; fill: #ffd9b0; }
.control { stroke: #57606a; fill: #a4c8f5; } .open { stroke: #57606a; fill: #ffffff; }
.head { fill: #57606a; } text { fill: #1f2328; font-family: DejaVu Sans, Verdana, sans-serif; }
.dim { fill: #57606a; } .mono { font-family: DejaVu Sans Mono, Menlo, monospace; }
@media (prefers-color-scheme: dark) {
.ground { fill: #0d1117; } .line { stroke: #9198a1; } .box { stroke: #9198a1; fill: #161b22; }
.rate { stroke: #9198a1; fill: #12355f; } .masked { stroke: #9198a1; fill: #6b3a00; }
.control { stroke: #9198a1; fill: #1f5aa0; } .open { stroke: #9198a1; fill: #0d1117; }
.head { fill: #9198a1; } text { fill: #f0f6fc; } .dim { fill: #9198a1; }
}
"""


class Drawing:
    """Shapes, from top to bottom as they are added."""

    def __init__(self, title, width, height):
        self.size = (width, height)
        self.parts = [f"<title>{title}</title>", f"<style>{STYLE}</style>"]
        self.box(0, 0, width, height, "ground", radius=8)

    def box(self, x, y, width, height, kind="box", radius=0):
        self.parts.append(
            f'<rect class="{kind}" x="{x}" y="{y}" width="{width}" height="{height}" rx="{radius}"/>'
        )

    def text(self, x, y, text, size=13, anchor="middle", kind=""):
        text = text.replace("&", "&amp;").replace("<", "&lt;")
        self.parts.append(
            f'<text class="{kind}" x="{x}" y="{y}" font-size="{size}" text-anchor="{anchor}">{text}</text>'
        )

    def line(self, *points, arrow=False):
        way = " ".join(f"{x},{y}" for x, y in points)
        self.parts.append(f'<polyline class="line" fill="none" points="{way}"/>')
        if arrow:
            (x0, y0), (x, y) = points[-2:]
            if y == y0:
                back = -7 if x > x0 else 7
                tip = f"{x},{y} {x + back},{y - 4} {x + back},{y + 4}"
            else:
                back = -7 if y > y0 else 7
                tip = f"{x},{y} {x - 4},{y + back} {x + 4},{y + back}"
            self.parts.append(f'<polygon class="head" points="{tip}"/>')

    def xor(self, x, y):
        self.parts.append(f'<circle class="open" cx="{x}" cy="{y}" r="9"/>')
        self.line((x - 9, y), (x + 9, y))
        self.line((x, y - 9), (x, y + 9))

    def write(self, name):
        width, height = self.size
        size = f'viewBox="0 0 {width} {height}" width="{width}" height="{height}"'
        head = f'<svg xmlns="http://www.w3.org/2000/svg" {size}>'
        (HERE / name).write_text("\n".join([head, *self.parts, "</svg>"]) + "\n")


# The rows of the bench card: a name, and its fields with their bytes.
CARD = [
    (
        "header, 13 bytes",
        [
            ("mark", "53 45 41", "box"),
            ("version", "00 09", "box"),
            ("card number", "04 04 04 04 04 04 04 04", "box"),
        ],
    ),
    (
        "record 0, a sheet: 9 + 2 + w bytes",
        [
            ("kind", "01", "box"),
            ("cell", "00 00 00 07", "box"),
            ("edition", "00 03", "box"),
            ("length", "00 02", "box"),
            ("body, sealed", "13 06", "masked"),
            ("tag, w bytes", "72 46 83 00 03 04 87 07", "masked"),
        ],
    ),
    (
        "record 1, the end: 9 + w bytes",
        [
            ("kind", "02", "box"),
            ("sheets", "00 00 00 01", "box"),
            ("edition", "00 00", "box"),
            ("length", "00 00", "box"),
            ("tag, w bytes", "51 46 43 02 0B 00 82 03", "masked"),
        ],
    ),
]


def card():
    byte, left, row = 39, 22, 104
    drawing = Drawing("The bytes of a card with one sheet", 19 * byte + 2 * left, 470)
    place, top = 0, 22
    for name, fields in CARD:
        drawing.text(left, top, name, 14, "start")
        x = left
        for field, text, kind in fields:
            bytes_ = text.split()
            width = byte * len(bytes_)
            small = 10 if field in ("kind", "edition", "length", "version") else 12
            drawing.text(x + width / 2, top + 22, field, small, kind="dim")
            for k, value in enumerate(bytes_):
                drawing.box(x + k * byte, top + 28, byte, 28, kind)
                drawing.text(x + k * byte + byte / 2, top + 47, value, 13, kind="mono")
            drawing.text(x + 2, top + 70, str(place), 10, "start", "dim")
            place += len(bytes_)
            x += width
        top += row
    drawing.text(left, top + 2, "Small numbers are places, from 0. The card ends at place 49.", 12, "start")
    for k, line in enumerate(
        [
            "Each record is sealed with",
            "the nonce: the card number, and the record's number in eight bytes;",
            "the data: the header, and the record's first 9 bytes (kind, cell, edition, length);",
            "the message: the body, which an end record has not.",
        ]
    ):
        drawing.text(left + (14 if k else 0), top + 34 + 21 * k, line, 13, "start")
    drawing.text(left, top + 124, "Shaded: what the sealer made. w is the width of its tags, here 8 (bench).", 12, "start", "dim")
    drawing.write("card.svg")


# A suite: its name, the bytes of its state, its places, and names of its parts by the place where each begins.
SUITES = [
    ("SpoC-64, 24 bytes", 24, [*range(0, 4), *range(12, 16)], [*range(6, 10), *range(18, 22)], 6, "S"),
    ("SpoC-128, 32 bytes", 32, [*range(0, 8), *range(16, 24)], [*range(8, 16), *range(24, 32)], 8, "S"),
    ("bench, 32 bytes", 32, [*range(16, 24)], [*range(0, 8)], 8, "Q"),
]


def sponge():
    drawing = Drawing("SpoC over a suite: the state, its masks and forward", 830, 574)
    lanes = {"rate": 120, "masked": 180, "rest": 240}
    names = [("rate", "rate places"), ("masked", "masked places"), ("rest", "other places")]
    drawing.box(100, 92, 52, 176, "open")
    drawing.text(126, 184, "start", 13)
    drawing.text(126, 86, "key, nonce", 11, kind="dim")
    for lane, name in names:
        drawing.text(92, lanes[lane] + 4, name, 11, "end", "dim")
    # Each turn: where it begins, what it is called, what goes into the control place, and the block that goes in.
    turns = [
        (152, "zero mask", None, None),
        (264, "each data block", "20 or 30", "block"),
        (426, "each message block", "40 or 50", "block"),
    ]
    for x, name, control, block in turns:
        forward = x + (60 if control is None else 110)
        for y in lanes.values():
            drawing.line((x, y), (forward, y), arrow=True)
        drawing.box(forward, 92, 52, 176)
        drawing.text(forward + 26, 184, "forward", 12)
        drawing.text((x + forward) / 2, 312, name, 12)
        if control:
            at = x + 74
            drawing.line((at, 74), (at, 111), arrow=True)
            drawing.xor(at, lanes["rate"])
            drawing.text(at, 68, control, 12, kind="mono")
            drawing.text(at, 52, "control byte", 11, kind="dim")
            low = x + 40
            drawing.line((low, 276), (low, 189), arrow=True)
            drawing.xor(low, lanes["masked"])
            drawing.text(low, 290, block, 12)
    # What comes out: a ciphertext from the rate places, the tag from the masked ones.
    out = 426 + 22
    drawing.line((out, 120), (out, 32), arrow=True)
    drawing.parts.append(f'<circle class="head" cx="{out}" cy="120" r="3"/>')
    drawing.text(out, 24, "ciphertext: these xor the block", 12)
    end = 426 + 110 + 52
    for lane in ("rate", "rest"):
        drawing.line((end, lanes[lane]), (end + 30, lanes[lane]))
    drawing.line((end, lanes["masked"]), (end + 60, lanes["masked"]), arrow=True)
    drawing.text(end + 68, lanes["masked"] + 4, "tag, r bytes", 13, "start")
    drawing.text(end + 12, 312, "end state", 12, "start")
    for k, line in enumerate(
        [
            "A mask is as wide as the state: the block at the masked places (a short one is followed by 80 and",
            "zeros), the control byte at the control place, zeros elsewhere. 20 and 40 are for full blocks, 30 and",
            "50 for short ones; the last mask of the feed has 80 xored into its control byte.",
        ]
    ):
        drawing.text(24, 346 + 17 * k, line, 12, "start")
    top, byte = 402, 19
    for name, size, rate, masked, part, letter in SUITES:
        drawing.text(24, top + 16, name, 12, "start")
        for k in range(size):
            kind = "masked" if k in masked else "rate" if k in rate else "open"
            kind = "control" if k == rate[0] else kind
            drawing.box(180 + k * byte, top, byte, 22, kind)
            drawing.text(180 + k * byte + byte / 2, top + 15, str(k), 9, kind="mono")
        for k in range(0, size, part):
            drawing.text(180 + k * byte + part * byte / 2, top + 35, f"{letter}{k // part}", 10, kind="dim")
        top += 46
    for k, (kind, name) in enumerate(
        [("rate", "rate place"), ("control", "control place, the first rate place"), ("masked", "masked place")]
    ):
        x = 180 + [0, 120, 370][k]
        drawing.box(x, 542, 16, 16, kind)
        drawing.text(x + 22, 555, name, 12, "start")
    drawing.write("sponge.svg")


card()
sponge()
