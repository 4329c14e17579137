#!/usr/bin/env python3
"""Draws the upper part of a page of `asn_tool fields --html` as an SVG.

usage: examples/picture.py FIELDS <PAGE >PICTURE      so many of its fields

It is what a browser shows of the page: the rows of units up to the last of these fields, and their lines, of whose paths
two dots stand for the front of a long one.
"""
import html
import re
import sys

COLOURS = {"c0": "#cfe8ff", "c1": "#ffe3c2", "c2": "#d9f2d0", "c3": "#f6d3e4", "c4": "#e4dcfa", "c5": "#fdf3b5"}
WIDE, HIGH, EDGE = 7.22, 19, 18
LONGEST = 48
ROW = re.compile(r'<tr class="(\w+)">(.*)</tr>')
CELL = re.compile(r"<td>(.*?)</td>")
PIECE = re.compile(r"<(i|span)(?: class=\"(\w+)\")?>([^<]*)</(?:i|span)>")


def text_at(x, y, text, colour="#111"):
    wide = len(text) * WIDE
    return f'<text x="{x:.1f}" y="{y:.1f}" textLength="{wide:.1f}" fill="{colour}" xml:space="preserve">{html.escape(text)}</text>'


def box(x, y, wide, colour):
    return f'<rect x="{x:.1f}" y="{y - HIGH + 5:.1f}" width="{wide:.1f}" height="{HIGH}" fill="{colour}"/>'


def units(page, last, drawn, y):
    """The rows of units up to the row of the last one."""
    body = page[page.index("<pre>") + 5 : page.index("</pre>")].strip("\n").split("\n")
    for line in body:
        pieces = PIECE.findall(line)
        if int(pieces[0][2]) > last:
            break
        x = EDGE
        for kind, shade, text in pieces:
            wide = len(text) * WIDE
            if kind == "span":
                # the space behind an octet stands in the colour of the field that goes on
                drawn.append(box(x, y, wide - WIDE * text.endswith(" "), COLOURS[shade]))
            drawn.append(text_at(x, y, text, "#767676" if kind == "i" else "#111"))
            x += wide
        y += HIGH
    return y


def table(rows, drawn, y):
    """The lines of the fields."""
    cells = [["units", "octets", "path", "type", "value"], *(it for _, it in rows)]
    widths = [max(len(row[at]) for row in cells) + 3 for at in range(5)]
    for shade, row in [("head", cells[0]), *rows]:
        x = EDGE
        if shade in COLOURS:
            drawn.append(box(x - 4, y, sum(widths) * WIDE, COLOURS[shade]))
        for text, wide in zip(row, widths):
            if not text:
                x += wide * WIDE
                continue
            colour = "#111" if shade in COLOURS or shade == "head" else "#767676"
            drawn.append(text_at(x, y, text, colour))
            x += wide * WIDE
        y += HIGH
    return y, EDGE * 2 + sum(widths) * WIDE


def shortened(path):
    """The path without its first steps, where it is long."""
    while len(path) > LONGEST and "." in path[2:]:
        path = ".." + path[2:].partition(".")[2]
    return path


def main(words):
    if len(words) != 1:
        print(__doc__, file=sys.stderr)
        return 2
    page = sys.stdin.read()
    rows = [(shade, [html.unescape(it) for it in CELL.findall(cells)]) for shade, cells in ROW.findall(page)][: int(words[0])]
    rows = [(shade, [*cells[:2], shortened(cells[2]), *cells[3:]]) for shade, cells in rows]
    last = max(int(row[0].split("-")[-1]) for _, row in rows if row[0] != "-")
    drawn = []
    y = units(page, last, drawn, EDGE + HIGH)
    y, wide = table(rows, drawn, y + HIGH)
    print(f'<svg xmlns="http://www.w3.org/2000/svg" viewBox="0 0 {wide:.0f} {y:.0f}" width="{wide:.0f}" height="{y:.0f}">')
    print('<rect width="100%" height="100%" fill="#fff"/>')
    print('<g font-family="DejaVu Sans Mono, Menlo, Consolas, monospace" font-size="12">')
    print("\n".join(drawn))
    print("</g>\n</svg>")
    return 0


if __name__ == "__main__":
    sys.exit(main(sys.argv[1:]))
