#!/usr/bin/env python3
"""Draws the rows around the first miss of a design: inputs, and each output as the design gives it above what its table expects.

usage: tools/waves.py DESIGN TABLE NAME [--top M] [--clock C] [--rows A-B] [--program P]

Writes NAME.svg, a picture of the rows A to B (the header is row 0; where they are not given, six before the first miss to five behind it, or the
first twelve), in which digits that differ are red, and NAME.vcd, a dump of all rows for a waveform viewer: a cycle of ten units with the clock's
edge in its middle, and the scopes `inputs`, `given` and `expected`. A table has no widths, so a port is as wide as its largest value. The status is
that of tools/misses.py.
"""
import os, re, sys, tempfile
from collections import namedtuple
from xml.sax.saxutils import escape

from cells import differing, digits, records
from misses import call, ran, words

# One line of the picture: its scope, its port, how many bits that has, and for each row the known bits, their values and the bits that differ.
Lane = namedtuple("Lane", "scope name width cells")
LABEL, STEP, HEIGHT = 150, 64, 26
STYLE = (
    "text{font:11px monospace}.n{fill:#666}.d{fill:#c00;font-weight:bold}.x{fill:#e4e4e4}.m{fill:#fdd}"
    ".w{fill:none;stroke:#246;stroke-width:1.5}.e{stroke:#373}.g{stroke:#ddd}"
)


def inputs(asked):
    """The names of the inputs but the clock: `run` asks for each that a table lacks."""
    found = []
    with tempfile.TemporaryDirectory() as room:
        while True:
            with open(f"{room}/table.csv", "w", encoding="utf-8") as file:
                file.write(",".join(["time", *[f'"{it}"' for it in found]]) + "\n")
            done = call(asked, f"{room}/table.csv", stderr=-1)
            missing = re.match(r"refused 29 MissingInput input (.*)\n", done.stderr)
            if not missing:
                return found
            found.append(missing[1].replace('"', '""'))


def lanes(asked, table, given):
    """The ports in the order in which `run` prints them, an output as it is given and as it is expected."""
    wanted, rows, known_inputs, found = records(table), records(given), inputs(asked), []
    for name in rows[0] if rows else []:
        values = [int(row[name]) for row in rows]
        cells = [digits(row.get(name, "")) for row in wanted]
        width = max([1, *[it.bit_length() for it in values], *[value.bit_length() for _, value in cells]])
        whole = (1 << width) - 1
        wrong = [(value ^ want) & known & whole for value, (known, want) in zip(values, cells)]
        if name in known_inputs:
            found.append(Lane("inputs", name, width, [(whole, it, 0) for it in values]))
        else:
            found.append(Lane("given", name, width, [(whole, it, bad) for it, bad in zip(values, wrong)]))
            found.append(Lane("expected", name, width, [(known & whole, want & known & whole, bad) for (known, want), bad in zip(cells, wrong)]))
    return found


def spelled(width, cell):
    """The digits of a cell, each with whether it differs: binary up to eight bits, else hexadecimal."""
    known, value, wrong = cell
    step = 1 if width <= 8 else 4
    part = (1 << step) - 1
    for at in reversed(range(0, width, step)):
        yield "x" if (known >> at & part) < (part & (1 << width - at) - 1) else f"{value >> at & part:x}", bool(wrong >> at & part)


def drawn(lane, y, first, last):
    """The marks of one line of the picture."""
    kind = "w e" if lane.scope == "expected" else "w"
    label = lane.name if lane.scope == "inputs" else f"{lane.name} {lane.scope}"
    yield f'<text x="{LABEL - 8}" y="{y + 17}" text-anchor="end">{escape(label)}</text>'
    before = None
    for row in range(first, last + 1):
        x, cell = LABEL + (row - first) * STEP, lane.cells[row - 1]
        known, value, wrong = cell
        if wrong:
            yield f'<rect class="m" x="{x}" y="{y}" width="{STEP}" height="{HEIGHT - 2}"/>'
        if not known:
            yield f'<rect class="x" x="{x}" y="{y + 4}" width="{STEP}" height="{HEIGHT - 8}"/>'
            before = None
        elif lane.width == 1:
            level = y + (4 if value else HEIGHT - 6)
            start = f"M{x} {level}" if before is None else f"M{x} {before}V{level}"
            yield f'<path class="{kind}" d="{start}H{x + STEP}"/>'
            before = level
        else:
            low, high, right = y + HEIGHT - 4, y + 2, x + STEP
            yield f'<path class="{kind}" d="M{x} {y + 12}L{x + 4} {high}H{right - 4}L{right} {y + 12}L{right - 4} {low}H{x + 4}Z"/>'
        if known and (lane.width > 1 or wrong):
            text = "".join(f'<tspan class="d">{it}</tspan>' if bad else it for it, bad in spelled(lane.width, cell))
            yield f'<text x="{x + STEP / 2}" y="{y + 16}" text-anchor="middle">{text}</text>'


def picture(found, first, last):
    """The rows from the first to the last as SVG."""
    width, height = LABEL + (last - first + 1) * STEP + 10, HEIGHT * (len(found) + 1) + 10
    yield f'<svg xmlns="http://www.w3.org/2000/svg" width="{width}" height="{height}" viewBox="0 0 {width} {height}">'
    yield f'<style>{STYLE}</style><rect width="{width}" height="{height}" fill="#fff"/>'
    yield f'<text class="n" x="{LABEL - 8}" y="17" text-anchor="end">row</text>'
    for row in range(first, last + 1):
        x = LABEL + (row - first) * STEP
        yield f'<path class="g" d="M{x} 4V{height - 4}"/><text class="n" x="{x + STEP / 2}" y="17" text-anchor="middle">{row}</text>'
    for at, lane in enumerate(found):
        yield from drawn(lane, HEIGHT * (at + 1) + 4, first, last)
    yield "</svg>"


def bits(width, cell):
    known, value, _ = cell
    return "".join("x" if not known >> at & 1 else str(value >> at & 1) for at in reversed(range(width)))


def dump(found, rows):
    """All rows as a value change dump (IEEE 1364-2005 section 18)."""
    yield "$timescale 1ns $end"
    for scope in ("inputs", "given", "expected"):
        yield f"$scope module {scope} $end"
        if scope == "inputs":
            yield "$var wire 1 ! clock_of_rows $end"
        yield from (f"$var wire {lane.width} v{at} {lane.name} $end" for at, lane in enumerate(found) if lane.scope == scope)
        yield "$upscope $end"
    yield "$enddefinitions $end"
    for row in range(rows):
        yield f"#{10 * row}"
        yield "0!"
        for at, lane in enumerate(found):
            if not row or lane.cells[row] != lane.cells[row - 1]:
                yield f"b{bits(lane.width, lane.cells[row])} v{at}"
        yield f"#{10 * row + 5}"
        yield "1!"


def main():
    parser = words("tools/waves.py DESIGN TABLE NAME [--top M] [--clock C] [--rows A-B] [--program P]", "name", "--rows")
    asked = parser.parse_args()
    table, given = ran(asked)
    rows, missed = len(records(table)), sorted({it[0] for it in differing(table, given)})
    if not rows:
        sys.exit("tools/waves.py: the table has no row")
    start = max(1, missed[0] - 6) if missed else 1
    first, last = map(int, asked.rows.split("-")) if asked.rows else (start, start + 11)
    first, last = max(1, first), min(rows, last)
    found = lanes(asked, table, given)
    for ending, lines in ((".svg", picture(found, first, last)), (".vcd", dump(found, rows))):
        with open(asked.name + ending, "w", encoding="utf-8") as file:
            file.write("\n".join(lines) + "\n")
    return 1 if missed else 0


if __name__ == "__main__":
    sys.exit(main())
