#!/usr/bin/env python3
"""Tells where a design misses its table: runs it, and prints each cell that it does not have, the first row first.

usage: tools/misses.py DESIGN TABLE [--top M] [--clock C] [--all] [--program P]

A line is `row N PORT expected CELL given VALUE`: N counts the header as row 0, as refusals do, CELL stands as the table has it, and VALUE in the
base of that cell. Without --all it ends after the first 20 rows that miss. The last line counts. P is ./rtl_repair where it is not given. The
status is 0 where every known bit is there, 1 where one is not, and else that of `run`, with its text.
"""
import argparse, os, subprocess, sys

from cells import differing, records

top = os.path.dirname(os.path.dirname(os.path.abspath(__file__)))


def words(usage, *names):
    """What the command line asks for."""
    parser = argparse.ArgumentParser(usage=usage)
    for name in ("design", "table", *names, "--top", "--clock"):
        parser.add_argument(name)
    parser.add_argument("--program", default=f"{top}/rtl_repair")
    return parser


def call(asked, table, **how):
    """The program's `run` of the design on a table."""
    options = [it for name in ("top", "clock") if getattr(asked, name) for it in (f"--{name}", getattr(asked, name))]
    return subprocess.run([asked.program, "run", asked.design, table, *options], stdout=subprocess.PIPE, text=True, **how)


def ran(asked):
    """The table's text, and what `run` prints for it; where it prints none, the tool ends as it did."""
    done = call(asked, asked.table)
    if done.returncode:
        sys.exit(done.returncode)
    with open(asked.table, encoding="utf-8", newline="") as file:
        return file.read(), done.stdout


def like(cell, value):
    """A value in the base in which a cell is written."""
    return {"0x": f"0x{value:x}", "0b": f"0b{value:b}"}.get(cell[:2], str(value))


def main():
    parser = words("tools/misses.py DESIGN TABLE [--top M] [--clock C] [--all] [--program P]")
    parser.add_argument("--all", action="store_true")
    asked = parser.parse_args()
    table, given = ran(asked)
    found = differing(table, given)
    rows = sorted({number for number, *_ in found})
    shown = rows if asked.all else rows[:20]
    for number, name, cell, value, _ in found:
        if number <= (shown[-1] if shown else 0):
            print(f"row {number} {name} expected {cell} given {like(cell, value)}")
    if len(shown) < len(rows):
        print(f".. and {len(rows) - len(shown)} rows more")
    print(f"{len(rows)} of {len(records(table))} rows miss" + (f", the first is row {rows[0]}" if rows else ""))
    return 1 if rows else 0


if __name__ == "__main__":
    sys.exit(main())
