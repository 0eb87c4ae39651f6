"""Cells of tables: which a printed run does not have."""
import csv, io


def digits(cell):
    """The known bits of a cell and their values."""
    cell = cell.strip()
    if cell in ("", "x", "X"):
        return 0, 0
    step, base = {"0b": (1, 2), "0x": (4, 16)}.get(cell[:2], (0, 10))
    if not step:
        return -1, int(cell)
    known = value = 0
    for digit in cell[2:].replace("_", ""):
        is_known = digit not in "xX"
        known = known << step | ((1 << step) - 1 if is_known else 0)
        value = value << step | (int(digit, base) if is_known else 0)
    # (upper digits that are not written are 0)
    return known | -1 << step * len(cell[2:].replace("_", "")), value


def records(text):
    """The rows of a table under the names of its header; blank lines and a byte order mark are skipped."""
    rows = [row for row in csv.reader(io.StringIO(text.removeprefix("\ufeff"), newline="")) if row]
    names = [name.strip() for name in rows[0]]
    return [dict(zip(names, row)) for row in rows[1:]]


def differing(table, printed):
    """The cells of a table that a printed run does not have: for each the row from 1, the column's name, the cell as the table has
    it, what the run gives, and the known bits that differ. None where the two do not have as many rows."""
    wanted, given = records(table), records(printed)
    if len(wanted) != len(given):
        return None
    found = []
    for number, (row, outputs) in enumerate(zip(wanted, given), 1):
        for name in outputs:
            known, value = digits(row[name]) if name in row else (0, 0)
            if (int(outputs[name]) ^ value) & known:
                found.append((number, name, row[name].strip(), int(outputs[name]), (int(outputs[name]) ^ value) & known))
    return found


def misses(table, printed):
    """The cells of a table that a printed run does not have, as row and column name."""
    found = differing(table, printed)
    if found is None:
        return ["another number of rows"]
    return [f"row {number} {name}" for number, name, *_ in found]
