"""The answer for a fund whose rows come as sheets, as METHOD 9 says (§6, §8).

price_sheets(header, rates, members, lengths, level) gives what pricing.price gives, for
the header lines as text, the rate rows (age, q, i) and the member rows (age, group, d, e, lives).
A cell is a binary64 of eight bytes, least byte first.  What follows the reading is the
file's.  sheets_of(text) and file_of(header, rate_rows, member_rows) go the other ways.
Run as a program with the paths of a header, a rate sheet and a member sheet, it prints
the listing.
"""

import math
import struct
import sys
from pathlib import Path

import pricing

CELL = 11
CELL_SIZE = 8
RATE_CELLS, MEMBER_CELLS = 3, 5
GROUP_LOW, GROUP_HIGH = 1, 2


# From a cell to a number

def cell_of(x):
    """A number, or None for a blank: any NaN."""
    return None if math.isnan(x) else x


def whole_of(cell, low, high):
    """The whole number within the limits that the cell holds, or None.  Minus zero is 0."""
    if cell is None or not low <= cell <= high or not cell.is_integer():
        return None
    return int(cell)


def amount_of(cell):
    """A blank is 0 here."""
    return 0 if cell is None else whole_of(cell, 0, pricing.AMOUNT_HIGH)


def lives_of(cell):
    """A blank is not taken here."""
    return whole_of(cell, pricing.LIVES_LOW, pricing.LIVES_HIGH)


def rate_of(cell):
    """The k from 0 to 1,000,000 whose binary64 quotient by 1,000,000 the cell equals, or None.

    Python divides whole numbers with one rounding, to the nearest binary64.  That moves a
    quotient up to 1 by at most 2^-54, and 1,000,000 times it by less than 2^-34: so of all k
    only the whole number nearest to 1,000,000 times the cell can be it, and it is found in
    whole numbers.  The quotients of 0 and 1,000,000 are 0 and 1, and the others lie between.
    """
    if cell is None or not 0 <= cell <= 1:
        return None
    numerator, denominator = cell.as_integer_ratio()
    k = (2 * pricing.MILLION * numerator + denominator) // (2 * denominator)
    return k if k / pricing.MILLION == cell else None


# From a row to a rate or a member

def rows_of(sheet, cells):
    """The rows' bytes; what is left over is a last row, cut short."""
    size = CELL_SIZE * cells
    return [sheet[at:at + size] for at in range(0, len(sheet), size)]


def cells_of(row, cells):
    """The row's cells, or None where it is cut short."""
    if len(row) < CELL_SIZE * cells:
        return None
    return [cell_of(x) for x in struct.unpack(f"<{cells}d", row)]


def joined(numbers):
    """A row is taken where all its cells are."""
    return None if None in numbers else numbers


def rate_row(row):
    """(age, q, i), or None where the row is not taken."""
    cells = cells_of(row, RATE_CELLS)
    if cells is None:
        return None
    age, q, i = cells
    return joined((whole_of(age, 0, pricing.AGE_HIGH), rate_of(q), rate_of(i)))


def member_row(row):
    """(age, group, d, e, lives), or None where the row is not taken."""
    cells = cells_of(row, MEMBER_CELLS)
    if cells is None:
        return None
    age, group, d, e, lives = cells
    return joined((whole_of(age, 0, pricing.AGE_HIGH), whole_of(group, GROUP_LOW, GROUP_HIGH),
                   amount_of(d), amount_of(e), lives_of(lives)))


# The sheets

def no_line(place):
    """The line that a row would have in the file; no part is handed back for it."""
    return pricing.Line(place, 0, b"", True)


def cell_refusal(number):
    """The row is counted from 1, rate rows first and member rows after them."""
    return pricing.Refusal(CELL, number)


def check_row(taken, in_range, before, number, last_line):
    """11 before 2 within a row."""
    if taken is None:
        raise cell_refusal(number)
    if not in_range(before, *taken):
        raise no_line(last_line + number).refusal(pricing.RANGE)


def read_sheets(header, rates, members):
    """The header lines, then every rate row, then every member row."""
    reader = pricing.Reader(header)
    figures = pricing.read_header_lines(reader)
    last_line = reader.place
    pricing.check_end(reader)
    rate_rows, member_rows = [], []
    for number, row in enumerate(rows_of(rates, RATE_CELLS), 1):
        taken = rate_row(row)
        check_row(taken, pricing.rate_in_range, rate_rows, number, last_line)
        rate_rows.append(taken)
    for number, row in enumerate(rows_of(members, MEMBER_CELLS), len(rate_rows) + 1):
        taken = member_row(row)
        check_row(taken, pricing.member_in_range, member_rows, number, last_line)
        member_rows.append(pricing.Member(no_line(last_line + number), *taken))
    return pricing.Fund(*figures, tuple(rate_rows), tuple(member_rows))


def price_sheets(header, rates, members, lengths=pricing.LISTING_LENGTHS, level=0):
    try:
        return pricing.valued(read_sheets(header, rates, members), lengths, level)
    except pricing.Refusal as refusal:
        return pricing.refused(refusal, lengths)


# The other ways

def rate_sheet(rate_rows):
    """Rows (age, q, i) of whole numbers, the rates in millionths."""
    return b"".join(struct.pack("<3d", age, q / pricing.MILLION, i / pricing.MILLION)
                    for age, q, i in rate_rows)


def member_sheet(member_rows):
    """Rows (age, group, d, e, lives) of whole numbers."""
    return b"".join(struct.pack("<5d", *row) for row in member_rows)


def sheets_of(text):
    """Header, rate sheet and member sheet of what a fund file says (generate.Text)."""
    return text.header(), rate_sheet(text.rate_rows), member_sheet(text.member_rows)


def file_of(header, rate_rows, member_rows):
    """The fund file with this header text and these rows."""
    lines = [b"rate=%d,%d,%d\n" % tuple(row) for row in rate_rows]
    lines += [b"member=%d,%d,%d,%d,%d\n" % tuple(row) for row in member_rows]
    return header + b"".join(lines) + b"end=%d\n" % len(member_rows)


if __name__ == "__main__":
    if len(sys.argv) != 4:
        sys.exit(__doc__)
    sys.stdout.write(pricing.listing(price_sheets(*(Path(path).read_bytes() for path in sys.argv[1:]))))
