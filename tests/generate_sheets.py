"""Funds as sheets, made from a seed: taken ones, ones with blanks and minus zeros, near misses,
sheets cut short, any bytes, damaged headers.

The same seed gives the same sheets.
"""

import ctypes
import math
import random
import struct
from dataclasses import dataclass, replace

import generate
import pricing
import sheets

MINUS_ZERO = -0.0
LEAST = 5e-324               # the smallest subnormal
LEAST_NORMAL = 2.0 ** -1022

# The bits of some NaN: quiet and signalling ones, of either sign, with the least and the most payload.
BLANKS = (0x7ff8000000000000, 0xfff8000000000000, 0x7ff0000000000001, 0xfff0000000000001, 0x7ff7ffffffffffff,
          0x7fffffffffffffff, 0xffffffffffffffff, 0x7ff8000000000001, 0xfff4000000000000, 0x7ff0000100000000)


@dataclass(frozen=True)
class Case:
    name: str
    header: bytes
    rates: bytes
    members: bytes
    expected: tuple = None      # (number, place, part) where known; (0, 0, b"") is accepted
    lengths: tuple = generate.ENOUGH
    level: int = None           # where the case is made for one

    def sheets(self):
        return self.header, self.rates, self.members


def case_of(name, text, **known):
    return Case(name, *sheets.sheets_of(text), **known)


# Cells

AMOUNTS = (2, 3)        # of the five columns of a member row
LIVES = 4


def blank(bits=BLANKS[0]):
    """The bytes of a NaN; a float would not keep every payload."""
    return struct.pack("<Q", bits)


def cell(x):
    """The bytes of a number; bytes stay as they are."""
    return x if isinstance(x, bytes) else struct.pack("<d", x)


def row(*cells):
    return b"".join(map(cell, cells))


def with_cell(sheet, width, number, column, x):
    """The sheet with another cell in the row of this number, counted from 1; width is in cells."""
    at = 8 * (width * (number - 1) + column)
    return sheet[:at] + cell(x) + sheet[at + 8:]


def cells_in(sheet):
    return [sheet[at:at + 8] for at in range(0, len(sheet), 8)]


# Random changes, each of a case

def random_blank(rng):
    bits = rng.choice((*BLANKS, 0x7ff0000000000000 | rng.randrange(1, 2 ** 52)))
    return blank(bits | rng.randrange(2) << 63)


def other_zeros(rng, case):
    """Zeros with a sign, and blanks in amounts of 0."""
    zero = cell(0.0)
    rates = [cell(MINUS_ZERO) if one == zero and rng.randrange(2) else one for one in cells_in(case.rates)]
    members = [rng.choice((zero, cell(MINUS_ZERO), random_blank(rng) if k % 5 in AMOUNTS else zero)) if one == zero else one
               for k, one in enumerate(cells_in(case.members))]
    return replace(case, rates=b"".join(rates), members=b"".join(members))


def near(rng, x):
    """A number that a careless reader may take for x, or any that is special; at times x itself."""
    near_x = (math.nextafter(x, math.inf), math.nextafter(x, -math.inf), x + 0.5, x + 1e-9, -x, x + 256, x + 2.0 ** 16,
              x + 2.0 ** 32, x * 1e-6, x * 1e6, ctypes.c_float(x).value, x)
    special = (0.0, MINUS_ZERO, 0.5, 1.0, 2.0, 3.0, 1.5, -1.0, 120.0, 120.99999999999999, 121.0, 999.5, 1000.0, 1001.0, 65535.0, 65535.5, 65536.0,
               1e-6, 0.999999, 1e300, 2.0 ** 53, 2.0 ** 63, 2.0 ** 64, math.inf, -math.inf, LEAST, -LEAST, LEAST_NORMAL)
    return rng.choice((rng.choice(near_x), rng.choice(near_x), rng.choice(special)))


def near_miss(rng, case):
    """One cell of either sheet changed, to a number or a blank."""
    name = rng.choice(("rates", "members"))
    sheet = getattr(case, name)
    if len(sheet) < 8:
        return case
    at = 8 * rng.randrange(len(sheet) // 8)
    x = struct.unpack("<d", sheet[at:at + 8])[0]
    new = random_blank(rng) if rng.randrange(6) == 0 or not math.isfinite(x) else cell(near(rng, x))
    return replace(case, **{name: sheet[:at] + new + sheet[at + 8:]})


def other_rate(rng, case):
    """A rate that is taken: the sum may pass 1."""
    if len(case.rates) < 24:
        return case
    number, column = rng.randint(1, len(case.rates) // 24), rng.randint(1, 2)
    k = rng.choice((0, 1, 500000, 999999, 1000000, rng.randint(0, 1000000)))
    return replace(case, rates=with_cell(case.rates, 3, number, column, k / 1000000))


def other_lives(rng, case):
    """The lives of a member row: taken or just not, past the limit in all, or a blank."""
    if len(case.members) < 40:
        return case
    number = rng.randint(1, len(case.members) // 40)
    lives = rng.choice((1, 2, 3, 998, 999, 1000, 1001, 0, 1.5, MINUS_ZERO, -1, math.nextafter(1000, 2000), random_blank(rng)))
    return replace(case, members=with_cell(case.members, 5, number, LIVES, lives))


def cut(rng, case):
    """The end of either sheet cut off, or some bytes more."""
    name = rng.choice(("rates", "members"))
    sheet = getattr(case, name)
    if rng.randrange(2):
        return replace(case, **{name: sheet + rng.choice((sheet, bytes(39)))[:rng.randint(1, 39)]})
    return replace(case, **{name: sheet[:rng.randrange(len(sheet) + 1)]})


def changed_bits(rng, case):
    """One to three bits of a sheet changed."""
    name = rng.choice(("rates", "members"))
    sheet = bytearray(getattr(case, name))
    for _ in range(rng.randint(1, 3) if sheet else 0):
        sheet[rng.randrange(len(sheet))] ^= 1 << rng.randrange(8)
    return replace(case, **{name: bytes(sheet)})


def moved_rows(rng, case):
    """Two rows of a sheet exchanged, one written twice, or one left out."""
    name, size = rng.choice((("rates", 24), ("members", 40)))
    sheet = getattr(case, name)
    rows = [sheet[at:at + size] for at in range(0, len(sheet), size)]
    if not rows:
        return case
    one, two = rng.randrange(len(rows)), rng.randrange(len(rows))
    way = rng.randrange(3)
    if way == 0:
        rows[one], rows[two] = rows[two], rows[one]
    elif way == 1:
        rows.insert(two, rows[one])
    else:
        del rows[one]
    return replace(case, **{name: b"".join(rows)})


def many_rows(rng, case):
    """As many rows as are allowed, or one more."""
    if rng.randrange(2):
        rates = b"".join(row(age, 1e-6, 2e-6) for age in range(121)) + rng.choice((b"", row(120, 0, 0), row(0, blank(), 0)))
        return replace(case, rates=rates)
    number = rng.choice((1000, 1001))
    return replace(case, members=(row(120, 1, 0, blank(), 1) * number)[:40 * number - rng.choice((0, 0, 1, 40))])


def any_bytes(rng, case):
    return replace(case, rates=rng.randbytes(rng.choice((0, 24, 24, rng.randrange(60)))), members=rng.randbytes(rng.randrange(100)))


def sheets_swapped(rng, case):
    return replace(case, rates=case.members, members=case.rates)


def most_byte_first(rng, case):
    name = rng.choice(("rates", "members"))
    return replace(case, **{name: b"".join(one[::-1] for one in cells_in(getattr(case, name)))})


def damaged_header(rng, case):
    way = rng.choice((*generate.WAYS, lambda rng, data: data + rng.choice((b"\n", b"x", b"rate=1,2,3\n", b"end=0\n", b"\n\n"))))
    return replace(case, header=way(rng, case.header))


def other_editions(rng, case):
    return replace(case, header=case.header.replace(b"members=2030", b"members=2031"))


# Most cases are taken or have one cell changed.
WAYS = (other_zeros, near_miss, other_zeros, near_miss, other_rate, cut, moved_rows, near_miss, changed_bits, damaged_header,
        other_zeros, near_miss, many_rows, any_bytes, sheets_swapped, most_byte_first, other_lives)
AGAIN = (other_zeros, near_miss, near_miss, cut, other_rate, moved_rows, other_lives, damaged_header, other_editions)


def random_text(rng, index):
    kind = generate.SMALL_KINDS[index % len(generate.SMALL_KINDS)]
    text = generate.gap_text(rng) if index % 5 == 0 else generate.small_text(rng, kind)
    if index % 3 == 0:
        text = generate.zero_amounts(rng, text)
    return text


def random_sheets(seed, count):
    """Small funds as sheets: one in three as it is, others with one or two changes; the answer is not known."""
    rng = random.Random(seed)
    made = []
    for index in range(count):
        case = case_of("taken", random_text(rng, index))
        names = []
        if index % 3:
            ways = [WAYS[(index - index // 3) % len(WAYS)]]
            if rng.randrange(4) == 0:
                ways.append(rng.choice(AGAIN))
            for way in ways:
                case = way(rng, case)
                names.append(way.__name__.replace("_", "-"))
        made.append(replace(case, name=f"sheets-{'-and-'.join(names) or 'taken'}-{index}"))
    return made


def full_sheets():
    """As many rate rows and member rows as are allowed."""
    return case_of("sheets-full", generate.full_fund())


if __name__ == "__main__":
    for case in random_sheets(1, 60):
        answer = sheets.price_sheets(*case.sheets())
        print(case.name, *map(len, case.sheets()), (answer.number, answer.place))
