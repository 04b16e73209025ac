"""Funds with a level, and where METHOD 7 puts the deductible (§1).

ROWS holds the fund, the level and the smallest x with F(x) at least the level,
or None.  cases() gives the rows as cases, checks() pairs (name, holds).  Run as
a program, it prints them.
"""

from dataclasses import replace

import generate
import pricing
from document_funds import EIGHT, EMPTY, FIRST, HALF, NEGATIVE, SIX

# F is 997049000000 at 0 and 1, 998579000000 at 2, 10^12 at 3 to 5, and one unit
# less from 6 on, f(6) being -1.
FALLING = NEGATIVE

# F is 999500000000 at 3 to 5, one unit less at 6 and 7, and 999998524499 at 8.
FALLING_AND_RISING = replace(
    NEGATIVE, rate_rows=NEGATIVE.rate_rows + ((50, 500, 0),),
    member_rows=NEGATIVE.member_rows + ((50, 1, 8, 0),))

# F is 1000000000002 from 2 on.
PASSING = generate.Text(horizon=4, order=12, deductible=0, rate_rows=((40, 120, 0),),
                        member_rows=((40, 1, 1, 0),) * 2)

# F is 990049833749 up to 4,094 and more at 4,095.
LAST_PLACE = generate.Text(horizon=4095, order=1, deductible=0,
                           rate_rows=((40, 10000, 0),), member_rows=((40, 2, 4095, 0),))

UNIT = 10 ** 12

ROWS = (
    ("falling, level 0", FALLING, 0, 0),
    ("falling, F(0)", FALLING, 997049000000, 0),
    ("falling, above F(1)", FALLING, 997049000001, 2),
    ("falling, F(2)", FALLING, 998579000000, 2),
    ("falling, above F(2)", FALLING, 998579000001, 3),
    ("falling, F after its fall", FALLING, UNIT - 1, 3),
    # Bisecting 0 to 12 asks F(6), which lies below the level, and answers none.
    ("falling, F before its fall", FALLING, UNIT, 3),
    ("rising again, F after its fall", FALLING_AND_RISING, 999499999999, 3),
    # Bisecting 0 to 12 asks F(6), which lies below the level, and answers 8.
    ("rising again, F before its fall", FALLING_AND_RISING, 999500000000, 3),
    ("rising again, above F(7)", FALLING_AND_RISING, 999500000001, 8),
    ("rising again, none up to the horizon", FALLING_AND_RISING, UNIT, None),
    ("first fund, F(0)", FIRST, 900000000000, 0),
    ("first fund, above F(0)", FIRST, 900000000001, 1),
    ("passing 10^12, level 10^12", PASSING, UNIT, 2),
    # F(2) is not below the level, which is above 10^12.
    ("passing 10^12, a level above", PASSING, UNIT + 1, None),
    ("eight members, F(5)", EIGHT, 191236062135, 5),
    ("eight members, none up to the horizon", EIGHT, 191236062136, None),
    ("the last place", LAST_PLACE, 990049833750, 4095),
    ("refused half, level 0", HALF, 0, None),
    ("refused wide, level 0", SIX, 0, None),
)

# Not of a stream, whose levels have at most thirteen digits.
MORE_ROWS = (
    ("falling, above every F", FALLING, UNIT + 1, None),
    ("falling, 2^63", FALLING, 2 ** 63, None),
    ("falling, the largest level", FALLING, 2 ** 64 - 1, None),
    ("before the last place", LAST_PLACE, 990049833749, 0),
    ("empty fund, 10^12", EMPTY, UNIT, 0),
    ("first fund, 0.99", FIRST, generate.USUAL_LEVEL, 1),
    ("refused half, 0.99", HALF, generate.USUAL_LEVEL, None),
)


def cases(rows=ROWS):
    return [generate.Case(f"quantile-{name}", text.data(), level=level)
            for name, text, level, _ in rows]


def bisected(F, level):
    """What bisecting gives, which is right only where F rises."""
    low, high = 0, len(F)
    while low < high:
        middle = (low + high) // 2
        if F[middle] >= level:
            high = middle
        else:
            low = middle + 1
    return low if low < len(F) and level <= UNIT else None


def row_checks():
    for name, text, level, wanted in ROWS + MORE_ROWS:
        yield (f"quantile: {name}",
               pricing.price(text.data(), level=level).quantile == wanted)


def sum_checks():
    """F of the two funds that fall, cell by cell, and zero beyond X."""
    F = pricing.price(FALLING.data()).F
    yield ("falling: F", F[:13] == (997049000000,) * 2 + (998579000000,)
           + (UNIT,) * 3 + (UNIT - 1,) * 7 and not any(F[13:]))
    F = pricing.price(FALLING_AND_RISING.data()).F
    yield ("rising again: F", F[2:9] == (998079710500,) + (999500000000,) * 3
           + (999499999999,) * 2 + (999998524499,))
    yield ("refused wide: F is zero", not any(pricing.price(SIX.data()).F))


def bisection_checks():
    """A bisection answers these two in another way."""
    F = pricing.price(FALLING.data()).F[:13]
    yield "falling: bisected", bisected(F, UNIT) is None
    F = pricing.price(FALLING_AND_RISING.data()).F[:13]
    yield "rising again: bisected", bisected(F, 999500000000) == 8


def scan_checks():
    """Sums that no fund need have."""
    for F, level, wanted in (((-1, 0, 5), 0, 1), ((-2, -1), 0, None), ((), 0, None),
                             ((3, 1, 2, 3), 3, 0), ((1, 3, 0, 4), 2, 1),
                             ((1, 3, 0, 4), 4, 3), ((UNIT, 0), UNIT, 0),
                             ((UNIT + 5,), UNIT + 1, None)):
        yield f"F {F}, level {level}", pricing.quantile(F, level) == wanted


def checks():
    found = []
    for part in (row_checks, sum_checks, bisection_checks, scan_checks):
        found += part()
    return found


if __name__ == "__main__":
    for name, holds in checks():
        print("holds " if holds else "FAILS ", name)
