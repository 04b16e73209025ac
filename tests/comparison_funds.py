"""Pairs of fund files whose comparison is worked by hand.

PAIRS holds names, the two files and the whole listing.  checks() gives pairs (name, holds).
Run as a program, it prints them.

Most files are a `life` of tariff_funds.py: one member of group 1 whose amount d lies beyond
the horizon.  With a rate of q millionths, up to 50,000, and a deductible of M the premium is
q x (d - M) x 10^6 units and its bound M x (M + 1)/2 + 2 x M.  For a worth of 1,000 centimes,
M = 1 and loading 1.5 a bound of 3 units is 0.0000000045 centimes: the gross premium is the
loaded premium's centimes and one more, and the excess 1 + 1.
"""

from dataclasses import replace

import comparison
import generate
import pricing
from document_funds import FIRST, FIRST_FILE, HALF, SIX
from generate import Text
from tariff_funds import LARGEST, life

# Premium 1, bound 3 units, gross premium 1,500.0000000045 centimes taken up.
BASE = life(1000, 1001, 1, 0, 1000)
NO_AMOUNTS = (40, 1, 0, 0)          # adds 1 to R(0) and nothing else
BASE_ROW = BASE.member_rows[0]

# p x p x p .. is 1 - 10^-6 each time: f(0) of two lives is 999998000001, so the premium 2 x 10^6 - 10^12 + f(0)
# is 1; of one life it is 0.  R(0) is the number of lives, E too: the bounds are 6 and 3.
TWO_LIVES = Text(horizon=0, order=12, deductible=1, worth=1000, rate_rows=((40, 1, 0),), member_rows=((40, 1, 1, 0, 2),))

# Lambda is 900,000 units: f(0) is 10^12 - 900,000, t(2) being 0.405 and rounded to 0; f(1) is 900,000 - 0.81, rounded
# 899,999.  Premium 900,000 - 2 x 900,000 + 899,999.  c is 1, 2, 2, .. 2: R(0) is 125, R(1) is 2, the bound 252.
BELOW_ZERO = Text(horizon=1, order=1, frequency=900, deductible=2, worth=1000, rate_rows=((40, 1, 0),), member_rows=((40, 2, 1, 0),))

# Bounds of 181,500 with a rate and, E being 0, of 180,300 without: 2 x bound x 9.2 x 10^6 x 2100/10^15 is 7.01.. and 6.96..
WIDE = life(50000, 65535, 600, 599, 9200000)

# R(0) is 688 and every other R is 1: the bound is 625 x 688 + 624 x 625/2 = 625,000, twice it times 8 x 10^6 x 2100 is 21 x 10^15.
WHOLE = Text(horizon=624, order=12, deductible=625, worth=8000000, rate_rows=((40, 7, 9),), member_rows=((40, 1, 0, 0, 688),))


def with_rates(text, *rows):
    return replace(text, rate_rows=rows)


def with_members(text, *rows):
    return replace(text, member_rows=rows)


def edition(text, year):
    return replace(text, rates=year, members=year)


def in_file(name, figures):
    """The lines of one file: premium, bound and gross premium, or the refusal."""
    words = figures.split()
    keys = ("premium", "within", "gross") if len(words) == 3 else ("refused",)
    return [f"{name}-{key}={word}" for key, word in zip(keys, words, strict=True)]


def told(old, new, move=None, others=()):
    """A whole listing; the move begins with the word for its cause."""
    lines = in_file("old", old) + in_file("new", new)
    if move:
        cause, *figures = move.split()
        keys = ("move", "arithmetic", cause, "gross-move", f"gross-{cause}")
        lines += [f"{key}={figure}" for key, figure in zip(keys, figures, strict=True)]
        lines += [f"other={other}" for other in others or ("none",)]
    return "".join(line + "\n" for line in lines)


ONE = "1.000000000000 0.000000000003 15.01"              # BASE
MORE = "1.100000000000 0.000000000003 16.51"             # BASE with a rate, or an amount above the deductible, of 1,100
SAME = "rates 0.000000000000 0.000000000006 -0.000000000006,0.000000000006 0.00 -0.02,0.02"
SAME_EXACTLY = SAME.replace("rates", "exact")
FIRST_ROW = ("member,1,9,9",)
THREE_ROWS = ((30, 500, 0), (40, 1000, 0), (50, 3000, 10))
TWELVE = with_members(BASE, *[NO_AMOUNTS] * 12)
LATE = with_rates(with_members(BASE, *[NO_AMOUNTS] * 10, (41, 1, 0, 0), NO_AMOUNTS), (40, 1000, 0), (41, 2000, 0))

WHOLE_LISTINGS = (
    # E of the new rate: 1/19 four times over is 7,673,361 units, times 95/360 2,024,915.  The bound is 4 E and 5.
    ("the first fund under half its rate", FIRST, with_rates(FIRST, (40, 50000, 0)), """old-premium=0.000000000000
old-within=0.000171467773
old-gross=0.01
new-premium=0.000000000000
new-within=0.000008099665
new-gross=0.01
move=0.000000000000
arithmetic=0.000179567438
rates=-0.000179567438,0.000179567438
gross-move=0.00
gross-rates=-0.02,0.02
other=none
"""),
    ("a unit lost", TWO_LIVES, with_rates(TWO_LIVES, (40, 0, 0)), """old-premium=0.000000000001
old-within=0.000000000006
old-gross=0.01
new-premium=0.000000000000
new-within=0.000000000002
new-gross=0.01
move=-0.000000000001
arithmetic=0.000000000008
rates=-0.000000000009,0.000000000007
gross-move=0.00
gross-rates=-0.02,0.02
other=none
"""),
    ("worth and amount changed", BASE, replace(with_members(BASE, (40, 1, 1002, 0)), worth=2000), """old-premium=1.000000000000
old-within=0.000000000003
old-gross=15.01
new-premium=1.001000000000
new-within=0.000000000003
new-gross=30.04
move=0.001000000000
arithmetic=0.000000000006
exact=0.000999999994,0.001000000006
gross-move=15.03
gross-exact=15.01,15.05
other=header,7
other=member,1,9,9
"""),
)

RATES_ALONE = (
    ("a rate up", BASE, with_rates(BASE, (40, 1100, 0)), ONE, MORE,
     "rates 0.100000000000 0.000000000006 0.099999999994,0.100000000006 1.50 1.48,1.52"),
    ("a rate down", with_rates(BASE, (40, 1100, 0)), BASE, MORE, ONE,
     "rates -0.100000000000 0.000000000006 -0.100000000006,-0.099999999994 -1.50 -1.52,-1.48"),
    ("a rate up under a new edition", BASE, edition(with_rates(BASE, (40, 1100, 0)), 2031), ONE, MORE,
     "rates 0.100000000000 0.000000000006 0.099999999994,0.100000000006 1.50 1.48,1.52"),
    ("the same file", BASE, BASE, ONE, ONE, SAME),
    ("another edition, the same rates", BASE, edition(BASE, 1999), ONE, ONE, SAME),
    ("rates for other ages added", BASE, with_rates(BASE, *THREE_ROWS), ONE, ONE, SAME),
    ("rates for other ages left out", edition(with_rates(BASE, *THREE_ROWS), 2029), BASE, ONE, ONE, SAME),
    ("deductible 0, the bounds 0", life(1000, 1000, 0, 0, 1000), life(1100, 1000, 0, 0, 1000),
     "1.000000000000 0.000000000000 15.00", "1.100000000000 0.000000000000 16.50",
     "rates 0.100000000000 0.000000000000 0.100000000000,0.100000000000 1.50 1.49,1.51"),
    ("a unit gained", with_rates(TWO_LIVES, (40, 0, 0)), TWO_LIVES,
     "0.000000000000 0.000000000002 0.01", "0.000000000001 0.000000000006 0.01",
     "rates 0.000000000001 0.000000000008 -0.000000000007,0.000000000009 0.00 -0.02,0.02"),
    ("a premium below 0", BELOW_ZERO, with_rates(BELOW_ZERO, (40, 0, 0)),
     "-0.000000000001 0.000000000252 0.01", "0.000000000000 0.000000000001 0.01",
     "rates 0.000000000001 0.000000000253 -0.000000000252,0.000000000254 0.00 -0.02,0.02"),
    ("to a premium below 0", with_rates(BELOW_ZERO, (40, 0, 0)), BELOW_ZERO,
     "0.000000000000 0.000000000001 0.01", "-0.000000000001 0.000000000252 0.01",
     "rates -0.000000000001 0.000000000253 -0.000000000254,0.000000000252 0.00 -0.02,0.02"),
    # 62,727,210,000 and the old bound's 3.50.., 0 and the new bound's 3.48.. centimes
    ("the old excess larger", WIDE, with_rates(WIDE, (40, 0, 0)),
     "3246.750000000000 0.000000181500 627272100.04", "0.000000000000 0.000000180300 0.04",
     "rates -3246.750000000000 0.000000361800 -3246.750000361800,-3246.749999638200 -627272100.00 -627272100.08,-627272099.91"),
    ("the new excess larger", with_rates(WIDE, (40, 0, 0)), WIDE,
     "0.000000000000 0.000000180300 0.04", "3246.750000000000 0.000000181500 627272100.04",
     "rates 3246.750000000000 0.000000361800 3246.749999638200,3246.750000361800 627272100.00 627272099.91,627272100.08"),
    # 10.5 centimes taken up; the excess 21 + 1
    ("a whole excess", WHOLE, with_rates(WHOLE, (40, 70, 90)),
     "0.000000000000 0.000000625000 0.11", "0.000000000000 0.000000625000 0.11",
     "rates 0.000000000000 0.000001250000 -0.000001250000,0.000001250000 0.00 -0.22,0.22"),
    # 0.52428 x 9999999 x 1.5 is 7,864,199.2.. centimes
    ("the largest", LARGEST, with_rates(LARGEST, (40, 999999, 0)),
     "524280.000000000000 0.000000000000 78641992135.80", "524279.475720000000 0.000000000000 78641913493.81",
     "rates -0.524280000000 0.000000000000 -0.524280000000,-0.524280000000 -78641.99 -78642.00,-78641.98"),
    ("no members, deductible 0", Text(horizon=0, deductible=0), Text(horizon=0, deductible=0, rate_rows=THREE_ROWS),
     "0.000000000000 0.000000000000 0.00", "0.000000000000 0.000000000000 0.00",
     "rates 0.000000000000 0.000000000000 0.000000000000,0.000000000000 0.00 -0.01,0.01"),
)

OTHERS = (
    ("horizon", BASE, replace(BASE, horizon=5), ONE, ONE, SAME_EXACTLY, ("header,3",)),
    ("order", BASE, replace(BASE, order=11), ONE, ONE, SAME_EXACTLY, ("header,4",)),
    ("frequency of death", BASE, replace(BASE, frequency=(999, 1000)), ONE, ONE, SAME_EXACTLY, ("header,5",)),
    ("frequency of disability", BASE, replace(BASE, frequency=(1000, 999)), ONE, ONE, SAME_EXACTLY, ("header,5",)),
    ("deductible", BASE, replace(BASE, deductible=0), ONE, "1.001000000000 0.000000000000 15.02",
     "exact 0.001000000000 0.000000000003 0.000999999997,0.001000000003 0.01 0.00,0.03", ("header,6",)),
    ("worth", BASE, replace(BASE, worth=2000), ONE, "1.000000000000 0.000000000003 30.01",
     "exact 0.000000000000 0.000000000006 -0.000000000006,0.000000000006 15.00 14.98,15.02", ("header,7",)),
    ("order and worth", BASE, edition(replace(BASE, order=11, worth=2000), 2031), ONE, "1.000000000000 0.000000000003 30.01",
     "exact 0.000000000000 0.000000000006 -0.000000000006,0.000000000006 15.00 14.98,15.02", ("header,4",)),
    ("age", BASE, with_members(BASE, (41, 1, 1001, 0)), ONE, ONE, SAME_EXACTLY, FIRST_ROW),
    # Without a life of group 1 R(0) is 0, and so is the gross premium.
    ("group", with_members(BASE, NO_AMOUNTS), with_members(BASE, (40, 2, 0, 0)),
     "0.000000000000 0.000000000001 0.01", "0.000000000000 0.000000000000 0.00",
     "exact 0.000000000000 0.000000000001 -0.000000000001,0.000000000001 -0.01 -0.02,0.01", FIRST_ROW),
    ("amount at death", BASE, with_members(BASE, (40, 1, 1101, 0)), ONE, MORE,
     "exact 0.100000000000 0.000000000006 0.099999999994,0.100000000006 1.50 1.48,1.52", FIRST_ROW),
    ("amount at disability", BASE, with_members(BASE, (40, 1, 1001, 5)), ONE, ONE, SAME_EXACTLY, FIRST_ROW),
    # f(0) is 0.999 x 0.999: 2.002 - 1 + 0.998001
    ("lives", BASE, with_members(BASE, (40, 1, 1001, 0, 2)), ONE, "2.000001000000 0.000000000006 30.01",
     "exact 1.000001000000 0.000000000009 1.000000999991,1.000001000009 15.00 14.98,15.02", FIRST_ROW),
    ("one life fewer, a unit lost", TWO_LIVES, with_members(TWO_LIVES, (40, 1, 1, 0, 1)),
     "0.000000000001 0.000000000006 0.01", "0.000000000000 0.000000000003 0.01",
     "exact -0.000000000001 0.000000000009 -0.000000000010,0.000000000008 0.00 -0.02,0.02", FIRST_ROW),
    ("lives on two lines", with_members(BASE, (40, 1, 1001, 0, 2)), with_members(BASE, BASE_ROW, BASE_ROW),
     "2.000001000000 0.000000000006 30.01", "2.000001000000 0.000000000006 30.01",
     "exact 0.000000000000 0.000000000012 -0.000000000012,0.000000000012 0.00 -0.02,0.02", FIRST_ROW),
    ("a line added", BASE, with_members(BASE, BASE_ROW, NO_AMOUNTS), ONE, "1.000000000000 0.000000000004 15.01",
     "exact 0.000000000000 0.000000000007 -0.000000000007,0.000000000007 0.00 -0.02,0.02", ("member,2,10,10",)),
    ("a line added in front", BASE, with_members(BASE, NO_AMOUNTS, BASE_ROW), ONE, "1.000000000000 0.000000000004 15.01",
     "exact 0.000000000000 0.000000000007 -0.000000000007,0.000000000007 0.00 -0.02,0.02", FIRST_ROW),
    ("a line removed", with_members(BASE, BASE_ROW, NO_AMOUNTS), BASE, "1.000000000000 0.000000000004 15.01", ONE,
     "exact 0.000000000000 0.000000000007 -0.000000000007,0.000000000007 0.00 -0.02,0.02", ("member,2,10,10",)),
    ("lines exchanged", with_members(BASE, BASE_ROW, NO_AMOUNTS), with_members(BASE, NO_AMOUNTS, BASE_ROW),
     "1.000000000000 0.000000000004 15.01", "1.000000000000 0.000000000004 15.01",
     "exact 0.000000000000 0.000000000008 -0.000000000008,0.000000000008 0.00 -0.02,0.02", FIRST_ROW),
    ("the second and the third line exchanged", with_members(BASE, NO_AMOUNTS, BASE_ROW, NO_AMOUNTS),
     with_members(BASE, NO_AMOUNTS, NO_AMOUNTS, BASE_ROW),
     "1.000000000000 0.000000000005 15.01", "1.000000000000 0.000000000005 15.01",
     "exact 0.000000000000 0.000000000010 -0.000000000010,0.000000000010 0.00 -0.02,0.02", ("member,2,10,10",)),
    ("the first member", with_members(BASE), BASE, "0.000000000000 0.000000000000 0.00", ONE,
     "exact 1.000000000000 0.000000000003 0.999999999997,1.000000000003 15.01 14.99,15.02", FIRST_ROW),
    ("an age, behind more rates", BASE, with_rates(with_members(BASE, (41, 1, 1001, 0)), *THREE_ROWS), ONE, ONE,
     SAME_EXACTLY, ("member,1,9,11",)),
    ("a line removed, behind fewer rates", with_rates(with_members(BASE, BASE_ROW, NO_AMOUNTS), *THREE_ROWS), BASE,
     "1.000000000000 0.000000000004 15.01", ONE,
     "exact 0.000000000000 0.000000000007 -0.000000000007,0.000000000007 0.00 -0.02,0.02", ("member,2,12,10",)),
    ("the eleventh of twelve", TWELVE, LATE, "0.000000000000 0.000000000012 0.01", "0.000000000000 0.000000000012 0.01",
     "exact 0.000000000000 0.000000000024 -0.000000000024,0.000000000024 0.00 -0.02,0.02", ("member,11,19,20",)),
    ("two funds", FIRST, BASE, "0.000000000000 0.000171467773 0.01", ONE,
     "exact 1.000000000000 0.000171467776 0.999828532224,1.000171467776 15.00 14.98,15.02", ("header,3", "member,1,9,9")),
)

# The old refusal or figures, the new ones.
REFUSED = (
    ("the old file at a half", HALF, BASE, "6,9", ONE),
    ("the new file with two editions", BASE, replace(BASE, rates=2031), ONE, "3,0"),
    ("both files", HALF, replace(BASE, rates=2031), "6,9", "3,0"),
    ("the same file twice", SIX, SIX, "10,6", "10,6"),
    ("nothing and an open end", b"", FIRST_FILE[:-1], "1,1", "1,10"),
    ("a missing worth", generate.joined(BASE.lines()[:6] + BASE.lines()[7:]), BASE, "1,7", ONE),
    ("two members and an end of 1", BASE, generate.joined(BASE.lines()[:9] + BASE.lines()[8:]), ONE, "2,11"),
)


def data_of(file):
    return file if isinstance(file, bytes) else file.data()


def all_pairs():
    for name, old, new, listing in WHOLE_LISTINGS:
        yield name, old, new, listing
    for name, old, new, *said in RATES_ALONE:
        yield f"rates: {name}", old, new, told(*said)
    for name, old, new, *said in OTHERS:
        yield f"other: {name}", old, new, told(*said)
    for name, old, new, *said in REFUSED:
        yield f"refused: {name}", old, new, told(*said)


PAIRS = tuple((name, data_of(old), data_of(new), listing.encode("ascii")) for name, old, new, listing in all_pairs())


def listing_checks():
    for name, old, new, wanted in PAIRS:
        yield f"by hand: {name}", comparison.listing(comparison.compare(old, new)) == wanted


def exact_checks():
    """The premiums and bounds worked by hand hold of the exact ones too, where these are quick."""
    for name, old, new, wanted in PAIRS:
        if all(answer.number or answer.horizon <= 10 for answer in map(pricing.price, (old, new))):
            broken = comparison.check_move(old, new, wanted)
            yield f"by hand: {name}: exact {broken}", not broken


def checks():
    return [*listing_checks(), *exact_checks()]


if __name__ == "__main__":
    for name, holds in checks():
        print("holds " if holds else "FAILS ", name)
