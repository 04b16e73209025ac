"""Every fund and every figure that was stated for the first delivery, and the figures of the readings.

Its funds take worth=100, repeat their frequency and take lives 1 on each member line,
as §3, §5 and §8 say; the cell lines are those of §7.

checks() gives pairs (name, holds).  Run as a program, it prints them.
"""

from dataclasses import replace

import pricing
from generate import Text

FIRST_FILE = (b"rates=2030\nmembers=2030\nhorizon=2\norder=3\nfrequency=1000,1000\n"
              b"deductible=2\nworth=100\nrate=40,100000,0\nmember=40,1,1,0,1\nend=1\n")

FIRST_LISTING = """truncation=42866942
mean=100000000000
cell=0,900000000000,85733885,900000000000,85733885
cell=1,100000000000,85733887,1000000000000,85733888
cell=2,0,85733888,1000000000000,85733892
premium=0
within=171467773
gross=1
"""

FIRST = Text(horizon=2, order=3, frequency=1000, deductible=2,
             rate_rows=((40, 100000, 0),), member_rows=((40, 1, 1, 0),))

EMPTY = Text(horizon=1, deductible=2)

EMPTY_LISTING = """truncation=0
mean=0
cell=0,1000000000000,0,1000000000000,0
cell=1,0,1,1000000000000,1
premium=0
within=1
gross=1
"""

EIGHT = Text(horizon=5, order=1, frequency=1000, deductible=0,
             rate_rows=((30, 1, 0), (40, 1000000, 0)),
             member_rows=((40, 2, 1, 0),) * 8)


SIX = replace(EIGHT, horizon=6)
NINTH = replace(EIGHT, member_rows=EIGHT.member_rows + ((30, 2, 1, 0),))
TWO_FIFTHS = replace(FIRST, rate_rows=((40, 400000, 400000),),
                     member_rows=((40, 1, 0, 1),))
HALF = replace(FIRST, rate_rows=((40, 500000, 0),))
HALF_FOLDED = replace(HALF, member_rows=((40, 1, 0, 0),))
NO_FREQUENCY = replace(EMPTY, frequency=0, rate_rows=((40, 300000, 200000),),
                       member_rows=((40, 2, 1, 2), (40, 2, 0, 1)))

# Funds of the readings
SMALLEST_RATE = Text(horizon=12, order=12, deductible=0, rate_rows=((40, 1, 0),),
                     member_rows=((40, 1, 1, 0),))
SMALLEST_LAMBDA = Text(horizon=0, frequency=1, deductible=0, rate_rows=((40, 1, 0),),
                       member_rows=((40, 2, 1, 0),))
NEGATIVE = Text(horizon=12, order=12, deductible=0, rate_rows=((40, 1530, 1421),),
                member_rows=((40, 1, 2, 3),))

FUNDS = {
    "first": FIRST, "first-order-2": replace(FIRST, order=2), "empty": EMPTY,
    "eight": EIGHT, "eight-horizon-6": SIX, "ninth": NINTH,
    "two-fifths": replace(TWO_FIFTHS, order=12), "half": HALF,
    "half-folded": HALF_FOLDED, "editions": replace(FIRST, members=2031),
    "deductible-4": replace(FIRST, deductible=4),
    "deductible-3": replace(FIRST, deductible=3), "no-frequency": NO_FREQUENCY,
    "smallest-rate": SMALLEST_RATE, "smallest-lambda": SMALLEST_LAMBDA,
    "negative": NEGATIVE,
}


def answer_of(text):
    return pricing.price(text.data())


def refusal_of(text):
    answer = answer_of(text)
    return answer.number, answer.place


def bounds_of(text):
    """R as far as the recursion goes, also where the fund is refused 10."""
    fund = pricing.read_fund(text.data())
    members = pricing.match_and_fold(fund)
    lam = pricing.lambda_units(members, fund.frequency)
    return pricing.distribution(fund, members, lam)[3]


def passes_half(text):
    answer = answer_of(text)
    return answer.number == 0 or answer.number > pricing.TOO_HALF


def first_fund():
    answer = answer_of(FIRST)
    yield "the written file is the first fund", FIRST.data() == FIRST_FILE
    yield ("the listing, byte for byte",
           pricing.listing(pricing.price(FIRST_FILE)) == FIRST_LISTING)
    yield "here R is 1, 3, 4", answer.R[:3] == (1, 3, 4)
    yield "within is the premium's bound", answer.bound == 171467773
    # 171467773 x 100 x 1500 is 25720165950000, below 10^15.
    yield "the first fund prints gross=1", answer.gross == 1
    yield "order 2: refused 8", refusal_of(replace(FIRST, order=2)) == (8, 0)


def empty_fund():
    answer = answer_of(EMPTY)
    yield "empty fund: cells 10^12 and 0", answer.f[:2] == (10 ** 12, 0)
    yield "empty fund: R 0 and 1", answer.R[:2] == (0, 1)
    yield "empty fund: premium 0, bound 1", (answer.premium, answer.bound) == (0, 1)
    yield "empty fund: the listing", pricing.listing(answer) == EMPTY_LISTING


def eight_members():
    answer = answer_of(EIGHT)
    yield "eight members: R(0) = 691", answer.R[0] == 691
    yield "eight members, X = 5: accepted", (answer.number, answer.place) == (0, 0)
    yield "eight members, X = 5: R(5) = 188,739", answer.R[5] == 188739
    yield "eight members, X = 6: refused 10 at 6", refusal_of(SIX) == (10, 6)
    yield "eight members, X = 6: R being 251,653", bounds_of(SIX)[6] == 251653
    yield "a ninth with q = 1: refused 7", refusal_of(NINTH) == (7, 0)


def half_funds():
    for order in range(1, 13):
        text = replace(TWO_FIFTHS, order=order)
        yield f"q = i = 400,000, order {order}: passes 6", passes_half(text)
        yield f"q = i = 400,000, order {order}: refused 8", refusal_of(text) == (8, 0)
    yield "q = 500,000, d = 1: refused 6", refusal_of(HALF) == (6, 9)
    yield "the same with d = 0, i = 0: passes 6", passes_half(HALF_FOLDED)
    yield "the same with d = 0, i = 0: accepted", refusal_of(HALF_FOLDED) == (0, 0)


def header_funds():
    yield ("editions 2030 and 2031: refused 3",
           refusal_of(FUNDS["editions"]) == (3, 0))
    yield "M = 4 with X = 2: refused 4", refusal_of(FUNDS["deductible-4"]) == (4, 0)
    yield "M = 3 accepted", refusal_of(FUNDS["deductible-3"]) == (0, 0)
    yield ("a = 0 with only group 2 members: as the empty fund",
           answer_of(NO_FREQUENCY) == answer_of(EMPTY))
    yield ("each fund repeats its frequency",
           all(b"\nfrequency=%d,%d\n" % (text.frequency, text.frequency) in text.data()
               for text in FUNDS.values()))
    yield ("each member line takes one life", all(row[4] == 1 for text in FUNDS.values() for row in text.member_rows)
           and NINTH.data().count(b"\nmember=40,2,1,0,1") == 8 and b"\nmember=30,2,1,0,1\nend=9\n" in NINTH.data())
    yield ("each fund takes worth=100 after its deductible",
           all(b"\ndeductible=%d\nworth=100\n" % text.deductible in text.data()
               for text in FUNDS.values()))


def roundings():
    """Nearest: 1/2 gives 1, -1/2 gives -1.  Up: the next whole number not below."""
    yield "1/2 gives 1", pricing.nearest(1, 2) == 1
    yield "-1/2 gives -1", pricing.nearest(-1, 2) == -1
    yield ("nearest over thirds and quarters",
           [pricing.nearest(n, 3) for n in (-5, -4, -1, 0, 1, 4, 5)]
           == [-2, -1, 0, 0, 0, 1, 2]
           and [pricing.nearest(n, 4) for n in (-6, -5, -2, 2, 5, 6)]
           == [-2, -1, -1, 1, 1, 2])
    yield ("up over fours", [pricing.up(n, 4) for n in (0, 1, 4, 5, 8)]
           == [0, 1, 1, 2, 2])


def reading_funds():
    """Figures that the settled readings state."""
    answer = answer_of(SMALLEST_RATE)
    yield ("q = 1, d = 1: D is 1000001, -1, 0, 0",
           answer.D[:13] == (0, 1000001, -1) + (0,) * 10)
    yield "q = 1, d = 1: H is 1, 2, 3, 4", answer.H[:13] == tuple(range(13))
    yield ("M = 0: the premium is the mean, bound 0",
           (answer.premium, answer.bound) == (answer.mean, 0))
    yield "the smallest lambda has R(0) = 125", answer_of(SMALLEST_LAMBDA).R[0] == 125
    # f(6): the products are 6075652, -7206 and -6068449, together -3, and
    # nearest(-3/6) = -1.
    yield ("q = 1530, i = 1421, d = 2, e = 3: f(6) = -1",
           answer_of(NEGATIVE).f[:7]
           == (997049000000, 0, 1530000000, 1421000000, 0, 0, -1))
    yield ("a negative figure starts with -",
           "\ncell=6,-1," in pricing.listing(answer_of(NEGATIVE)))


def checks():
    found = []
    for part in (first_fund, empty_fund, eight_members, half_funds, header_funds,
                 roundings, reading_funds):
        found += part()
    return found


if __name__ == "__main__":
    for name, holds in checks():
        print("holds " if holds else "FAILS ", name)
