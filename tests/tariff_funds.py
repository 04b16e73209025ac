"""Funds with a known gross premium, as METHOD 7 loads them (§3).

LIVES and ROWS hold funds with their gross premium in centimes, REFUSED funds with
a line in the worth's place and their refusal.  cases() gives all as cases, checks()
pairs (name, holds).  Run as a program, it prints them.
"""

from dataclasses import replace

import exact
import formulas
import generate
import pricing
from document_funds import EMPTY, FIRST, NEGATIVE
from generate import Text

MOST_WORTH = 9999999


def life(q, d, M, X, worth):
    """One group 1 member with death rate q and an amount beyond the horizon.

    No term is placed: f is (1,000,000 - q) x 10^6 at 0 and 0 elsewhere, and every R
    is 1.  E is 1 for rates up to 50,000.  So the premium is q x (d - M) x 10^6, its
    bound M x (M + 1)/2 + 2 x M.
    """
    return Text(horizon=X, order=12, deductible=M, worth=worth, rate_rows=((40, q, 0),),
                member_rows=((40, 1, d, 0),))


# The premium of an edge is 10^12, one amount, and its worth 1,000 centimes: loaded, the
# loading's thousandths in centimes, and one more for a bound of a small part of a centime.
LIVES = (
    ("deductible 0, the bound 0", (1000, 1000, 0, 0, 1000), 1500),
    ("deductible 0, horizon 100", (1000, 1000, 0, 100, 1000), 1500),
    ("deductible 1", (1000, 1001, 1, 0, 1000), 1501),
    ("deductible 99", (1000, 1099, 99, 98, 1000), 1501),
    ("deductible 99, horizon 100", (1000, 1099, 99, 100, 1000), 1501),
    ("deductible 100", (1000, 1100, 100, 100, 1000), 1701),
    ("deductible 100, horizon 99", (1000, 1100, 100, 99, 1000), 1701),
    ("deductible 299, horizon 300", (1000, 1299, 299, 300, 1000), 1701),
    ("deductible 300, horizon 299", (1000, 1300, 300, 299, 1000), 1901),
    ("deductible 599, horizon 600", (1000, 1599, 599, 600, 1000), 1901),
    ("deductible 600, horizon 599", (1000, 1600, 600, 599, 1000), 2101),
    ("deductible 4096", (1000, 5096, 4096, 4095, 1000), 2101),
    # 0.15: nearest is 0; 0.1 taken up, loaded and taken up again is 2
    ("a part of a centime", (1000, 100, 0, 0, 1), 1),
    # 2.1: nearest is 2
    ("below a half", (1000, 700, 0, 0, 2), 3),
    # 15.15: nearest is 15; 10.1 taken up, loaded and taken up again is 17
    ("loaded before it is taken up", (1000, 10100, 0, 0, 1), 16),
    # 0.15 and the bound's 3 units: taken up apart they are 1 and 1
    ("premium and bound together", (1000, 101, 1, 0, 1), 1),
    # (30 x 10^6 + 3) x 9999999 x 1.5 is 449.9999999999955 x 10^12; 1.5 times the sum, taken up
    # to 45 x 10^6 + 5 units before the worth, is 450.000004999995 x 10^12
    ("no unit taken up before the worth", (1, 31, 1, 0, MOST_WORTH), 450),
    # 3 and 150 exactly
    ("whole", (1000, 1000, 0, 0, 2), 3),
    ("whole at worth 100", (1000, 1000, 0, 0, 100), 150),
    # 3 and the bound's 3 units
    ("the bound decides", (1000, 1001, 1, 0, 2), 4),
    # the premium's 68181743181.825 and the bound's 181500 x 9999999 x 2.1/10^12 = 3.81..
    ("the bound decides on centimes", (50000, 65535, 600, 599, MOST_WORTH), 68181743186),
    ("no claim above the deductible", (1000, 100, 100, 99, 1000), 1),
)

# Eight certain claims of 65,535: the mean is 524280 x 10^12.  Times 9999999 x 1500 this is
# some 7.9 x 10^27.
LARGEST = Text(horizon=0, order=1, deductible=0, worth=MOST_WORTH, rate_rows=((40, 1000000, 0),),
               member_rows=((40, 2, 65535, 0),) * 8)

# F lies one unit below 10^12 at 6 to 12, so the premium is -7.
BELOW_ZERO = replace(NEGATIVE, deductible=13)

# The premium 8024340402428 lies 7 units below the exact one: loaded, they are 120365093.99..
# and 120365094.00001.. centimes.  The bound is 356.
BELOW_EXACT = replace(BELOW_ZERO, worth=MOST_WORTH, rate_rows=NEGATIVE.rate_rows + ((50, 12345, 0),),
                      member_rows=NEGATIVE.member_rows + ((50, 1, 663, 0),))

ROWS = tuple((name, life(*numbers), wanted) for name, numbers, wanted in LIVES) + (
    ("the first fund", FIRST, 1),
    ("empty fund, bound 1", EMPTY, 1),
    ("empty fund, bound 1, worth 1", replace(EMPTY, worth=1), 1),
    ("empty fund, bound 1, the most worth", replace(EMPTY, worth=MOST_WORTH), 1),
    ("empty fund, deductible 0", replace(EMPTY, deductible=0), 0),
    ("empty fund, deductible 1", replace(EMPTY, deductible=1), 0),
    ("empty fund, deductible 0, the most worth", replace(EMPTY, deductible=0, worth=MOST_WORTH), 0),
    ("the largest", LARGEST, 7864199213580),
    ("the largest, worth 1", replace(LARGEST, worth=1), 786420),
    ("a premium below 0", BELOW_ZERO, 1),
    ("a premium below the exact one", BELOW_EXACT, 120365095),
)


def in_place_of_worth(*lines):
    """The first fund with these lines where its worth stands."""
    made = FIRST.lines()
    return generate.joined(made[:6] + list(lines) + made[7:])


REFUSED = (
    ("missing", in_place_of_worth(), (1, 7, b"rate=40,100000,0")),
    ("missing, the file ends", generate.joined(FIRST.lines()[:6]), (1, 7, b"")),
    ("missing, no rows", generate.joined(FIRST.lines()[:6] + [b"end=0"]), (1, 7, b"end=0")),
    ("without its line feed", generate.joined(FIRST.lines()[:6]) + b"worth=100", (1, 7, b"worth=100")),
    ("an empty line", in_place_of_worth(b""), (1, 7, b"")),
    ("0", in_place_of_worth(b"worth=0"), (2, 7, b"worth=0")),
    ("eight digits", in_place_of_worth(b"worth=10000000"), (1, 7, b"worth=10000000")),
    ("leading zero", in_place_of_worth(b"worth=0100"), (1, 7, b"worth=0100")),
    ("a sign", in_place_of_worth(b"worth=+100"), (1, 7, b"worth=+100")),
    ("empty number", in_place_of_worth(b"worth="), (1, 7, b"worth=")),
    ("two numbers", in_place_of_worth(b"worth=100,100"), (1, 7, b"worth=100,100")),
    ("other key", in_place_of_worth(b"value=100"), (1, 7, b"value=100")),
    ("key of the line before", in_place_of_worth(b"deductible=2"), (1, 7, b"deductible=2")),
    ("twice", in_place_of_worth(b"worth=100", b"worth=100"), (1, 8, b"worth=100")),
    ("before the deductible", generate.joined(FIRST.lines()[:5] + [b"worth=100", b"deductible=2"] + FIRST.lines()[7:]),
     (1, 6, b"worth=100")),
    ("after the rates", in_place_of_worth(b"rate=30,0,0", b"worth=100"), (1, 7, b"rate=30,0,0")),
)


def cases():
    return ([generate.Case(f"tariff-{name}", text.data()) for name, text, _ in ROWS]
            + [generate.Case(f"tariff-worth-{name}", data, wanted) for name, data, wanted in REFUSED])


def row_checks():
    for name, text, wanted in ROWS:
        answer = pricing.price(text.data())
        yield f"tariff: {name}: gross premium", (answer.number, answer.gross) == (0, wanted)
        yield f"tariff: {name}: the last line", pricing.listing(answer).endswith(f"\ngross={wanted}\n")


def life_checks():
    """The premium and its bound are those that the gross premiums were worked from."""
    for name, (q, d, M, X, worth), _ in LIVES:
        answer = pricing.price(life(q, d, M, X, worth).data())
        yield (f"tariff: {name}: premium and bound",
               (answer.premium, answer.bound) == (q * (d - M) * 10 ** 6, M * (M + 1) // 2 + 2 * M))
    yield "tariff: below 0: premium", pricing.price(BELOW_ZERO.data()).premium == -7
    answer = pricing.price(BELOW_EXACT.data())
    yield "tariff: below the exact one: premium and bound", (answer.premium, answer.bound) == (8024340402428, 356)
    yield ("tariff: below the exact one: the exact premium",
           answer.number == 0 and exact.average_excess(*exact.read_and_fold(BELOW_EXACT.data())) == 8024340402435)
    yield "tariff: the largest: premium", pricing.price(LARGEST.data()).premium == 524280 * 10 ** 12


def outcome_checks():
    """Not below the loaded worth of the average excess over all outcomes."""
    for name, text, _ in ROWS:
        if not any(row[1] == 2 for row in text.member_rows):
            broken = exact.check_gross_by_outcomes(text.data())
            yield f"tariff: {name}: by outcomes {broken}", not broken


def refused_checks():
    for name, data, wanted in REFUSED:
        answer = pricing.price(data)
        part = data[answer.start:answer.start + answer.length]
        yield f"tariff: worth {name}: refused", (answer.number, answer.place, part, answer.gross) == (*wanted, 0)


def step_checks():
    """The loading of every deductible, written in three ways."""
    broken = [M for M in range(pricing.DEDUCTIBLE_HIGH + 1)
              if not pricing.loading(M) == exact.loading(M) == 1000 * formulas.loading(M)]
    yield f"tariff: loading {broken}", not broken


def sum_checks():
    """Premiums and bounds that no fund need have."""
    unit = 10 ** 12
    for premium, bound, worth, M, wanted in ((-unit, unit - 1, MOST_WORTH, 0, 0), (-5 * unit, 0, 1000, 600, 0),
                                             (-unit, unit, 1, 0, 0), (-unit, 3 * unit, 2, 0, 6), (-unit, unit + 1, 1, 0, 1),
                                             (10 ** 18, 0, MOST_WORTH, 600, 20999997900000),
                                             (10 ** 18 - 1, 2, MOST_WORTH, 600, 20999997900001)):
        yield (f"tariff: premium {premium}, bound {bound}, worth {worth}, deductible {M}",
               pricing.gross(premium, bound, worth, M) == wanted)


def checks():
    found = []
    for part in (row_checks, life_checks, outcome_checks, refused_checks, step_checks, sum_checks):
        found += part()
    return found


if __name__ == "__main__":
    for name, holds in checks():
        print("holds " if holds else "FAILS ", name)
