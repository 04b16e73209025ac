"""Funds whose cell lines end in F(x) and its bound, as METHOD 8 prints them (§7).

ROWS holds funds with (F, bound) at each place, worked by hand, WIDE_ROW and MORE_ROWS longer ones
with some of their places, REFUSED funds with all that is printed.  MUTATIONS are wrong ways to print
the two figures.  cases() gives those that are stored as cases, checks() pairs (name, holds).  Run as
a program, it prints them.
"""

from dataclasses import replace
from itertools import accumulate
from unittest import mock

import exact
import formulas
import generate
import pricing
from document_funds import EIGHT, EMPTY, FIRST, HALF, HALF_FOLDED, NEGATIVE, SIX, SMALLEST_LAMBDA
from generate import Text
from quantile_funds import PASSING

UNIT = 10 ** 12
MOST_CUT = 2 * 10 ** 8      # 2E of a fund that is accepted


def by_place(*figures):
    return dict(enumerate(figures))


# No term is placed, so f is p x p at 0 and 0 elsewhere, and R is 2, 1, 1.  E is 99996205 + 3795.
MOST_TRUNCATION = Text(horizon=2, order=12, deductible=0, rate_rows=((40, 211124, 0), (60, 360123, 0)),
                       member_rows=((60, 1, 65535, 0), (40, 1, 65535, 0)))

# The weights are 0.02 at 1 and 0.015 at 3, and the member of group 1 lies beyond X; E is 1.  R is 126, 4, 2, 2, 2:
# c is 1 once and 2 from then on, and R(1) is up(0.02 x 126) + 1.  f is 0.97 x 975309912028 at 0.
BOTH_GROUPS = Text(horizon=4, order=12, frequency=(1000, 500), deductible=0, rate_rows=((40, 20000, 10000),),
                   member_rows=((40, 2, 1, 3), (40, 1, 9, 9)))

ROWS = (
    # R is 1, 3, 4 and 2E is 85733884
    ("the first fund", FIRST, by_place((900000000000, 85733885), (UNIT, 85733888), (UNIT, 85733892))),
    # R is 0 and 1
    ("empty fund", EMPTY, by_place((UNIT, 0), (UNIT, 1))),
    # each further R is 1
    ("empty fund, four places", replace(EMPTY, horizon=3), by_place((UNIT, 0), (UNIT, 1), (UNIT, 2), (UNIT, 3))),
    ("X = 0", replace(FIRST, horizon=0, deductible=0), by_place((900000000000, 85733885))),
    ("X = 0, the smallest lambda", SMALLEST_LAMBDA, by_place((999999999000, 125))),
    # f(6) is -1.  E is 1.  From 2 on, the places before x give 2 to the sum for R(x), and x itself 1 and its H, which is
    # 2, 3, 4, 5, 12, 7, 16, 18, 20, 22, 36: R is 1, 1, 3, 3, 4, 4, 5, 4, 5, 5, 5, 5, 6.
    ("F falls", NEGATIVE, by_place((997049000000, 3), (997049000000, 4), (998579000000, 7), (UNIT, 10), (UNIT, 14), (UNIT, 18),
                                   *((UNIT - 1, bound) for bound in (23, 27, 32, 37, 42, 47, 53)))),
    # E is 2 and R is 2, 4, 5, 5, 5
    ("F above 10^12", PASSING, by_place((999760014400, 6), (999999985601, 10), (UNIT + 2, 15), (UNIT + 2, 20), (UNIT + 2, 25))),
    # R(x) is up(8 x R(x-1)/x) + 1: 691, 5529, 22117, 58980, 117961, 188739
    ("eight replaced members", EIGHT, by_place((335462628, 691), (3019163652, 6220), (13753967748, 28337), (42380112004, 87317),
                                               (99632400516, 205278), (191236062135, 394017))),
    ("E = 0 with a member of group 1", HALF_FOLDED, by_place((UNIT, 1), (UNIT, 2), (UNIT, 3))),
    ("both groups", BOTH_GROUPS, by_place((946050614667, 128), (964971626960, 132), (965160837083, 134), (969892351557, 136),
                                          (969986962925, 138))),
    ("the most E", MOST_TRUNCATION, by_place((504783608252, MOST_CUT + 2), (504783608252, MOST_CUT + 3),
                                             (504783608252, MOST_CUT + 4))),
)


def wide(horizon, amounts):
    """Load and E near their limits, and no two terms with unlike signs at one place, all amounts being odd.

    Seventeen members of group 1 take nearly all of E, and one more the rest of the load.  One of group 2 and 981 with the
    smallest rates make R(0) 1124: 125 and 999.
    """
    members = tuple((60, 1, d, 0) for d in amounts) + ((50, 1, amounts[0], 0), (40, 2, 1, 0))
    return Text(horizon=horizon, order=12, frequency=(1, 0), deductible=0,
                rate_rows=((40, 1, 1), (50, 151116, 0), (60, 315069, 0)),
                member_rows=members + ((40, 1, 1, 3),) * (pricing.MEMBER_ROWS - len(members)))


# Not by hand but for the bound at 0: 2E is 199991764.  R is 248738 at 222, and above 200000 at 70 places.
WIDE_ROW = ("R near its limit", wide(900, tuple(15 + 2 * (k % 5) for k in range(17))),
            {0: (1361420386, 199992888), 222: (999077086447, 216988280), 900: (999962148044, 252212666)})

# R is 1 up to 4094.  At 4095 it is 3: up((up(4095 x 0.5628..) + up(4095 x 0.6398..))/4095) + 1.  2E is 199992410.
LONGEST_LINE = Text(horizon=4095, order=12, deductible=0, rate_rows=((40, 360123, 0),), member_rows=((40, 1, 4095, 0),))

# Not of a stream: their listings are long.
MORE_ROWS = (
    ("the longest cell line", LONGEST_LINE, {0: (639877000000, 199992411), 1: (639877000000, 199992412),
                                             4094: (639877000000, 199996505), 4095: (UNIT, 199996508)}),
    # not by hand but for the bound at 0; no wider bound of an accepted fund is known
    ("the widest bound", wide(4095, tuple(125 + 2 * k for k in range(17))),
     {0: (1361420386, 199992888), 1690: (999154407444, 219450278), 4095: (999962147798, 259148584)}),
)

ALL_ROWS = ROWS + (WIDE_ROW,) + MORE_ROWS

REFUSED = (("refused wide", SIX, "refused=10,6\n"), ("refused half", HALF, "refused=6,9\n"),
           ("refused order", replace(FIRST, order=2), "refused=8,0\n"))


def cases(rows=ROWS + (WIDE_ROW,)):
    return [generate.Case(f"distribution-{name}", text.data()) for name, text, _ in rows + REFUSED]


def unreplaced_cases():
    """The fund with R near its limit as far as most of its claims go, group 2 left out of it: for the exact values."""
    return [generate.Case("distribution-wide-unreplaced", replace(WIDE_ROW[1], horizon=400, frequency=0).data())]


# The two figures, and the line

def line_of(wanted, x, cut):
    """The five numbers of the line at x, where the table has the place before it too."""
    (F, bound), (F_before, bound_before) = wanted[x], wanted[x - 1] if x else (0, cut)
    return x, F - F_before, bound - bound_before + cut, F, bound


def listed(text):
    """The numbers of each cell line."""
    return exact.printed_cells(pricing.price(text.data()))


def row_holds(text, wanted):
    answer = pricing.price(text.data())
    cells = exact.printed_cells(answer)
    return (answer.number == 0 and [cell[0] for cell in cells] == list(range(text.horizon + 1))
            and all(cells[x][3:] == figures for x, figures in wanted.items())
            and all(cells[x] == line_of(wanted, x, 2 * answer.truncation) for x in wanted if not x or x - 1 in wanted))


def is_refused_so(text, wanted):
    return pricing.listing(pricing.price(text.data())) == wanted


def row_checks(rows):
    for name, text, wanted in rows:
        yield f"distribution: {name}: F and its bound", row_holds(text, wanted)


def fund_checks():
    yield "distribution: each place of a fund by hand", all(list(wanted) == list(range(text.horizon + 1)) for _, text, wanted in ROWS)
    yield from row_checks(ROWS)
    for name, text, wanted in REFUSED:
        yield f"distribution: {name}: nothing else is printed", is_refused_so(text, wanted)


def from_the_line(cells, cut):
    """The same two figures from the first three of each line: the single bounds together count the cut once for each place."""
    F = accumulate(cell[1] for cell in cells)
    bounds = accumulate(cell[2] for cell in cells)
    return [(total, bound - x * cut) for x, (total, bound) in enumerate(zip(F, bounds))]


def line_checks(rows):
    """The figures follow from the line, the bound is the place's own at 0 and never falls, and a shorter horizon gives the same lines."""
    for name, text, _ in rows:
        answer = pricing.price(text.data())
        cells = exact.printed_cells(answer)
        bounds = [cell[4] for cell in cells]
        yield f"distribution: {name}: from the line", [cell[3:] for cell in cells] == from_the_line(cells, 2 * answer.truncation)
        yield f"distribution: {name}: the bound", bounds[0] == cells[0][2] and bounds == sorted(bounds)
        shorter = replace(text, horizon=text.horizon // 2, deductible=0)
        yield f"distribution: {name}: a shorter horizon", listed(shorter) == cells[:text.horizon // 2 + 1]


def truncation_checks():
    """The fund with the most E has it by the formula, and none may have more."""
    yield "distribution: the most E", 2 * formulas.Formulas(MOST_TRUNCATION.data()).truncation() == MOST_CUT == 2 * pricing.TRUNCATION_HIGH


def checks():
    return [*fund_checks(), *row_checks(ALL_ROWS[len(ROWS):]), *line_checks(ALL_ROWS), *truncation_checks()]


# Wrong ways to print them

MUTATIONS = (
    ("the cut at every cell", "sum_bounds", lambda R, E: list(accumulate(bound + 2 * E for bound in R))),
    ("the bound of the last cell alone", "sum_bounds", lambda R, E: [bound + 2 * E for bound in R]),
    ("E instead of 2E", "sum_bounds", lambda R, E: [total + E for total in accumulate(R)]),
    ("no 2E", "sum_bounds", lambda R, E: list(accumulate(R))),
    ("R(0) left out", "sum_bounds", lambda R, E: [total - R[0] + 2 * E for total in accumulate(R)]),
    ("R(x) left out", "sum_bounds", lambda R, E: [total - bound + 2 * E for total, bound in zip(accumulate(R), R)]),
    ("the largest R in place of their sum", "sum_bounds", lambda R, E: [most + 2 * E for most in accumulate(R, max)]),
    ("the bound of the whole listing", "sum_bounds", lambda R, E: [sum(R) + 2 * E] * len(R)),
    ("the bounds added up once more", "sum_bounds", lambda R, E: [total + 2 * E for total in accumulate(accumulate(R))]),
    ("F of the place before", "printed_sums", lambda f, F: [0, *F[:-1]]),
    ("F of the place after", "printed_sums", lambda f, F: [*F[1:], F[-1]]),
    ("the sum of |f|", "printed_sums", lambda f, F: list(accumulate(map(abs, f)))),
    ("F without what is negative", "printed_sums", lambda f, F: list(accumulate(max(value, 0) for value in f))),
    ("F capped at 10^12", "printed_sums", lambda f, F: [min(total, UNIT) for total in F]),
    ("F made rising", "printed_sums", lambda f, F: list(accumulate(F, max))),
    ("1 less F", "printed_sums", lambda f, F: [UNIT - total for total in F]),
    ("f again", "printed_sums", lambda f, F: list(f)),
    ("F and its bound in the other order", "cell_line", lambda x, f, bound, F, most: f"cell={x},{f},{bound},{most},{F}"),
    ("F before the bound of f", "cell_line", lambda x, f, bound, F, most: f"cell={x},{f},{F},{bound},{most}"),
    ("the bound of F for that of f", "cell_line", lambda x, f, bound, F, most: f"cell={x},{f},{most},{F},{most}"),
    ("F left out", "cell_line", lambda x, f, bound, F, most: f"cell={x},{f},{bound},{most}"),
    ("the first delivery's line", "cell_line", lambda x, f, bound, F, most: f"cell={x},{f},{bound}"),
)


def mutated(target, value):
    return mock.patch.object(pricing, target, value)


def told_apart():
    """The funds by hand that do not hold under each mutation."""
    for name, target, value in MUTATIONS:
        with mutated(target, value):
            yield name, [fund for fund, text, wanted in ROWS if not row_holds(text, wanted)]


if __name__ == "__main__":
    for name, holds in checks():
        print("holds " if holds else "FAILS ", name)
    for name, funds in told_apart():
        print("told apart " if funds else "NOT TOLD APART ", f"{name}: {', '.join(funds)}")
