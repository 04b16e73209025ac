"""Gerber's portfolio of 31 policies, which papers on the individual model compare on: examples/gerber.fund.

LITERATURE holds the probabilities of totals 0 to 9 as they are printed there, with six digits.  cell_table and
order_table give the tables of docs/GERBER.md.  checks() gives pairs (name, holds).  Run as a program, it prints
those that fail, and their number:

    python3 tests/gerber_portfolio.py
"""

import re
import sys
from fractions import Fraction
from pathlib import Path

import exact
import pricing

ROOT = Path(__file__).resolve().parent.parent
FUND = ROOT / "examples" / "gerber.fund"
PAGE = ROOT / "docs" / "GERBER.md"
UNIT = 10 ** 12
ORDERS = range(1, 13)

LITERATURE = ("0.238195", "0.014734", "0.087734", "0.113183", "0.110709", "0.096327", "0.061549", "0.069022", "0.054817", "0.043147")

# Of each death rate in millionths: amount and number of policies.
POLICIES = {
    30000: {1: 2, 2: 3, 3: 1, 4: 2},
    40000: {2: 1, 3: 2, 4: 2, 5: 1},
    50000: {2: 2, 3: 4, 4: 2, 5: 2},
    60000: {2: 2, 3: 2, 4: 2, 5: 1},
}


# The fund

def with_order(data, order):
    return re.sub(rb"(?m)^order=\d+", b"order=%d" % order, data)


def exact_values(data):
    """At 0 to the horizon, as fractions; nobody is replaced."""
    fund, members = exact.read_and_fold(data)
    whole = 10 ** (6 * exact.group_1_lives(members))
    return [Fraction(number, whole) for number in exact.group_1_numerators(members, fund.horizon)]


def truncation(data, order):
    """Also of an order that is refused for it."""
    return pricing.truncation(exact.read_and_fold(data)[1], order)


def six_digits(units):
    """A probability in units, to six digits."""
    return f"0.{pricing.nearest(units, 10 ** 6):06}"


# The tables of docs/GERBER.md

def table(titles, rows):
    lines = ["| " + " | ".join(titles) + " |", "|" + "---|" * len(titles)]
    return "\n".join(lines + ["| " + " | ".join(map(str, row)) + " |" for row in rows])


def decimals(units, digits=12):
    return f"{units // 10 ** digits}.{units % 10 ** digits:0{digits}}"


def cell_table(values, cells):
    """The ten totals of the literature: cells are the lines of a listing."""
    rows = [(x, LITERATURE[x], decimals(f), decimals(bound), decimals(round(values[x] * 10 ** 15), 15))
            for x, f, bound, _, _ in cells[:len(LITERATURE)]]
    return table(("Total", "In the literature", "Probability", "Within", "Exact, to 15 digits"), rows)


def agreeing(cells):
    """How many of the ten show the literature's six digits."""
    return sum(six_digits(f) == printed for (_, f, _, _, _), printed in zip(cells, LITERATURE))


def sure(cells):
    """Of how many the bound alone says that these are the exact one's six digits."""
    return sum(six_digits(f - bound) == six_digits(f + bound) for _, f, bound, _, _ in cells[:len(LITERATURE)])


def order_table(figures, cells, cut, distance):
    """All by order; cells and distance of the accepted ones only."""
    rows = []
    for order in ORDERS:
        if order not in cells:
            rows.append((order, f"{cut[order]:,}", f"`refused={figures[order]['refused']}`", "", "", "", "", ""))
            continue
        found = cells[order]
        rows.append((order, f"{cut[order]:,}", f"{max(cell[2] for cell in found):,}", f"{float(distance[order]):,.1f}", agreeing(found),
                     sure(found), decimals(int(figures[order]["premium"])), f"{int(figures[order]['within']):,}"))
    return table(("Order", "Truncation figure", "Largest bound", "Largest distance", "Six digits agree", "Six digits sure", "Premium", "Within"), rows)


# The checks

def answers(data):
    return {order: pricing.price(with_order(data, order)) for order in ORDERS}


def distances(found, values):
    return {order: max(abs(f - UNIT * value) for f, value in zip(answer.f, values)) for order, answer in found.items()}


def fund_checks(data):
    fund = pricing.read_fund(data)
    held = {}
    for m in fund.member_rows:
        q, i = pricing.rate_in_force(fund.rate_rows, m.age)
        held.setdefault(q, {})[m.d] = m.lives
        yield f"line {m.line.place}: group 1, no disability", (m.group, m.e, i) == (1, 0, 0)
    yield "the policies are Gerber's", held == POLICIES
    yield "31 policies", pricing.lives_in_all(fund.member_rows) == 31
    yield "the horizon is the largest total", fund.horizon == sum(m.d * m.lives for m in fund.member_rows) == 97


def literature_checks(values):
    yield "the exact values add up to 1", sum(values) == 1
    product = Fraction(97, 100) ** 8 * Fraction(96, 100) ** 6 * Fraction(95, 100) ** 10 * Fraction(94, 100) ** 7
    yield "the exact value at 0", values[0] == product
    for x, printed in enumerate(LITERATURE):
        yield f"the literature at {x} is the exact value to six digits", abs(values[x] - Fraction(printed)) < Fraction(1, 2 * 10 ** 6)


def order_checks(data, values):
    fund, members = exact.read_and_fold(data)
    premium = exact.premium(fund, members, values)
    for order, answer in answers(data).items():
        cut = truncation(data, order)
        yield f"order {order}: refused where the truncation figure is above 10^8", (answer.number == 8) == (cut > 10 ** 8) == (order < 3)
        if answer.number:
            continue
        cells = exact.printed_cells(answer)
        yield f"order {order}: every probability within its bound", all(
            abs(f - UNIT * value) <= bound for (_, f, bound, _, _), value in zip(cells, values, strict=True))
        yield f"order {order}: the premium within its bound", abs(answer.premium - premium) <= answer.bound
        yield f"order {order}: six digits agree", agreeing(cells) == (9 if order == 3 else 10)
        yield f"order {order}: digits that are sure agree", all(
            six_digits(f) == printed for (_, f, bound, _, _), printed in zip(cells, LITERATURE)
            if six_digits(f - bound) == six_digits(f + bound))


def below_bound(cells):
    """The first total whose probability is below its bound."""
    return next(x for x, f, bound, _, _ in cells if f < bound)


def sentence_checks(data, values):
    """What docs/GERBER.md says in words."""
    cells = {order: exact.printed_cells(pricing.price(with_order(data, order))) for order in (3, 12)}
    other = {x: six_digits(f) for x, f, _, _, _ in cells[3][:10] if six_digits(f) != LITERATURE[x]}
    yield "order 3: another probability of 8", other == {8: "0.054820"} and cells[3][8][2] == 115769638
    yield "the probabilities fall below their bounds", (below_bound(cells[3]), below_bound(cells[12])) == (24, 46)
    answer, (fund, members) = pricing.price(data), exact.read_and_fold(data)
    premium = exact.premium(fund, members, values)
    yield "the premium and the exact one", (answer.premium, answer.bound, round(premium)) == (250641758339, 1683, 250641758309)
    yield "less than a fiftieth of the bound", 50 * abs(answer.premium - premium) < answer.bound


def page_checks(data, values):
    found, page = answers(data), PAGE.read_text()
    accepted = {order: answer for order, answer in found.items() if not answer.number}
    cells = {order: exact.printed_cells(answer) for order, answer in accepted.items()}
    figures = {order: {"refused": f"{answer.number},{answer.place}", "premium": answer.premium, "within": answer.bound}
               for order, answer in found.items()}
    cut = {order: truncation(data, order) for order in ORDERS}
    yield "docs/GERBER.md: the table of the probabilities", cell_table(values, cells[12]) in page
    yield "docs/GERBER.md: the table of the orders", order_table(figures, cells, cut, distances(accepted, values)) in page
    yield "docs/GERBER.md: the fund", "".join(f"    {line}\n" for line in data.decode().splitlines()) in page


def checks():
    data = FUND.read_bytes()
    values = exact_values(data)
    return [*fund_checks(data), *literature_checks(values), *order_checks(data, values), *sentence_checks(data, values),
            *page_checks(data, values)]


def main():
    found = checks()
    for name, holds in found:
        if not holds:
            print(f"  FAILED {name}")
    bad = sum(not holds for _, holds in found)
    print(f"{len(found) - bad} passed, {bad} failed")
    return 1 if bad else 0


if __name__ == "__main__":
    sys.exit(main())
