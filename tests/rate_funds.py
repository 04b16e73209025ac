"""Funds with rates for some ages only, as METHOD 3 reads them (§2).

ROWS holds the fund with what it is: the fund with a row for each age of its
members that prices alike, or the number and the line of its refusal.  cases()
gives the rows as cases, checks() pairs (name, holds).  Run as a program, it
prints them.
"""

import random
from dataclasses import replace

import generate
import pricing
from generate import Text

LOW, HIGH, NONE = (20000, 10000), (50000, 30000), (0, 0)
HALF = (300000, 200000)


def fund(rates, members):
    return Text(horizon=6, order=12, deductible=3, rate_rows=tuple((age, *rate) for age, rate in rates),
                member_rows=tuple((age, group, 1, 2) for age, group in members))


TWO_ROWS = ((30, LOW), (50, HIGH))

ROWS = (
    ("between two rows", fund(TWO_ROWS, ((40, 1), (31, 2))), fund(((31, LOW), (40, LOW)), ((40, 1), (31, 2)))),
    ("at a row", fund(TWO_ROWS, ((30, 1), (50, 2))), fund(TWO_ROWS, ((30, 1), (50, 2)))),
    ("the last age before the next row", fund(TWO_ROWS, ((49, 1), (50, 1))), fund(((49, LOW), (50, HIGH)), ((49, 1), (50, 1)))),
    ("above the last row", fund(TWO_ROWS, ((51, 1), (120, 2))), fund(((51, HIGH), (120, HIGH)), ((51, 1), (120, 2)))),
    ("the last row at 120", fund(((30, LOW), (120, HIGH)), ((119, 1), (120, 1))),
     fund(((119, LOW), (120, HIGH)), ((119, 1), (120, 1)))),
    ("one row at 0", fund(((0, LOW),), ((0, 1), (120, 2))), fund(((0, LOW), (120, LOW)), ((0, 1), (120, 2)))),
    ("one row at 120", fund(((120, LOW),), ((120, 1),)), fund(((120, LOW),), ((120, 1),))),
    ("a row of zeros ends the row before", fund(((30, LOW), (40, NONE)), ((39, 1), (45, 1))),
     fund(((39, LOW), (45, NONE)), ((39, 1), (45, 1)))),
    ("a half that no longer holds", fund(((30, HALF), (40, LOW)), ((40, 1), (60, 1), (35, 2))),
     fund(((35, HALF), (40, LOW), (60, LOW)), ((40, 1), (60, 1), (35, 2)))),
    ("an empty table without members", fund((), ()), fund((), ())),
    ("below the first row", fund(TWO_ROWS, ((30, 1), (29, 1))), (5, 11)),
    ("below the first row, group 2", fund(TWO_ROWS, ((0, 2),)), (5, 10)),
    ("below one row at 120", fund(((120, LOW),), ((119, 1),)), (5, 9)),
    ("an empty table", fund((), ((120, 1),)), (5, 8)),
    ("half by the row in force", fund(((30, HALF), (50, LOW)), ((30, 2), (49, 1))), (6, 11)),
    ("unmatched before half", fund(((30, HALF),), ((40, 1), (29, 1))), (5, 10)),
)


def own_rows(text):
    """The same fund with a row for the age of each member that has a rate."""
    ages = sorted({row[0] for row in text.member_rows})
    rates = [(age, pricing.rate_in_force(text.rate_rows, age)) for age in ages]
    return replace(text, rate_rows=tuple((age, *rate) for age, rate in rates if rate))


def every_age(text):
    """The same fund with a row for each age from the first row's to 120."""
    first = text.rate_rows[0][0] if text.rate_rows else pricing.AGE_HIGH + 1
    rates = {age: (q, i) for age, q, i in text.rate_rows}
    rows, rate = [], None
    for age in range(first, pricing.AGE_HIGH + 1):
        rate = rates.get(age, rate)
        rows.append((age, *rate))
    return replace(text, rate_rows=tuple(rows))


def left_out(text):
    """The same fund without rows that equal the row before."""
    rows = []
    for row in text.rate_rows:
        if not rows or rows[-1][1:] != row[1:]:
            rows.append(row)
    return replace(text, rate_rows=tuple(rows))


def by_age_alone(rate_rows, age):
    """The first delivery's search, which asks for a row of the age itself."""
    return {row[0]: row[1:] for row in rate_rows}.get(age)


def alike(text, other):
    """The same answer but for the lines behind the rate lines, where more or fewer of these stand."""
    one, two = pricing.price(text.data()), pricing.price(other.data())
    moved = len(other.rate_rows) - len(text.rate_rows) if one.number in (5, 6) else 0
    same = replace(two, place=two.place - moved, start=one.start, length=one.length) == one
    return same and part(text, one) == part(other, two)


def part(text, answer):
    return text.data()[answer.start:answer.start + answer.length]


def cases(rows=ROWS):
    return [generate.Case(f"rates-{name}", text.data()) for name, text, _ in rows]


def row_checks():
    for name, text, wanted in ROWS:
        answer = pricing.price(text.data())
        if isinstance(wanted, Text):
            yield f"rates: {name}: accepted", answer.number == 0
            yield f"rates: {name}: priced as the fund with own rows", alike(text, wanted)
        else:
            line = text.data().split(b"\n")[wanted[1] - 1]
            yield f"rates: {name}: refused", (answer.number, answer.place, part(text, answer)) == (*wanted, line)


def written_out_checks():
    """Rows written out and left out again give the same answer, over the rows above and generated funds."""
    rng = random.Random(2)
    texts = [(name, text) for name, text, _ in ROWS] + [(f"gaps {k}", generate.gap_text(rng)) for k in range(60)]
    for name, text in texts:
        full = every_age(text)
        yield f"rates: {name}: own rows", alike(text, own_rows(text))
        yield f"rates: {name}: every age", alike(text, full)
        yield f"rates: {name}: left out again", alike(full, left_out(full)) and left_out(full) == left_out(text)
        yield (f"rates: {name}: all ages, as the first delivery searched",
               all(by_age_alone(full.rate_rows, age) == pricing.rate_in_force(full.rate_rows, age)
                   for age in range(pricing.AGE_HIGH + 1)))


def checks():
    return [*row_checks(), *written_out_checks()]


if __name__ == "__main__":
    for name, holds in checks():
        print("holds " if holds else "FAILS ", name)
