"""The numbers of the triangle, as METHOD 4 limits them (§4): where
q + i is below 500,000, a v is at most 10^12 and the sum before the division is
below 5×10^17.

ROWS holds funds of one member whose figures rest on the triangle, each with what
it is: f, or the number of its refusal.  cases() gives the rows as cases, checks()
pairs (name, holds).  Run as a program, it prints them.
"""

import random

import generate
import pricing
from generate import Text

SUM_HIGH = 5 * 10**17
MADE = 16               # rows, some more than an order can ask for

LAST = pricing.HALF - 1
ACCEPTED = 360123       # the largest q + i of one member at order 12


def fund(q, i, d, e, horizon=24, order=12):
    return Text(horizon=horizon, order=order, deductible=2, rate_rows=((40, q, i),), member_rows=((40, 1, d, e),))


ROWS = (
    # Its two parts rounded apart would leave f(3) = 1.
    ("a v is rounded once", fund(100000, 100004, 1, 2, horizon=3), (799996000000, 100000000000, 100004000000, 0)),
    ("death alone, the largest rate", fund(ACCEPTED, 0, 2, 0), (639877000000, 0, ACCEPTED * 10**6)),
    ("disability alone, the largest rate", fund(0, ACCEPTED, 0, 1), (639877000000, ACCEPTED * 10**6)),
    ("both, the largest rates", fund(ACCEPTED - 123456, 123456, 2, 1), (639877000000, 123456 * 10**6, (ACCEPTED - 123456) * 10**6)),
    ("one amount for both", fund(200000, 100000, 2, 2), (700000000000, 0, 300000000000)),
    ("the smallest rates", fund(1, 1, 1, 2), (999998000000, 1000000, 1000000)),
    ("one row", fund(4000, 5000, 1, 2, order=1), (991000000000, 4000000000, 5008072654)),
    ("the rate after the largest", fund(ACCEPTED + 1, 0, 2, 0), 8),
    ("the last that passes 6", fund(LAST - 7, 7, 1, 2), 8),
    ("the first that does not", fund(LAST - 7, 8, 1, 2), 6),
)


def cases(rows=ROWS):
    return [generate.Case(f"triangle-{name}", text.data()) for name, text, _ in rows]


def fund_checks():
    for name, text, wanted in ROWS:
        answer = pricing.price(text.data())
        if isinstance(wanted, int):
            yield f"triangle: {name}: refused", answer.number == wanted
        else:
            yield f"triangle: {name}", (answer.number, answer.f[:len(wanted)]) == (0, wanted)


def rows(q, i):
    """Row 0 and those after it."""
    row = [pricing.UNIT] + [0] * pricing.ORDER_HIGH
    for _ in range(MADE + 1):
        yield row
        row = pricing.next_row(row, q, i, pricing.MILLION - q - i)


def sums(row, q, i):
    """q×v(n,l-1) + i×v(n,l) for each l."""
    return [q * left + i * above for left, above in zip([0] + row, row)]


def most(q, i):
    """The largest v, and the largest sum before the division."""
    made = list(rows(q, i))
    return max(map(max, made)), max(max(sums(row, q, i)) for row in made)


def is_narrow(q, i):
    v, before = most(q, i)
    return v <= pricing.UNIT and before < SUM_HIGH


def ends_at_n(q, i):
    """Row n has nothing behind column n."""
    return all(not any(row[n + 1:]) for n, row in enumerate(rows(q, i)))


def rates(seed, number):
    """q and i that pass 6: the largest, and drawn ones of every size."""
    yield from ((0, 0), (1, 0), (0, 1), (LAST, 0), (0, LAST), (1, LAST - 1), (LAST - 1, 1), (LAST // 2, LAST - LAST // 2))
    rng = random.Random(seed)
    for _ in range(number):
        together = rng.randint(0, 10 ** rng.randint(1, 6)) % pricing.HALF
        q = rng.randint(0, together)
        yield q, together - q


def size_checks():
    for q, i in rates(4, 400):
        yield f"triangle: {q}, {i}: v and the sum are within", is_narrow(q, i)
        yield f"triangle: {q}, {i}: row n ends at n", ends_at_n(q, i)
    yield "triangle: the largest sum", most(LAST, 0) == (pricing.UNIT, LAST * pricing.UNIT)
    yield "triangle: the sum at a half is not below", most(LAST + 1, 0) == (pricing.UNIT, SUM_HIGH)
    yield "triangle: a v above a half grows", most(LAST + 1000, 0)[0] > pricing.UNIT


def checks():
    return list(fund_checks()) + list(size_checks())


if __name__ == "__main__":
    for name, holds in checks():
        print("holds" if holds else "FAILS", name)
