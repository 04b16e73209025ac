"""The figures asked for one by one, with fractions: METHOD 4 to 7.

A second way of writing the method: each figure is a function of its indices,
written as the method's formula and remembered, with no running cells.
A line for several lives is written out as so many members, in its spot.
It shares with pricing.py only reading and folding.
"""

from fractions import Fraction
from functools import lru_cache
from math import ceil, floor

import pricing

UNIT = 10 ** 12


def nearest(value):
    """Halves away from zero."""
    if value < 0:
        return -nearest(-value)
    return floor(value + Fraction(1, 2))


def up(value):
    return ceil(value)


def loading(M):
    """The tariff's loading as a plain fraction."""
    steps = {range(100): 15, range(100, 300): 17, range(300, 600): 19}
    return Fraction(next((tenths for step, tenths in steps.items() if M in step), 21), 10)


def gross(premium, bound, worth, M):
    """In centimes; what is below 0 is 0."""
    return max(0, up(Fraction(premium + bound, UNIT) * worth * loading(M)))


class Formulas:
    def __init__(self, data):
        fund = pricing.read_fund(data)
        members = [m for line in pricing.match_and_fold(fund) for m in [line] * line.lives]
        self.X, self.r, self.M = fund.horizon, fund.order, fund.deductible
        self.a, self.b = fund.frequency.death, fund.frequency.disability
        self.worth = fund.worth
        self.first = [m for m in members if m.group == 1]
        self.second = [m for m in members if m.group == 2]
        self.lam = sum((m.q * self.a + m.i * self.b) * 1000 for m in self.second)
        self.v = lru_cache(None)(self.v)
        self.f = lru_cache(None)(self.f)
        self.R = lru_cache(None)(self.R)
        self.D = lru_cache(None)(self.D)
        self.H = lru_cache(None)(self.H)

    def v(self, m, n, l):
        if not 0 <= l <= n:
            return 0
        if n == 0:
            return UNIT
        return nearest(Fraction(m.q * self.v(m, n - 1, l - 1)
                                + m.i * self.v(m, n - 1, l), m.p))

    def terms_at(self, x):
        """The placed terms (member, n, l) of group 1 at this place."""
        return [(m, n, l) for m in self.first
                for n in range(1, self.r + 1) for l in range(n + 1)
                if m.d * l + m.e * (n - l) == x
                and (m.q > 0 or l == 0) and (m.i > 0 or l == n)]

    def D(self, x):
        if x == 0:
            return 0
        one = sum((-1) ** (n + 1) * nearest(Fraction(x * self.v(m, n, l), n))
                  for m, n, l in self.terms_at(x))
        two = sum(m.q * self.a * 1000 * m.d for m in self.second if m.d == x)
        three = sum(m.i * self.b * 1000 * m.e for m in self.second if m.e == x)
        return one + two + three

    def H(self, x):
        return x * len(self.terms_at(x))

    def w(self, m, n):
        if n == 0:
            return UNIT
        return up(Fraction(self.w(m, n - 1) * (m.q + m.i), m.p))

    def truncation(self):
        return sum(up(Fraction(self.w(m, self.r + 1) * m.p,
                               (m.p - m.q - m.i) * (self.r + 1)))
                   for m in self.first)

    def load(self):
        return self.lam + sum(up(Fraction(UNIT * (m.q + m.i), m.p))
                              for m in self.first)

    def mean(self):
        return (sum((m.q * m.d + m.i * m.e) * 10 ** 6 for m in self.first)
                + sum((m.q * m.d * self.a + m.i * m.e * self.b) * 1000
                      for m in self.second))

    def t(self, n):
        if n == 0:
            return UNIT
        return nearest(Fraction(self.t(n - 1) * self.lam, n * UNIT))

    def c(self, n):
        if n == 0 or self.lam == 0:
            return 0
        return up(Fraction(self.c(n - 1) * self.lam, n * UNIT)) + 1

    def f(self, x):
        if x == 0:
            value = sum((-1) ** n * self.t(n) for n in range(64))
            for m in self.first:
                value = nearest(Fraction(value * m.p, 10 ** 6))
            return value
        total = sum(nearest(Fraction(self.D(k) * self.f(x - k), UNIT))
                    for k in range(1, x + 1))
        return nearest(Fraction(total, x))

    def R(self, x):
        if x == 0:
            return sum(self.c(n) for n in range(64)) + len(self.first)
        total = sum(
            up(Fraction(abs(self.D(k)) * self.R(x - k), UNIT))
            + up(Fraction(self.H(k) * (abs(self.f(x - k)) + self.R(x - k)), UNIT))
            for k in range(1, x + 1))
        return up(Fraction(total, x)) + 1

    def F(self, x):
        return sum(self.f(k) for k in range(x + 1))

    def cell_line(self, x):
        """x, f(x), R(x) + 2E, F(x), R(0) + .. + R(x) + 2E."""
        cut = 2 * self.truncation()
        return "cell=%d,%d,%d,%d,%d" % (x, self.f(x), self.R(x) + cut, self.F(x),
                                        sum(self.R(k) for k in range(x + 1)) + cut)

    def quantile(self, level):
        reached = [x for x in range(self.X + 1) if self.F(x) >= level]
        return min(reached) if reached and level <= UNIT else None

    def premium(self):
        return (self.mean() - self.M * UNIT
                + sum((self.M - x) * self.f(x) for x in range(self.M)))

    def bound(self):
        return (sum((self.M - x) * self.R(x) for x in range(self.M))
                + 2 * self.M * self.truncation())

    def gross(self):
        return gross(self.premium(), self.bound(), self.worth, self.M)


@lru_cache(None)
def formulas_of(data):
    return Formulas(data)


def check_figures(data, answer, level=0):
    """The figures of an accepted answer that are not the formulas' figures."""
    formulas = formulas_of(data)
    cells = range(formulas.X + 1)
    pairs = [
        ("truncation", answer.truncation, formulas.truncation()),
        ("mean", answer.mean, formulas.mean()),
        ("premium", answer.premium, formulas.premium()),
        ("bound", answer.bound, formulas.bound()),
        ("gross", answer.gross, formulas.gross()),
        ("quantile", answer.quantile, formulas.quantile(level)),
    ]
    lines = [line for line in pricing.listing(answer).split("\n") if line.startswith("cell")]
    pairs.append(("cell lines", lines, [formulas.cell_line(x) for x in cells]))
    for name in ("D", "H", "f", "R", "F"):
        mine = [getattr(formulas, name)(x) for x in cells]
        rest = [0] * (len(getattr(answer, name)) - len(mine))
        pairs.append((name, list(getattr(answer, name)), mine + rest))
    return [name for name, given, wanted in pairs if given != wanted]
