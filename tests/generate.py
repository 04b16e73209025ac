"""Fund files made from a seed: small ones, ones at each limit, damaged ones.

Each case carries what is known of its answer by the way it was made.
The same seed gives the same files.
"""

import random
from dataclasses import dataclass, replace

import pricing

LOADING_EDGES = (100, 300, 600)     # deductibles where another loading begins
ENOUGH = (pricing.HORIZON_HIGH + 1,) * 5
HEADER_LINES = 7


@dataclass(frozen=True)
class Case:
    name: str
    data: bytes
    expected: tuple = None      # (number, place, part) where known; (0, 0, b"") is accepted
    lengths: tuple = ENOUGH
    level: int = None           # where the case is made for one


@dataclass(frozen=True)
class Text:
    """What a fund file says; the rows are tuples of numbers."""
    rates: int = 2030
    members: int = 2030
    horizon: int = 4
    order: int = 4
    frequency: int | tuple = 1000       # (a, b), or one number for both
    deductible: int = 2
    worth: int = 100
    rate_rows: tuple = ()
    member_rows: tuple = ()             # (age, group, d, e, lives); given without lives, one life

    def __post_init__(self):
        object.__setattr__(self, "member_rows", tuple((*row, 1)[:5] for row in self.member_rows))

    def frequencies(self):
        given = self.frequency
        return pricing.Frequencies(*(given if isinstance(given, tuple) else (given, given)))

    def header_lines(self):
        return [b"rates=%d" % self.rates, b"members=%d" % self.members, b"horizon=%d" % self.horizon,
                b"order=%d" % self.order, b"frequency=%d,%d" % self.frequencies(),
                b"deductible=%d" % self.deductible, b"worth=%d" % self.worth]

    def lines(self):
        rates = [b"rate=%d,%d,%d" % row for row in self.rate_rows]
        members = [b"member=%d,%d,%d,%d,%d" % row for row in self.member_rows]
        return self.header_lines() + rates + members + [b"end=%d" % len(self.member_rows)]

    def header(self):
        return joined(self.header_lines())

    def data(self):
        return joined(self.lines())


def joined(lines):
    return b"".join(line + b"\n" for line in lines)


ACCEPTED = (0, 0, b"")


def refused(number, place=0, part=b""):
    return number, place, part


# Levels

USUAL_LEVEL = 990000000000      # 0.99
MOST_LEVEL = 2 ** 64 - 1        # that a call takes


def level_of(case, rng, answer, most=MOST_LEVEL):
    """The case's own level.

    Where it has none: 0, small, some F(x) or one unit above it, the usual one, 10^12
    or one unit above it, the most, or any below 10^12.
    """
    if case.level is not None:
        return case.level
    total = max(0, rng.choice(answer.F[:answer.horizon + 1] or (0,)))
    high = pricing.LEVEL_HIGH
    return rng.choice((0, rng.randint(1, 1000), total, total + 1, USUAL_LEVEL,
                       high, high + 1, most, rng.randrange(high)))


# Small funds

def one_truncation(order, s):
    """The truncation figure of one group 1 life with q + i = s."""
    line = pricing.Line(0, 0, b"", True)
    return pricing.member_truncation(pricing.Folded(line, 1, 1, 1, s, 0, 1), order)


def largest_rate(order, limit):
    """The largest q + i of a member whose truncation figure is within the limit."""
    low, high = 0, pricing.HALF - 1
    while low < high:
        middle = (low + high + 1) // 2
        if one_truncation(order, middle) <= limit:
            low = middle
        else:
            high = middle - 1
    return low


LARGEST_RATE = {order: largest_rate(order, pricing.TRUNCATION_HIGH // 4)
                for order in range(1, pricing.ORDER_HIGH + 1)}


def random_rate(rng, limit):
    """q and i with q + i up to the limit; often very small ones."""
    if rng.randrange(3) == 0:
        limit = min(limit, 60)
    total = rng.randint(0, limit)
    q = rng.choice((0, total, rng.randint(0, total)))
    return q, total - q


def random_amount(rng, horizon):
    """From 0 to a little beyond X, sometimes far beyond."""
    if rng.randrange(12) == 0:
        return rng.choice((pricing.AMOUNT_HIGH, horizon + 1, 1000))
    return rng.randint(0, horizon + 2)


def random_member(rng, age, group, horizon):
    return (age, group, random_amount(rng, horizon), random_amount(rng, horizon))


def random_worth(rng):
    """The least, the most, a small one, or any."""
    low, high = pricing.WORTH_LOW, pricing.WORTH_HIGH
    return rng.choice((low, high, rng.randint(low, 20), rng.randint(low, high)))


def random_frequencies(rng, a):
    """a beside any b; sometimes a for both, 0 for one of them, or the most for both."""
    b = rng.choice((1, 250, 500, 1000, rng.randint(1, 2000), rng.randint(0, pricing.FREQUENCY_HIGH)))
    return rng.choice(((a, b),) * 5 + ((b, a), (a, a), (0, b), (a, 0), (pricing.FREQUENCY_HIGH,) * 2))


def random_lives(rng, count):
    """Of so many lines: mostly 1, some more; of one fund in sixty as many in all as are allowed, or one more or fewer."""
    lives = [rng.choice((1, 1, 1, 1, 1, 2, 3, rng.randint(2, 7))) for _ in range(count)]
    if count and rng.randrange(60) == 0:
        lives[rng.randrange(count)] += pricing.ALL_LIVES_HIGH - sum(lives) + rng.randint(-1, 1)
    return lives


def with_lives(rows, lives):
    return tuple((*row[:4], number) for row, number in zip(rows, lives, strict=True))


def random_text(rng, horizon=None, order=None, groups=None):
    """A fund of up to four group 1 and three group 2 lines."""
    X = rng.randint(0, 8) if horizon is None else horizon
    r = rng.randint(1, pricing.ORDER_HIGH) if order is None else order
    ages = sorted(rng.sample(range(pricing.AGE_HIGH + 1), 6))
    rates = [(age, *random_rate(rng, LARGEST_RATE[r])) for age in ages[:4]]
    rates += [(age, *random_rate(rng, rng.choice((1000, 100000, 500000))))
              for age in ages[4:]]
    counts = groups or (rng.randint(0, 4), rng.randint(0, 3))
    members = [random_member(rng, rng.choice(ages[:4]), 1, X)
               for _ in range(counts[0])]
    members += [random_member(rng, rng.choice(ages), 2, X)
                for _ in range(counts[1])]
    rng.shuffle(members)
    deductible, a = rng.randint(0, X + 1), rng.choice((0, 1, 250, 500, 1000, rng.randint(1, 2000)))
    # The worth, b and the lives are drawn apart, so that a seed gives the funds that it gave without them.
    return Text(horizon=X, order=r, deductible=deductible,
                frequency=random_frequencies(random.Random(repr((rates, a))), a),
                worth=random_worth(random.Random(repr(rates))), rate_rows=tuple(sorted(rates)),
                member_rows=with_lives(members, random_lives(random.Random(repr((rates, members))), len(members))))


def equal_amounts(rng, text):
    rows = [(age, group, max(d, 1), max(d, 1), lives)
            for age, group, d, _, lives in text.member_rows]
    return replace(text, member_rows=tuple(rows))


def zero_amounts(rng, text):
    rows = [(age, group, *rng.choice(((0, e), (d, 0), (0, 0))), lives)
            for age, group, d, e, lives in text.member_rows]
    return replace(text, member_rows=tuple(rows))


def beyond_horizon(rng, text):
    X = text.horizon
    rows = [(age, group, *rng.choice(((d, X + 1), (X + 1, e), (X + 3, X + 2),
                                      (pricing.AMOUNT_HIGH, 1))), lives)
            for age, group, d, e, lives in text.member_rows]
    return replace(text, member_rows=tuple(rows))


def small_rates(rng, text, most):
    """Rates that many lives may have."""
    return replace(text, rate_rows=tuple((age, *random_rate(rng, most)) for age, _, _ in text.rate_rows))


def many_lives(rng, text):
    """Up to thirty lives a line, and some lines twice."""
    rows = with_lives(text.member_rows, [rng.randint(1, 30) for _ in text.member_rows])
    if rows and rng.randrange(2):
        rows += (rng.choice(rows),)
    return replace(small_rates(rng, text, 4000), member_rows=rows)


def all_lives(rng, text):
    """As many lives in all as are allowed or, of one fund in four, one more; lines in any order."""
    rows = list(text.member_rows) or [(0, 1, 0, 0)]
    cuts = sorted(rng.sample(range(1, pricing.ALL_LIVES_HIGH), len(rows) - 1))
    lives = [end - begin for begin, end in zip([0, *cuts], [*cuts, pricing.ALL_LIVES_HIGH])]
    lives[rng.randrange(len(rows))] += rng.randrange(4) == 0
    return replace(small_rates(rng, text, 2000), member_rows=with_lives(rows, lives))


def small_text(rng, kind):
    if kind == "any":
        return random_text(rng)
    if kind == "group1":
        return random_text(rng, groups=(rng.randint(1, 5), 0))
    if kind == "group2":
        return random_text(rng, groups=(0, rng.randint(1, 4)))
    if kind == "none":
        return random_text(rng, groups=(0, 0))
    if kind == "equal":
        return equal_amounts(rng, random_text(rng, groups=(rng.randint(1, 3),
                                                           rng.randint(0, 2))))
    if kind == "zero":
        return zero_amounts(rng, random_text(rng, groups=(2, 2)))
    if kind == "beyond":
        return beyond_horizon(rng, random_text(rng, groups=(2, 2)))
    if kind == "frequency0":
        return replace(random_text(rng, groups=(2, 2)), frequency=0)
    if kind == "deductible0":
        return replace(random_text(rng), deductible=0)
    if kind == "deductibletop":
        text = random_text(rng)
        return replace(text, deductible=text.horizon + 1)
    if kind == "horizon0":
        return random_text(rng, horizon=0)
    if kind == "long":
        return random_text(rng, horizon=rng.randint(12, 24))
    if kind == "lives":
        return many_lives(rng, random_text(rng, order=rng.randint(3, pricing.ORDER_HIGH)))
    if kind == "alllives":
        return all_lives(rng, random_text(rng, order=rng.randint(3, pricing.ORDER_HIGH)))
    return random_text(rng, order=int(kind.removeprefix("order")))


SMALL_KINDS = (["any", "group1", "group2", "none", "equal", "zero", "beyond",
                "frequency0", "deductible0", "deductibletop", "horizon0", "long",
                "lives", "alllives"]
               + [f"order{r}" for r in range(1, pricing.ORDER_HIGH + 1)])


def small_funds(seed, count):
    """Funds of each kind in turn; most are accepted."""
    rng = random.Random(seed)
    cases = []
    for index in range(count):
        kind = SMALL_KINDS[index % len(SMALL_KINDS)]
        cases.append(Case(f"small-{kind}-{index}", small_text(rng, kind).data()))
    return cases


def near_row(rng, ages):
    """An age at a row, beside one, or anywhere."""
    age = rng.choice((*ages, rng.choice(ages) - 1, rng.choice(ages) + 1, rng.randint(0, pricing.AGE_HIGH)))
    return min(max(age, 0), pricing.AGE_HIGH)


def gap_text(rng):
    """A small fund whose members have any age, also where no row has it."""
    text = random_text(rng, horizon=rng.randint(0, 8))
    ages = [row[0] for row in text.rate_rows]
    rows = [(near_row(rng, ages), *row[1:]) for row in text.member_rows]
    # one fund in two has its first row at the least age of its members
    if rows and rng.randrange(2):
        least = min(row[0] for row in rows)
        later = [row for row in text.rate_rows if row[0] > least]
        text = replace(text, rate_rows=((least, *text.rate_rows[0][1:]), *later))
    return replace(text, member_rows=tuple(rows))


def gap_funds(seed, count):
    """Funds with rates for some ages only; some members are below the first row."""
    rng = random.Random(seed)
    return [Case(f"gaps-{index}", gap_text(rng).data()) for index in range(count)]


def step_text(rng):
    """A fund whose deductible is at an edge of the loading or beside one, and its horizon too."""
    deductible = rng.choice(LOADING_EDGES) + rng.randint(-1, 1)
    horizon = deductible + rng.randint(-1, 1)
    return replace(random_text(rng, horizon, rng.randint(1, 4)), deductible=deductible)


def step_funds(seed, count):
    """Funds about the edges of the loading; too large for the exact calculation."""
    rng = random.Random(seed)
    return [Case(f"step-{index}", step_text(rng).data()) for index in range(count)]


def large_funds(seed, count):
    """Many lines and longer horizons; too large for the exact calculation."""
    rng = random.Random(seed)
    cases = []
    for index in range(count):
        text = random_text(rng, horizon=rng.randint(100, 180), order=12,
                           groups=(rng.randint(30, 60), rng.randint(10, 30)))
        rows = tuple((age, rng.randint(0, 9000), rng.randint(0, 9000))
                     for age, _, _ in text.rate_rows)
        text = replace(text, rate_rows=rows, frequency=(rng.randint(0, 1500), rng.randint(0, 1500)))
        cases.append(Case(f"large-{index}", text.data()))
    return cases


def one_by_one_text(rng):
    """A fund of group 1 alone with a longer horizon; the rates are nearly as large as the order allows."""
    X, r, count = rng.randint(60, 240), rng.randint(1, pricing.ORDER_HIGH), rng.randint(15, 50)
    limit = min(largest_rate(r, pricing.TRUNCATION_HIGH // count), 4 * pricing.MILLION // count)
    ages = sorted(rng.sample(range(pricing.AGE_HIGH + 1), 5))
    rates = []
    for age in ages:
        total = rng.randint(limit * 3 // 4, limit)
        q = rng.choice((0, total, rng.randint(0, total)))
        rates.append((age, q, total - q))
    members = tuple((rng.choice(ages), 1, rng.randint(0, X // 4), rng.randint(0, X // 4)) for _ in range(count))
    deductible = rng.randint(0, X + 1)
    return Text(horizon=X, order=r, deductible=deductible, rate_rows=tuple(rates), member_rows=in_fewer_lines(rng, members))


def in_fewer_lines(rng, rows):
    """Lines for several lives, with as many lives in all as there are rows."""
    made, left = [], len(rows)
    while left:
        lives = min(left, rng.choice((1, 1, 2, rng.randint(1, 12))))
        made.append((*rows[len(made)][:4], lives))
        left -= lives
    return tuple(made)


def one_by_one_funds(seed, count):
    """Their exact values need no Poisson part."""
    rng = random.Random(seed)
    return [Case(f"one-by-one-{index}", one_by_one_text(rng).data()) for index in range(count)]


def full_fund():
    """As many rates and members as are allowed, of one life each, with amounts of up to five digits: some 26,000 bytes."""
    rng = random.Random(2030)
    rates = tuple((age, 200 + 30 * age, 100 + 7 * age) for age in range(pricing.AGE_HIGH + 1))
    members = tuple((rng.randint(20, 100), rng.randint(1, 2), rng.choice((0, rng.randint(1, 250), rng.randint(10000, 65535))),
                     rng.randint(10000, 65535)) for _ in range(1000))
    return Text(horizon=250, order=12, deductible=100, rate_rows=rates, member_rows=members)


def overlong_file():
    """The full fund with three times as many members: well-formed lines beyond what is read."""
    fund = full_fund()
    return replace(fund, member_rows=fund.member_rows * 3)


# Funds at each limit

ONE_MEMBER = Text(horizon=3, order=6, deductible=2, rate_rows=((40, 50000, 20000),),
                  member_rows=((40, 1, 1, 2), (40, 2, 2, 1)))


def header_limits():
    texts = {
        "edition-low": replace(ONE_MEMBER, rates=1900, members=1900),
        "edition-high": replace(ONE_MEMBER, rates=2999, members=2999),
        "horizon-low": replace(ONE_MEMBER, horizon=0, deductible=1),
        "horizon-high": replace(ONE_MEMBER, horizon=4095, frequency=10),
        "order-low": replace(ONE_MEMBER, order=1, rate_rows=((40, 500, 20),)),
        "order-high": replace(ONE_MEMBER, order=12),
        "frequency-low": replace(ONE_MEMBER, frequency=0),
        "frequency-high": replace(ONE_MEMBER, frequency=5000),
        "frequency-death-high": replace(ONE_MEMBER, frequency=(5000, 0)),
        "frequency-disability-high": replace(ONE_MEMBER, frequency=(0, 5000)),
        "deductible-low": replace(ONE_MEMBER, deductible=0),
        "deductible-top": replace(ONE_MEMBER, deductible=4),
        "deductible-high": replace(ONE_MEMBER, horizon=4095, deductible=4096,
                                   frequency=0),
        "worth-low": replace(ONE_MEMBER, worth=1),
        "worth-high": replace(ONE_MEMBER, worth=9999999),
    }
    for edge in LOADING_EDGES:
        for deductible in (edge - 1, edge):
            texts[f"loading-{deductible}"] = replace(
                ONE_MEMBER, horizon=deductible - 1, deductible=deductible,
                member_rows=((40, 1, 1, 65535), (40, 2, 65535, 1)))
    return [Case(f"limit-{name}", text.data(), ACCEPTED)
            for name, text in texts.items()]


def row_limits():
    every_age = tuple((age, 100 + age, 50) for age in range(pricing.AGE_HIGH + 1))
    many = tuple((age % 121, 1 + age % 2, age % 7, age % 5)
                 for age in range(pricing.MEMBER_ROWS))
    far = ((0, 1, 65535, 65535), (120, 2, 65535, 65535), (7, 1, 65535, 1))
    whole = (pricing.MILLION, 0), (0, pricing.MILLION), (500000, 500000)
    texts = {
        "121-rates": replace(ONE_MEMBER, rate_rows=every_age),
        "1000-members": replace(ONE_MEMBER, rate_rows=every_age, horizon=9,
                                member_rows=many, frequency=100),
        "1000-group1": replace(ONE_MEMBER, rate_rows=every_age, horizon=9,
                               member_rows=tuple((a, 1, d, e) for a, _, d, e in many)),
        "1000-folded": replace(ONE_MEMBER, rate_rows=((0, 1000000, 0),),
                               member_rows=((0, 1, 0, 0),) * 1000),
        "amounts": replace(ONE_MEMBER, rate_rows=every_age, member_rows=far),
        "rates-whole": replace(
            ONE_MEMBER, horizon=2, frequency=300,
            rate_rows=tuple((age, *rate) for age, rate in enumerate(whole)),
            member_rows=((0, 2, 1, 2), (1, 2, 1, 2), (2, 2, 1, 2), (0, 1, 0, 5))),
        "no-rates-no-members": Text(),
        "1000-lives-one-line": replace(ONE_MEMBER, rate_rows=every_age, member_rows=((0, 1, 3, 2, 1000),)),
        "1000-lives-one-line-group2": replace(ONE_MEMBER, rate_rows=every_age, member_rows=((0, 2, 3, 2, 1000),)),
        "1000-lives-ten-lines": replace(ONE_MEMBER, rate_rows=every_age, horizon=9, member_rows=with_lives(many[:10], [100] * 10)),
        "1000-lives-two-lines": replace(ONE_MEMBER, rate_rows=every_age, member_rows=((9, 1, 2, 2, 999), (8, 2, 1, 1))),
        "1000-lives-two-lines-turned": replace(ONE_MEMBER, rate_rows=every_age, member_rows=((8, 2, 1, 1), (9, 1, 2, 2, 999))),
        "1000-lives-folded": replace(ONE_MEMBER, rate_rows=((0, 1000000, 0),), member_rows=((0, 1, 0, 0, 1000),)),
    }
    return [Case(f"limit-{name}", text.data(), ACCEPTED)
            for name, text in texts.items()]


def in_one_line(text):
    """The same members: neighbouring lines that are equal become one, with their lives added."""
    rows = []
    for *row, lives in text.member_rows:
        if rows and rows[-1][:4] == tuple(row):
            lives += rows.pop()[4]
        rows.append((*row, lives))
    return replace(text, member_rows=tuple(rows))


def load_text(difference):
    """A load of exactly 8x10^12 units plus the difference.

    With a = 9 lambda goes in steps of 9,000 units; one group 1 member is
    chosen so that the rest of the load is such a step.
    """
    for s in range(1, 80000):
        one = pricing.up(pricing.UNIT * s, pricing.MILLION - s)
        steps, rest = divmod(pricing.LOAD_HIGH + difference - one, 9000)
        if rest == 0:
            break
    full, last = divmod(steps, pricing.MILLION)
    rows = ((20, s, 0), (30, pricing.MILLION, 0), (40, last, 0))
    members = ((20, 1, 1, 0),) + ((30, 2, 1, 0),) * full + ((40, 2, 1, 0),)
    return Text(horizon=2, order=12, frequency=9, deductible=1,
                rate_rows=rows, member_rows=members)


def truncation_text(figure, order):
    """Members whose truncation figures add up to exactly this figure."""
    rows, members = [], []
    while figure:
        s = largest_rate(order, figure)
        count, figure = divmod(figure, one_truncation(order, s))
        rows.append((len(rows), s, 0))
        members += [(rows[-1][0], 1, 1, 0)] * count
    return Text(horizon=2, order=order, deductible=1,
                rate_rows=tuple(rows), member_rows=tuple(members))


def wide_text(q, folded):
    """Seven group 2 members with q = 1,000,000, one with this q, X = 6."""
    rows = ((30, pricing.MILLION, 0), (40, q, 0))
    members = (((30, 2, 1, 0),) * 7 + ((40, 2, 1, 0),)
               + ((30, 1, 0, 0),) * folded)
    return Text(horizon=6, order=1, frequency=1000, deductible=3,
                rate_rows=rows, member_rows=members)


def last_bound(text):
    """R at the last x that the recursion reaches."""
    fund = pricing.read_fund(text.data())
    members = pricing.match_and_fold(fund)
    lam = pricing.lambda_units(members, fund.frequency)
    return pricing.distribution(fund, members, lam)[3][-1]


def wide_search(bound, folded):
    """The largest q for which R(6) is at most this bound."""
    low, high = 1, pricing.MILLION
    while low < high:
        middle = (low + high + 1) // 2
        if last_bound(wide_text(middle, folded)) <= bound:
            low = middle
        else:
            high = middle - 1
    return low


def figure_limits():
    made = [("load-exact", load_text(0), ACCEPTED), ("load-below", load_text(-1), ACCEPTED),
            ("load-above", load_text(1), refused(7))]
    for order in (1, 3, 7, 12):
        made.append((f"truncation-exact-{order}", truncation_text(pricing.TRUNCATION_HIGH, order), ACCEPTED))
        made.append((f"truncation-above-{order}", truncation_text(pricing.TRUNCATION_HIGH + 1, order), refused(8)))
    for folded in (0, 3):
        q = wide_search(pricing.BOUND_HIGH, folded)
        made.append((f"wide-not-{folded}", wide_text(q, folded), ACCEPTED))
        made.append((f"wide-just-{folded}", wide_text(q + 1, folded), refused(10, 6)))
    made += [(f"{name}-in-one-line", in_one_line(text), expected) for name, text, expected in made]
    return [Case(f"limit-{name}", text.data(), expected) for name, text, expected in made]


def length_limits():
    """Exactly X + 1 cells, one fewer in each slice, none, and some more."""
    data = ONE_MEMBER.data()
    cases = [Case("limit-lengths-exact", data, ACCEPTED, (4,) * 5),
             Case("limit-lengths-mixed", data, ACCEPTED, (4, 9, 5, 4096, 6)),
             Case("limit-lengths-none", data, refused(9), (0,) * 5)]
    for index in range(4):
        lengths = tuple(3 if k == index else 4 + k for k in range(5))
        cases.append(Case(f"limit-lengths-short-{index}", data, refused(9), lengths))
    return cases + [
        Case("limit-lengths-sums-short", data, refused(9), (9, 8, 7, 6, 3)),
        Case("limit-lengths-sums-exact", data, ACCEPTED, (9, 8, 7, 6, 4)),
        Case("limit-lengths-sums-none", data, refused(9), (4, 4, 4, 4, 0)),
        Case("limit-lengths-sums-more", data, ACCEPTED, (4, 4, 4, 4, 4096)),
    ]


def longest_text():
    """No file without a refusal 1 or 2 is longer; its load is above the limit.  More lives on a line are fewer lines."""
    return Text(2999, 2999, 4095, 12, 5000, 4096, 9999999,
                tuple((age, 500000, 500000) for age in range(pricing.RATE_ROWS)),
                ((120, 2, 65535, 65535),) * pricing.MEMBER_ROWS)


def limit_funds():
    longest = [Case("limit-longest", longest_text().data(), refused(7))]
    return longest + header_limits() + row_limits() + figure_limits() + length_limits()


# Damaged files

GOOD = Text(horizon=5, order=5, frequency=(400, 700), deductible=3,
            rate_rows=((30, 20000, 10000), (40, 30000, 0), (50, 0, 45000)),
            member_rows=((40, 1, 2, 3, 1), (50, 2, 1, 1, 2), (30, 1, 4, 1, 3)))


def with_line(lines, place, line):
    return lines[:place - 1] + [line] + lines[place:]


def numbers_in(line):
    key, _, rest = line.partition(b"=")
    return key + b"=", rest.split(b",")


def with_number(line, index, number):
    key, numbers = numbers_in(line)
    numbers[index] = number
    return key + b",".join(numbers)


def bad_spellings(number):
    """Ways to spell a number that break the form."""
    return {
        "zero-before": b"0" + number, "eight-digits": b"12345678",
        "eight-digits-zero": b"0" * 8, "plus": b"+" + number,
        "minus": b"-" + number, "space-before": b" " + number,
        "space-after": number + b" ", "empty": b"", "letter": number + b"a",
        "underscore": b"1_0", "point": number + b".0", "hex": b"0x1",
        "other-digit": "\u0664".encode(), "superscript": b"\xb2",
        "tab": b"\t" + number, "two-zeros": b"00", "long": b"9" * 60,
    }


def bad_lines(line):
    """Ways to break a line outside its numbers."""
    key, numbers = numbers_in(line)
    rest = b",".join(numbers)
    return {
        "carriage-return": line + b"\r", "space-first": b" " + line,
        "space-last": line + b" ", "upper-case": line.upper(),
        "first-upper": line.capitalize(), "other-key": b"x" + line,
        "key-short": line[1:], "no-equals": key[:-1] + rest,
        "two-equals": key + b"=" + rest, "space-equals": key[:-1] + b" =" + rest,
        "number-more": line + b",0", "comma-last": line + b",",
        "comma-first": key + b"," + rest, "semicolon": key + rest.replace(b",", b";") + b";",
        "key-only": key, "nul": line + b"\0", "mark": b"\xef\xbb\xbf" + line,
        "comment": b"#" + line, "long": line + b"0" * 300,
    }


def spelling_damage():
    lines = GOOD.lines()
    for place, line in enumerate(lines, 1):
        for index, number in enumerate(numbers_in(line)[1]):
            for way, bad in bad_spellings(number).items():
                new = with_number(line, index, bad)
                yield (f"form-{place}-{index}-{way}",
                       joined(with_line(lines, place, new)), refused(1, place, new))
        for way, new in bad_lines(line).items():
            yield (f"form-{place}-{way}", joined(with_line(lines, place, new)),
                   refused(1, place, new))
        fewer = line.rpartition(b",")[0]     # one number fewer, where there are more
        if fewer:
            yield (f"form-{place}-fewer", joined(with_line(lines, place, fewer)),
                   refused(1, place, fewer))


def long_damage():
    """Lines and files longer than any right one."""
    lines = GOOD.lines()
    for place in (1, 7, 9, 14):
        new = lines[place - 1] + b"0" * 70000
        yield (f"form-{place}-huge", joined(with_line(lines, place, new)),
               refused(1, place, new))
    yield "form-huge-open", b"rates=" + b"2" * 70000, refused(1, 1, b"rates=" + b"2" * 70000)
    yield "form-huge-after", GOOD.data() + b" " * 70000, refused(1, 15, b" " * 70000)
    yield "form-many-line-feeds", b"\n" * 70000, refused(1, 1)
    too_many = replace(GOOD, member_rows=((40, 1, 0, 0),) * 4000).lines()
    yield "range-4000-members", joined(too_many), refused(2, 1011, b"member=40,1,0,0,1")


def cut_damage():
    """Files that end early: at a line's first byte, inside it, before its line feed."""
    lines = GOOD.lines()
    for place, line in enumerate(lines, 1):
        before = joined(lines[:place - 1])
        yield f"form-{place}-missing", before, refused(1, place)
        for size in (1, len(line) // 2, len(line) - 1, len(line)):
            yield (f"form-{place}-cut-{size}", before + line[:size],
                   refused(1, place, line[:size]))
        yield (f"form-{place}-empty-line", before + b"\n" + joined(lines[place - 1:]),
               refused(1, place))
        yield f"form-{place}-empty-last", before + b"\n", refused(1, place)
    carriage = GOOD.data().replace(b"\n", b"\r\n")
    yield "form-carriage-returns", carriage, refused(1, 1, lines[0] + b"\r")
    yield ("form-only-carriage-returns", GOOD.data().replace(b"\n", b"\r"),
           refused(1, 1, GOOD.data().replace(b"\n", b"\r")))


def order_damage():
    """Lines in a wrong order, twice, or left out."""
    lines = GOOD.lines()
    for place in range(1, HEADER_LINES + 1):
        left_out = lines[:place - 1] + lines[place:]
        yield (f"form-{place}-left-out", joined(left_out),
               refused(1, place, lines[place]))
        twice = lines[:place] + lines[place - 1:]
        yield (f"form-{place}-twice", joined(twice),
               refused(1, place + 1, lines[place - 1]))
        for other in range(place + 1, len(lines) + 1):
            swapped = with_line(with_line(lines, place, lines[other - 1]),
                                other, lines[place - 1])
            yield (f"form-{place}-swapped-{other}", joined(swapped),
                   refused(1, place, lines[other - 1]))
    late = lines[:9] + lines[10:11] + lines[9:10] + lines[11:]
    yield "form-rate-after-member", joined(late), refused(1, 11, lines[9])
    last = lines[:9] + lines[10:13] + lines[9:10] + lines[13:]
    yield "form-rate-before-end", joined(last), refused(1, 13, lines[9])
    again = lines[:10] + lines[2:3] + lines[10:]
    yield "form-header-again", joined(again), refused(1, 11, lines[2])
    yield "form-no-end", joined(lines[:-1]), refused(1, 14)
    early = lines[:10] + [b"end=0"] + lines[10:]
    yield "form-members-after-end", joined(early), refused(1, 12, lines[10])
    moved = lines[:10] + [lines[13]] + lines[10:13]
    yield "range-end-too-early", joined(moved), refused(2, 11, b"end=3")


# Lines in the place of the frequencies, with their refusal.
FAULTY_FREQUENCIES = (
    (1, b"frequency=1000"), (1, b"frequency=0"), (1, b"frequency=5001"), (1, b"frequency=1000,1000,1000"),
    (1, b"frequency="), (1, b"frequency=,"), (1, b"frequency=1000,"), (1, b"frequency=,1000"), (1, b"frequency=1000,,1000"),
    (1, b"frequency=1000,01"), (1, b"frequency=01,1000"), (1, b"frequency=1000, 1000"), (1, b"frequency=1000;1000"),
    (1, b"frequency=1000,00001000"), (1, b"frequency=10000000,1000"), (1, b"frequency=1000,10000000"),
    (1, b"frequency=5001,x"), (1, b"frequency=x,5001"), (1, b"frequency=5001,5001,"), (1, b"frequency=5001,"),
    (1, b"frequency=1000,frequency=1000"), (1, b"frequencies=1000,1000"),
    (2, b"frequency=5001,0"), (2, b"frequency=1000,5001"), (2, b"frequency=0,9999999"), (2, b"frequency=9999999,5000"),
    (2, b"frequency=5001,5001"),
)


def frequency_damage():
    for number, line in FAULTY_FREQUENCIES:
        yield (f"{'form' if number == 1 else 'range'}-{line.decode()}",
               joined(with_line(GOOD.lines(), 5, line)), refused(number, 5, line))


def worth_damage():
    """The worth where it does not stand, or not as it should."""
    lines = GOOD.lines()
    head, worth, rows = lines[:6], lines[6], lines[7:]
    yield "form-worth-missing", joined(head + rows), refused(1, 7, rows[0])
    yield "form-worth-missing-no-rates", joined(head + rows[3:]), refused(1, 7, rows[3])
    yield "form-worth-missing-no-rows", joined(head + [b"end=0"]), refused(1, 7, b"end=0")
    yield "form-worth-missing-last", joined(head), refused(1, 7)
    yield "form-worth-twice", joined(head + [worth, worth] + rows), refused(1, 8, worth)
    yield ("form-worth-before-deductible", joined(head[:5] + [worth, head[5]] + rows),
           refused(1, 6, worth))
    yield "form-worth-first", joined([worth] + head + rows), refused(1, 1, worth)
    yield "form-worth-after-a-rate", joined(head + rows[:1] + [worth] + rows[1:]), refused(1, 7, rows[0])
    yield "form-worth-again-after-rates", joined(lines[:10] + [worth] + lines[10:]), refused(1, 11, worth)
    yield "form-worth-again-before-end", joined(lines[:13] + [worth] + lines[13:]), refused(1, 14, worth)
    for number, line in ((1, b"worth=10000000"), (1, b"worth=00000001"), (1, b"worth=0100"), (1, b"worth=00"),
                         (1, b"worth=100,100"), (1, b"worth=0,100"), (1, b"worth="), (1, b"worth"), (1, b"worth=1e5"),
                         (1, b"value=100"), (1, b"worths=100"), (1, b"deductible=100"), (1, b"gross=100"), (2, b"worth=0")):
        yield (f"{'form' if number == 1 else 'range'}-worth-{line.decode()}", joined(head + [line] + rows),
               refused(number, 7, line))


def trailing_damage():
    data = GOOD.data()
    place = len(GOOD.lines()) + 1
    for name, bytes_after in {
            "line-feed": b"\n", "letter": b"x", "nul": b"\0", "end-again": b"end=3\n",
            "rate": b"rate=60,0,0\n", "two-lines": b"one\ntwo\n",
            "three-feeds": b"\n\n\n", "copy": data}.items():
        yield (f"form-after-{name}", data + bytes_after,
               refused(1, place, bytes_after.split(b"\n")[0]))
    wrong = joined(GOOD.lines()[:-1] + [b"end=4", b"more"])
    yield "range-end-before-bytes-after", wrong, refused(2, 14, b"end=4")


RANGES = {
    1: ((b"0", b"1899", b"3000", b"9999999"),), 2: ((b"0", b"1899", b"3000", b"9999999"),),
    3: ((b"4096", b"9999999"),), 4: ((b"0", b"13", b"9999999"),),
    5: ((b"5001", b"9999999"),) * 2, 6: ((b"4097", b"9999999"),), 7: ((b"0",),),
    8: ((b"121", b"9999999"), (b"1000001", b"990001"), (b"1000001", b"980001")),
    9: ((b"0", b"29", b"30", b"121", b"9999999"), (b"1000001", b"9999999"),
        (b"970001", b"1000001")),
    10: ((b"40", b"0", b"121"), (b"1000001", b"955001"), (b"1000001",)),
    11: ((b"121", b"9999999"), (b"0", b"3", b"12", b"9999999"),
         (b"65536", b"9999999"), (b"65536", b"9999999"), (b"0", b"1001", b"9999999")),
    12: ((b"121",), (b"0",), (b"65536",), (b"65536",), (b"0", b"1000", b"1001")),
    13: ((b"121", b"9999999"), (b"0", b"3"), (b"65536",), (b"65536",), (b"0", b"998", b"1000", b"9999999")),
    14: ((b"0", b"2", b"4", b"6", b"9999999"),),
}


def range_damage():
    lines = GOOD.lines()
    for place, columns in RANGES.items():
        for index, numbers in enumerate(columns):
            for number in numbers:
                new = with_number(lines[place - 1], index, number)
                yield (f"range-{place}-{index}-{number.decode()}",
                       joined(with_line(lines, place, new)), refused(2, place, new))
    full = tuple((age, 0, 0) for age in range(121))
    for row in (b"rate=120,0,0", b"rate=121,0,0", b"rate=0,0,0"):
        many = replace(GOOD, rate_rows=full).lines()
        yield (f"range-122-rates-{row.decode()}", joined(many[:128] + [row] + many[128:]),
               refused(2, 129, row))
    bad = many[:128] + [b"rate=121,0,00"] + many[128:]
    yield "form-122-rates", joined(bad), refused(1, 129, b"rate=121,0,00")
    too_many = replace(GOOD, member_rows=((40, 1, 0, 0),) * 1001).lines()
    yield "range-1001-members", joined(too_many), refused(2, 1011, b"member=40,1,0,0,1")
    bad = with_line(too_many, 1011, b"member=40,1,0,0,1 ")
    yield "form-1001-members", joined(bad), refused(1, 1011, b"member=40,1,0,0,1 ")
    open_end = joined(too_many[:1010]) + too_many[1010]
    yield "form-1001-cut", open_end, refused(1, 1011, b"member=40,1,0,0,1")


# Lines in the place of the first member, with their refusal.
FAULTY_LIVES = (
    (1, b"member=40,1,2,3"), (1, b"member=40,1,2,3,1,1"), (1, b"member=40,1,2,3,"), (1, b"member=40,1,2,3,,1"), (1, b"member=,40,1,2,3"),
    (1, b"member=40,1,2,3,01"), (1, b"member=40,1,2,3,00"), (1, b"member=40,1,2,3,+1"), (1, b"member=40,1,2,3,1.0"), (1, b"member=40,1,2,3, 1"),
    (1, b"member=40,1,2,3,1 "), (1, b"member=40,1,2,3;1"), (1, b"member=40,1,2,3,x"), (1, b"member=40,1,2,3,10000000"), (1, b"members=40,1,2,3,1"),
    (1, b"member=121,3,65536,65536"), (1, b"member=40,1,2,3,1001,"), (1, b"member=121,1,2,3,x"), (1, b"member=40,1,2,3,lives=1"),
    (2, b"member=40,1,2,3,0"), (2, b"member=40,1,2,3,1001"), (2, b"member=40,1,2,3,9999999"), (2, b"member=121,1,2,3,1000"),
    (2, b"member=40,3,2,3,0"),
)


def lives_damage():
    """The lives of a line, and the lives in all."""
    lines = GOOD.lines()
    for number, line in FAULTY_LIVES:
        yield (f"{'form' if number == 1 else 'range'}-{line.decode()}",
               joined(with_line(lines, 11, line)), refused(number, 11, line))

    def made(*lives):
        return replace(GOOD, member_rows=with_lives(((40, 1, 0, 0),) * len(lives), lives)).lines()

    for lives, place in (((999, 2), 12), ((2, 999), 12), ((1000, 1), 12), ((1, 1000), 12), ((1000, 1000), 12), ((500, 500, 1), 13),
                         ((500, 1, 500), 13), ((1, 998, 2), 13), ((999, 2, 5), 12), ((1000, 1, 0), 12), ((1, 0, 1000), 12),
                         ((333, 334, 334), 13), ((100,) * 11, 21)):
        wrong = made(*lives)
        yield f"range-lives-{'-'.join(map(str, lives))}", joined(wrong), refused(2, place, wrong[place - 1])
    past = made(999, 2)
    yield "range-lives-before-a-later-form", joined(with_line(past, 13, b"end=x")), refused(2, 12, past[11])
    yield "form-before-lives-in-all", joined(with_line(past, 12, past[11] + b",")), refused(1, 12, past[11] + b",")
    yield "form-lives-in-all-open", joined(past[:11]) + past[11], refused(1, 12, past[11])
    yield "range-lives-before-end", joined(with_line(past, 13, b"end=1001")), refused(2, 12, past[11])
    yield "range-end-counts-lives", joined(made(2, 3)[:-1] + [b"end=5"]), refused(2, 13, b"end=5")
    yield "range-end-counts-lives-of-one-line", joined(made(1000)[:-1] + [b"end=1000"]), refused(2, 12, b"end=1000")
    yield "range-lives-before-editions", joined(with_line(past, 2, b"members=2031")), refused(2, 12, past[11])


def precedence_damage():
    """Form before range within a line; the first faulty line decides."""
    lines = GOOD.lines()
    both = {1: b"rates=03000", 3: b"horizon=4096\r", 4: b"order=13,1", 5: b"frequency=5001,01", 6: b"deductible= 4097",
            7: b"worth=0,", 8: b"rate=121,0,00", 9: b"rate=30,2000000,-1", 11: b"member=40,3,1,00,1",
            13: b"member=121,3,65536,65536,1001,1", 14: b"end=04"}
    for place, line in both.items():
        yield (f"form-before-range-{place}", joined(with_line(lines, place, line)),
               refused(1, place, line))
    for place, line in ((3, b"horizon=9999"), (5, b"frequency=0,5001"), (7, b"worth=0"), (8, b"rate=121,0,0"),
                        (11, b"member=0,0,0,0,0"), (14, b"end=9")):
        yield (f"form-open-out-of-range-{place}", joined(lines[:place - 1]) + line,
               refused(1, place, line))
    first = with_line(with_line(lines, 3, b"horizon=4096"), 5, b"frequency=1000")
    yield "range-then-form", joined(first), refused(2, 3, b"horizon=4096")
    second = with_line(with_line(lines, 3, b"horizon=x"), 5, b"frequency=0,5001")
    yield "form-then-range", joined(second), refused(1, 3, b"horizon=x")
    third = with_line(replace(GOOD, members=2031).lines(), 14, b"end=4")
    yield "range-before-edition", joined(third), refused(2, 14, b"end=4")
    fourth = joined(replace(GOOD, members=2031).lines()) + b"\n"
    yield "form-before-edition", fourth, refused(1, 15)
    fifth = with_line(replace(GOOD, members=2031, deductible=7).lines(), 7, b"worth=0")
    yield "range-worth-before-edition", joined(fifth), refused(2, 7, b"worth=0")


def later_refusals():
    """Numbers 3 to 8 and 10, alone and where several conditions are met."""
    half = ((30, 250000, 250000), (40, 499999, 0), (50, 500000, 500000))
    one, two, none = (30, 1, 1, 1), (50, 2, 1, 1), (29, 2, 0, 0)

    def made(**changes):
        return replace(GOOD, **{"rate_rows": half, "frequency": 4000, "order": 12,
                                **changes})

    wide = dict(horizon=30, frequency=1000, member_rows=((50, 2, 1, 0),) * 16)
    yield "edition-3", made(members=2031, deductible=7, member_rows=(none,)), refused(3)
    yield "edition-3-lower", made(members=2029), refused(3)
    yield "deductible-4", made(deductible=7, member_rows=(none,)), refused(4)
    yield "deductible-4-top", made(horizon=4094, deductible=4096), refused(4)
    yield ("unmatched-5-after-half", made(member_rows=(one, none)),
           refused(5, 12, b"member=29,2,0,0,1"))
    yield ("unmatched-5-first-of-two", made(member_rows=(two, none, (0, 1, 1, 1))),
           refused(5, 12, b"member=29,2,0,0,1"))
    yield ("unmatched-5-frequency-0", made(frequency=0, member_rows=((0, 2, 5, 5),)),
           refused(5, 11, b"member=0,2,5,5,1"))
    yield ("unmatched-5-no-rates", made(rate_rows=(), member_rows=((0, 1, 0, 0),)),
           refused(5, 8, b"member=0,1,0,0,1"))
    yield ("unmatched-5-several-lives", made(member_rows=((50, 2, 1, 1, 7), (29, 2, 0, 0, 3))),
           refused(5, 12, b"member=29,2,0,0,3"))
    yield ("half-6-before-load", made(member_rows=(two, two, two, one)),
           refused(6, 14, b"member=30,1,1,1,1"))
    yield ("half-6-several-lives", made(member_rows=((40, 1, 1, 0, 500), (50, 2, 1, 1, 300), (30, 1, 1, 1, 200))),
           refused(6, 13, b"member=30,1,1,1,200"))
    yield ("half-6-whole", made(member_rows=((50, 1, 3, 3),)),
           refused(6, 11, b"member=50,1,3,3,1"))
    yield ("half-6-folded-half", made(member_rows=((50, 1, 0, 3),)),
           refused(6, 11, b"member=50,1,0,3,1"))
    yield ("half-6-beyond", made(member_rows=((30, 1, 65535, 65535),)),
           refused(6, 11, b"member=30,1,65535,65535,1"))
    yield "half-folded", made(member_rows=((50, 1, 0, 0), (30, 1, 0, 0))), ACCEPTED
    yield "load-7-before-order", made(member_rows=((40, 1, 1, 0), two, two)), refused(7)
    # 2^64 units are some 18 x 10^18: a line's E is some 10^20 here, and its mean some 3 x 10^19 or 3 x 10^20
    yield "load-7-1000-lives", made(order=1, member_rows=((40, 1, 65535, 0, 1000),)), refused(7)
    yield "load-7-1000-lives-group2", made(frequency=5000, member_rows=((50, 2, 65535, 65535, 1000),)), refused(7)
    yield "load-7-two-lives", made(member_rows=((40, 1, 1, 0), (50, 2, 1, 1, 2))), refused(7)
    yield "order-8-just-below-half", made(member_rows=((40, 1, 1, 0),)), refused(8)
    yield "order-8-folded-quarter", made(order=3, member_rows=((30, 1, 1, 0),)), refused(8)
    yield "group-2-whole", made(horizon=1, deductible=0, member_rows=(two,)), ACCEPTED
    yield "wide-10", made(**wide), refused(10, 6)
    yield "wide-10-one-line", made(**wide | dict(member_rows=((50, 2, 1, 0, 16),))), refused(10, 6)


def refusal_damage():
    for name, text, expected in later_refusals():
        yield name, text.data(), expected


def short_damage():
    """9 comes after 8 and before 10."""
    wide = wide_text(pricing.MILLION, 0).data()
    order = replace(GOOD, order=1).data()
    form = GOOD.data()[:-1]
    return [
        Case("damaged-short-before-wide", wide, refused(9), (7, 7, 6, 7, 7)),
        Case("damaged-wide-not-short", wide, refused(10, 6), (7,) * 5),
        Case("damaged-order-before-short", order, refused(8), (0,) * 5),
        Case("damaged-form-before-short", form, refused(1, 14, b"end=3"), (0, 1, 2, 3, 4)),
        Case("damaged-sums-short-before-wide", wide, refused(9), (7, 7, 7, 7, 6)),
        Case("damaged-sums-order-before-short", order, refused(8), (6, 6, 6, 6, 5)),
    ]


def damaged(*kinds):
    return [Case(f"damaged-{name}", data, expected) for kind in kinds for name, data, expected in kind()]


def lives_damaged():
    return damaged(lives_damage)


def damaged_files():
    """Files with a known refusal, each way of it."""
    return [Case("damaged-good", GOOD.data(), ACCEPTED)] + damaged(
        spelling_damage, long_damage, cut_damage, order_damage, frequency_damage, worth_damage, trailing_damage,
        range_damage, lives_damage, precedence_damage, refusal_damage) + short_damage()


# Random damage

def random_position(rng, data):
    return rng.randrange(len(data) + 1)


def change_byte(rng, data):
    at = random_position(rng, data[:-1])
    return data[:at] + bytes([rng.choice(b"0123456789,=\n\r ramelt\0\xff")]) + data[at + 1:]


def insert_byte(rng, data):
    at = random_position(rng, data)
    return data[:at] + bytes([rng.choice(b"0123456789,=\n\r -+")]) + data[at:]


def delete_bytes(rng, data):
    at = random_position(rng, data)
    return data[:at] + data[at + rng.randint(1, 4):]


def cut_end(rng, data):
    return data[:random_position(rng, data)]


def cut_start(rng, data):
    return data[random_position(rng, data):]


def double_part(rng, data):
    at, to = sorted((random_position(rng, data), random_position(rng, data)))
    return data[:to] + data[at:]


def double_line(rng, data):
    lines = data.split(b"\n")[:-1]
    at = rng.randrange(len(lines))
    return joined(lines[:at + 1] + lines[at:])


def delete_line(rng, data):
    lines = data.split(b"\n")[:-1]
    at = rng.randrange(len(lines))
    return joined(lines[:at] + lines[at + 1:])


def swap_lines(rng, data):
    lines = data.split(b"\n")[:-1]
    one, two = rng.randrange(len(lines)), rng.randrange(len(lines))
    lines[one], lines[two] = lines[two], lines[one]
    return joined(lines)


def change_number(rng, data):
    lines = data.split(b"\n")[:-1]
    at = rng.randrange(len(lines))
    count = len(numbers_in(lines[at])[1])
    number = rng.choice((0, 1, 2, 3, 12, 13, 120, 121, 999, 1000, 1001, 4095, 4096, 4097, 5000,
                         65535, 65536, 499999, 500000, 1000000, 1000001, 9999999))
    lines[at] = with_number(lines[at], rng.randrange(count), b"%d" % number)
    return joined(lines)


WAYS = (change_byte, insert_byte, delete_bytes, cut_end, cut_start, double_part,
        double_line, delete_line, swap_lines, change_number)


def random_damage(seed, count):
    """Good small files with one or two random changes; the answer is not known."""
    rng = random.Random(seed)
    cases = []
    for index in range(count):
        way = WAYS[index % len(WAYS)]
        data = way(rng, small_text(rng, rng.choice(SMALL_KINDS)).data())
        if data.endswith(b"\n") and data.count(b"\n") > HEADER_LINES + 2 and rng.randrange(4) == 0:
            data = change_byte(rng, data)
        cases.append(Case(f"random-{way.__name__.replace('_', '-')}-{index}", data))
    return cases


if __name__ == "__main__":
    for case in (small_funds(1, 48) + limit_funds() + damaged_files()
                 + random_damage(1, 50)):
        print(case.name, len(case.data), case.expected and case.expected[:2])
