"""Funds with one frequency for death and another for disability, as METHOD 4 and 5
weigh group 2 (§5).

ROWS holds funds with what their group 2 gives, worked by hand: lambda, its part of D
and its part of the mean, or the number of the refusal.  REFUSED holds the first fund with
other lines in the frequencies' place.  cases() gives all as cases, checks() pairs (name,
holds).  Run as a program, it prints them.
"""

import random
from collections import namedtuple
from dataclasses import replace
from fractions import Fraction
from unittest import mock

import exact
import generate
import pricing
from document_funds import FIRST
from generate import Text

Weighed = namedtuple("Weighed", "lam D mean")     # in units; D by its places

T = 10 ** 9                 # a thousandth, in units
USUAL = (20000, 10000)      # weights of 20 and 10 thousandths where both frequencies are 1,000


def fund(a, b, members, rate=USUAL):
    return Text(order=12, frequency=(a, b), rate_rows=((40, *rate),),
                member_rows=tuple((40, *member) for member in members))


def loaded(a, b, *rates):
    """A group 2 member for each rate."""
    return Text(horizon=2, order=1, frequency=(a, b), rate_rows=tuple((age, *rate) for age, rate in enumerate(rates)),
                member_rows=tuple((age, 2, 1, 2) for age in range(len(rates))))


def mirrored(text):
    """Death and disability exchanged in the frequencies, the rates and the amounts."""
    a, b = text.frequencies()
    return replace(text, frequency=(b, a), rate_rows=tuple((age, i, q) for age, q, i in text.rate_rows),
                   member_rows=tuple((age, group, e, d, lives) for age, group, d, e, lives in text.member_rows))


# 4,999 x 1,600,320 + 1 x 320 is 8 x 10^9; one more millionth of disability is 1,000 units.
AT_THE_LIMIT = loaded(4999, 1, (1000000, 0), (600320, 0), (0, 320))
ABOVE_THE_LIMIT = loaded(4999, 1, (1000000, 0), (600320, 0), (0, 321))
LOADED = Weighed(8000 * T, {1: 7999999680000, 2: 640000}, 8000000320000)

NOTHING = Weighed(0, {}, 0)

ROWS = (
    ("apart", fund(1000, 500, ((2, 1, 3),)), Weighed(25 * T, {1: 20 * T, 3: 15 * T}, 35 * T)),
    ("apart, swapped", fund(500, 1000, ((2, 1, 3),)), Weighed(20 * T, {1: 10 * T, 3: 30 * T}, 40 * T)),
    ("only disability replaced", fund(0, 1000, ((2, 1, 3), (2, 2, 0))), Weighed(10 * T, {3: 30 * T}, 30 * T)),
    ("only death replaced", fund(1000, 0, ((2, 1, 3), (2, 0, 2))), Weighed(20 * T, {1: 20 * T}, 20 * T)),
    ("both 5,000", fund(5000, 5000, ((2, 1, 3),)), Weighed(150 * T, {1: 100 * T, 3: 150 * T}, 250 * T)),
    ("5,000 and 1", fund(5000, 1, ((2, 1, 3),)), Weighed(100010000000, {1: 100 * T, 3: 30000000}, 100030000000)),
    ("d = e", fund(1000, 500, ((2, 2, 2),)), Weighed(25 * T, {2: 50 * T}, 50 * T)),
    ("d = e, swapped", fund(500, 1000, ((2, 2, 2),)), Weighed(20 * T, {2: 40 * T}, 40 * T)),
    ("the d of one is the e of another", fund(1000, 500, ((2, 1, 3), (2, 3, 1))),
     Weighed(50 * T, {1: 25 * T, 3: 75 * T}, 100 * T)),
    ("amounts beyond X", fund(1000, 500, ((2, 9, 3), (2, 1, 65535))), Weighed(50 * T, {1: 20 * T, 3: 15 * T}, 327890 * T)),
    ("all amounts beyond X", fund(1000, 500, ((2, 10, 20),)), Weighed(25 * T, {}, 300 * T)),
    ("both groups", fund(1000, 500, ((1, 2, 1), (2, 1, 3), (2, 4, 2), (1, 3, 3))),
     Weighed(50 * T, {1: 20 * T, 2: 10 * T, 3: 15 * T, 4: 80 * T}, 125 * T)),
    ("both groups, only disability replaced", fund(0, 1000, ((1, 2, 1), (2, 1, 3))), Weighed(10 * T, {3: 30 * T}, 30 * T)),
    ("lambda 0, a = 0 and every i is 0", fund(0, 5000, ((2, 1, 3), (1, 3, 4)), (20000, 0)), NOTHING),
    ("lambda 0, a = 0 and every e is 0", fund(0, 5000, ((2, 1, 0), (1, 3, 4))), NOTHING),
    ("lambda 0, b = 0 and every q is 0", fund(5000, 0, ((2, 1, 3), (1, 3, 4)), (0, 10000)), NOTHING),
    ("lambda 0, b = 0 and every d is 0", fund(5000, 0, ((2, 0, 3), (1, 3, 4))), NOTHING),
    ("lambda 0, neither replaced", fund(0, 0, ((2, 1, 3), (1, 3, 4))), NOTHING),
    ("the smallest lambda, by disability", fund(0, 1, ((2, 1, 1),), (500000, 1)), Weighed(1000, {1: 1000}, 1000)),
    ("load at its limit", AT_THE_LIMIT, LOADED),
    ("load at its limit, mirrored", mirrored(AT_THE_LIMIT), LOADED),
    ("load a step above its limit", ABOVE_THE_LIMIT, 7),
    ("load a step above its limit, mirrored", mirrored(ABOVE_THE_LIMIT), 7),
    ("both 5,000, load at its limit", loaded(5000, 5000, (600000, 400000), (300000, 300000)),
     Weighed(8000 * T, {1: 4500 * T, 2: 7000 * T}, 11500 * T)),
    ("both 5,000, load above its limit", loaded(5000, 5000, (600000, 400000), (300000, 300000), (0, 1)), 7),
)

REFUSED = tuple((line.decode(), generate.joined(generate.with_line(FIRST.lines(), 5, line)), (number, 5, line))
                for number, line in generate.FAULTY_FREQUENCIES)


def cases():
    return ([generate.Case(f"frequencies-{name}", text.data()) for name, text, _ in ROWS]
            + [generate.Case(f"frequencies-{name}", data, wanted) for name, data, wanted in REFUSED])


# Figures worked by hand

def answer_of(text):
    return pricing.price(text.data())


def without_group_2(text):
    return replace(text, member_rows=tuple(row for row in text.member_rows if row[1] == 1))


def weighed(text):
    """What group 2 gives: lambda, and by how much D and the mean differ without it."""
    fund, members = exact.read_and_fold(text.data())
    whole, ones = answer_of(text), answer_of(without_group_2(text))
    places = {x: D - other for x, (D, other) in enumerate(zip(whole.D, ones.D)) if D != other}
    return Weighed(pricing.lambda_units(members, fund.frequency), places, whole.mean - ones.mean)


def row_checks():
    for name, text, wanted in ROWS:
        answer = answer_of(text)
        if isinstance(wanted, int):
            yield f"frequencies: {name}: refused", (answer.number, answer.place) == (wanted, 0)
        else:
            yield f"frequencies: {name}: lambda, D and mean", answer.number == 0 and weighed(text) == wanted


def refused_checks():
    for name, data, wanted in REFUSED:
        answer = pricing.price(data)
        part = data[answer.start:answer.start + answer.length]
        yield f"frequencies: {name}: refused", (answer.number, answer.place, part) == wanted


def exact_of(data):
    """The exact values and the exact premium."""
    fund, members = exact.read_and_fold(data)
    values = exact.values(fund, members)
    return values, exact.premium(fund, members, values)


def is_average_excess(data):
    return exact_of(data)[1] == exact.average_excess(*exact.read_and_fold(data))


def excess_checks():
    """Where lambda is 0, the exact premium is the average excess, and the fund without group 2 prices alike."""
    for name, text, wanted in ROWS:
        if wanted == NOTHING:
            answer = answer_of(text)
            yield f"frequencies: {name}: the average excess", answer.number == 0 and is_average_excess(text.data())
            yield f"frequencies: {name}: as without group 2", answer == answer_of(without_group_2(text))


def swapped_checks():
    """The frequencies of one fund exchanged give other figures."""
    answers = {name: answer_of(text) for name, text, _ in ROWS}
    for name in ("apart", "d = e"):
        one, two = answers[name], answers[f"{name}, swapped"]
        yield (f"frequencies: {name}: swapped, each figure differs",
               all(getattr(one, figure) != getattr(two, figure) for figure in ("mean", "premium", "D", "f", "F")))


def fund_checks():
    return [*row_checks(), *refused_checks(), *excess_checks(), *swapped_checks()]


# The same figures by other ways

def drawn_texts(seed, number):
    """Funds of every kind, some with a member below the first row."""
    rng = random.Random(seed)
    for k in range(number):
        kind = generate.SMALL_KINDS[k % len(generate.SMALL_KINDS)]
        yield generate.gap_text(rng) if k % 5 == 0 else generate.small_text(rng, kind)


def alike(one, two):
    """The same answer but for where the line handed back stands and what it says."""
    return replace(one, start=0, length=0) == replace(two, start=0, length=0)


def mirror_checks():
    """Death and disability play like parts in every figure."""
    for k, text in enumerate(drawn_texts(21, 120)):
        yield f"frequencies: mirrored {k}", alike(answer_of(text), answer_of(mirrored(text)))


def as_rates(text):
    """The frequencies put into the rates: q x a/1000 and i x b/1000 with both at 1,000."""
    a, b = text.frequencies()
    return replace(text, frequency=1000, rate_rows=tuple((age, q * a // 1000, i * b // 1000) for age, q, i in text.rate_rows))


def rate_checks():
    """Group 2 with rates of whole thousandths is priced as with the frequencies in the rates."""
    rng = random.Random(22)
    for k in range(60):
        text = generate.small_text(rng, "group2")
        rates = tuple((age, q // 1000 * 1000, i // 1000 * 1000) for age, q, i in text.rate_rows)
        text = replace(text, frequency=(rng.randint(0, 1000), rng.randint(0, 1000)), rate_rows=rates)
        yield f"frequencies: put into the rates {k}", alike(answer_of(text), answer_of(as_rates(text)))


# The first delivery's file and formulas, with one number a; a line for several lives as so many members

def one_frequency(reader):
    return pricing.read_header(reader, b"frequency=", 0, 5000)


def one_frequency_lambda(members, a):
    return sum((m.q + m.i) * a * 1000 for m in exact.copies(members) if m.group == 2)


def one_frequency_mean(members, a):
    return sum((m.q * m.d + m.i * m.e) * (10 ** 6 if m.group == 1 else a * 1000) for m in exact.copies(members))


def one_frequency_places(D, members, a, horizon):
    for m in exact.copies(members):
        if m.group == 2 and 1 <= m.d <= horizon:
            D[m.d] += m.q * a * 1000 * m.d
        if m.group == 2 and 1 <= m.e <= horizon:
            D[m.e] += m.i * a * 1000 * m.e


def one_frequency_weights(members, a):
    return [pair for m in exact.copies(members) if m.group == 2
            for pair in ((m.d, Fraction(m.q * a * 1000, 10 ** 12)), (m.e, Fraction(m.i * a * 1000, 10 ** 12)))]


def by_document_01():
    """The calculation with the formulas that the request replaces."""
    return mock.patch.multiple(pricing, read_frequencies=one_frequency, lambda_units=one_frequency_lambda,
                               mean=one_frequency_mean, add_group_2=one_frequency_places)


def old_file(text):
    return generate.joined(generate.with_line(text.lines(), 5, b"frequency=%d" % text.frequency))


def old_answer(text):
    """The first delivery's for its file; the lines behind the frequency stand later in the new one."""
    with by_document_01():
        answer = pricing.price(old_file(text), level=generate.USUAL_LEVEL)
    longer = len(text.data()) - len(old_file(text))
    return replace(answer, start=answer.start + longer if answer.length else 0)


def old_exact(text):
    with by_document_01(), mock.patch.object(exact, "weighted_amounts", one_frequency_weights):
        return exact_of(old_file(text))


def equal_texts(seed, number):
    """Funds with a = b."""
    rng = random.Random(seed)
    for text in drawn_texts(seed, number):
        yield replace(text, frequency=rng.choice((0, 1, 700, 1000, pricing.FREQUENCY_HIGH, rng.randint(0, 5000))))


def equal_checks():
    """A file with a = b gives the old figures: the whole answer, and the exact values and premium."""
    for k, text in enumerate(equal_texts(23, 300)):
        answer = pricing.price(text.data(), level=generate.USUAL_LEVEL)
        yield f"frequencies: a = b {k}: the first delivery's answer", answer == old_answer(text)
        if answer.number == 0 and k % 6 == 0:
            yield f"frequencies: a = b {k}: the first delivery's exact values", exact_of(text.data()) == old_exact(text)


def checks():
    return [*fund_checks(), *mirror_checks(), *rate_checks(), *equal_checks()]


if __name__ == "__main__":
    for name, holds in checks():
        print("holds " if holds else "FAILS ", name)
