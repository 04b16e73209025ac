"""Pairs of fund files made from a seed: an old and a new edition's.

A pair begins with a generated fund; the new file is the old one with one thing changed, or
several.  The same seed gives the same pairs.  Run as a program, it names some.
"""

import random
from dataclasses import dataclass, replace

import generate
import pricing


def named(*parts):
    return "-".join(part.__name__.replace("_", "-") if callable(part) else str(part) for part in parts)


@dataclass(frozen=True)
class Pair:
    name: str
    old: bytes
    new: bytes


# New rates

def within(number, most):
    return min(max(number, 0), most)


def near_rate(rng, age, q, i):
    """By some per cent, at least a millionth."""
    q = within(q + rng.choice((-1, 1)) * max(1, q * rng.randint(0, 8) // 100), pricing.RATE_HIGH)
    i = within(i + rng.choice((-1, 1)) * max(1, i * rng.randint(0, 8) // 100), pricing.RATE_HIGH - q)
    return age, q, i


def far_rate(rng, age, q, i):
    """Anything up to twice as much, or the two exchanged."""
    q = within(rng.choice((0, i, q * rng.randint(0, 200) // 100)), pricing.RATE_HIGH)
    return age, q, within(rng.choice((0, i, i * rng.randint(0, 200) // 100)), pricing.RATE_HIGH - q)


def moved_a_little(rng, text):
    return replace(text, rate_rows=tuple(near_rate(rng, *row) for row in text.rate_rows))


def moved_much(rng, text):
    return replace(text, rate_rows=tuple(far_rate(rng, *row) for row in text.rate_rows))


def one_row_moved(rng, text):
    rows = list(text.rate_rows)
    if rows:
        at = rng.randrange(len(rows))
        rows[at] = rng.choice((near_rate, far_rate))(rng, *rows[at])
    return replace(text, rate_rows=tuple(rows))


def rows_left_out(rng, text):
    """Mostly not the first row, so that the members have rates still."""
    first, later = text.rate_rows[:1], [row for row in text.rate_rows[1:] if rng.randrange(3)]
    return replace(text, rate_rows=(*(first if rng.randrange(6) else ()), *later))


def rows_added(rng, text):
    used = {row[0] for row in text.rate_rows}
    free = [age for age in range(pricing.AGE_HIGH + 1) if age not in used]
    added = [(age, *generate.random_rate(rng, generate.LARGEST_RATE[text.order])) for age in rng.sample(free, min(len(free), rng.randint(1, 4)))]
    return replace(text, rate_rows=tuple(sorted((*text.rate_rows, *added))))


def same_rates(rng, text):
    return text


RATES = (moved_a_little, moved_much, one_row_moved, rows_left_out, rows_added, same_rates)


def new_edition(rng, text):
    year = rng.choice((text.rates + 1, rng.randint(pricing.EDITION_LOW, pricing.EDITION_HIGH)))
    return replace(text, rates=year, members=year)


# What else may differ

def other_horizon(rng, text):
    """Not below the deductible's place."""
    return replace(text, horizon=max(text.deductible - 1, 0, text.horizon + rng.choice((-1, 1, 2))))


def other_order(rng, text):
    return replace(text, order=rng.choice([r for r in (text.order - 1, text.order + 1, 12) if 1 <= r <= 12 and r != text.order]))


def other_frequency(rng, text):
    a, b = text.frequencies()
    changed = rng.choice(((a + 1, b), (a, b + 1), (a // 2, b), (a, b // 2), (b, a)))
    return replace(text, frequency=tuple(within(number, pricing.FREQUENCY_HIGH) for number in changed))


def other_deductible(rng, text):
    return replace(text, deductible=rng.randint(0, text.horizon + 1))


def other_worth(rng, text):
    return replace(text, worth=generate.random_worth(rng))


HEADERS = (other_horizon, other_order, other_frequency, other_deductible, other_worth)


def with_row(text, at, row):
    rows = list(text.member_rows)
    rows[at] = row
    return replace(text, member_rows=tuple(rows))


def with_field(rng, text, index, change):
    """One member line with this number changed; a line more where there is none."""
    if not text.member_rows:
        return line_added(rng, text)
    at = rng.randrange(len(text.member_rows))
    row = list(text.member_rows[at])
    row[index] = change(row[index])
    return with_row(text, at, tuple(row))


def other_age(rng, text):
    ages = [row[0] for row in text.rate_rows]
    return with_field(rng, text, 0, lambda age: rng.choice((*ages, within(age + rng.choice((-1, 1)), pricing.AGE_HIGH))))


def other_group(rng, text):
    return with_field(rng, text, 1, lambda group: 3 - group)


def other_death(rng, text):
    return with_field(rng, text, 2, lambda d: within(d + rng.choice((-1, 1, 2)), pricing.AMOUNT_HIGH))


def other_disability(rng, text):
    return with_field(rng, text, 3, lambda e: within(e + rng.choice((-1, 1, 2)), pricing.AMOUNT_HIGH))


def other_lives(rng, text):
    return with_field(rng, text, 4, lambda lives: max(1, lives + rng.choice((-1, 1, 2))))


def any_row(rng, text):
    ages = [row[0] for row in text.rate_rows] or [40]
    return (*generate.random_member(rng, rng.choice(ages), rng.randint(1, 2), text.horizon), rng.choice((1, 1, 2)))


def line_added(rng, text):
    rows = list(text.member_rows)
    rows.insert(rng.choice((len(rows), rng.randint(0, len(rows)))), any_row(rng, text))
    return replace(text, member_rows=tuple(rows))


def line_removed(rng, text):
    rows = list(text.member_rows)
    if rows:
        del rows[rng.choice((-1, rng.randrange(len(rows))))]
    return replace(text, member_rows=tuple(rows))


def lines_exchanged(rng, text):
    rows = list(text.member_rows)
    if len(rows) > 1:
        one, two = rng.sample(range(len(rows)), 2)
        rows[one], rows[two] = rows[two], rows[one]
    return replace(text, member_rows=tuple(rows))


def lives_on_two_lines(rng, text):
    several = [at for at, row in enumerate(text.member_rows) if row[4] > 1]
    if not several:
        return other_lives(rng, text)
    at = rng.choice(several)
    *row, lives = text.member_rows[at]
    first = rng.randint(1, lives - 1)
    rows = text.member_rows[:at] + ((*row, first), (*row, lives - first)) + text.member_rows[at + 1:]
    return replace(text, member_rows=rows)


def no_members(rng, text):
    return replace(text, member_rows=())


MEMBERS = (other_age, other_group, other_death, other_disability, other_lives, line_added, line_removed, lines_exchanged,
           lives_on_two_lines, no_members)


def both(rng, text):
    return rng.choice(HEADERS)(rng, rng.choice(MEMBERS)(rng, text))


def two_headers(rng, text):
    one, two = rng.sample(HEADERS, 2)
    return one(rng, two(rng, text))


def two_members(rng, text):
    return rng.choice(MEMBERS)(rng, rng.choice(MEMBERS)(rng, text))


OTHERS = (*HEADERS, *MEMBERS, both, two_headers, two_members)


# Pairs

def small_text(rng):
    """A fund that is accepted mostly and whose exact values are quick."""
    kind = rng.choice([kind for kind in generate.SMALL_KINDS if kind not in ("long", "alllives")])
    return generate.small_text(rng, kind)


def base_text(rng):
    return rng.choice((small_text, small_text, small_text, generate.gap_text))(rng)


def rates_pair(rng):
    change = rng.choice(RATES)
    old = base_text(rng)
    return named("rates", change), old, change(rng, old)


def edition_pair(rng):
    change = rng.choice(RATES)
    old = base_text(rng)
    return named("edition", change), old, new_edition(rng, change(rng, old))


def other_pair(rng):
    """Something else changed under the same rates."""
    change = rng.choice(OTHERS)
    old = base_text(rng)
    return named("other", change), old, change(rng, old)


def all_pair(rng):
    """Something else changed, the rates and mostly the edition too."""
    change, rates = rng.choice(OTHERS), rng.choice(RATES)
    old = base_text(rng)
    new = change(rng, rates(rng, old))
    return named("all", change, rates), old, new_edition(rng, new) if rng.randrange(3) else new


def damaged_pair(rng):
    """One of the files damaged, or both."""
    name, old, new = rng.choice((rates_pair, edition_pair, all_pair))(rng)
    files, which = [old.data(), new.data()], rng.choice(((0,), (1,), (0, 1)))
    for at in which:
        files[at] = rng.choice(generate.WAYS)(rng, files[at])
    return named("damaged", *(("old", "new")[at] for at in which)), *files


def other_funds_pair(rng):
    return "funds", base_text(rng), base_text(rng)


def twice_pair(rng):
    old = base_text(rng)
    return "twice", old, old


KINDS = (rates_pair, edition_pair, edition_pair, other_pair, all_pair, damaged_pair, other_funds_pair, twice_pair)


def data_of(file):
    return file if isinstance(file, bytes) else file.data()


def pair_of(rng, kind, index):
    """One pair in four with old and new exchanged."""
    name, old, new = kind(rng)
    if rng.randrange(4) == 0:
        name, old, new = named(name, "exchanged"), new, old
    return Pair(named(name, index), data_of(old), data_of(new))


def random_pairs(seed, count):
    """Of each kind in turn."""
    rng = random.Random(seed)
    return [pair_of(rng, KINDS[index % len(KINDS)], index) for index in range(count)]


def long_text(rng):
    """Group 1 alone, with a horizon of up to 240."""
    return generate.one_by_one_text(rng)


def step_text(rng):
    """A few members of group 1 with a deductible about an edge of the loading."""
    text = generate.step_text(rng)
    return replace(text, member_rows=tuple((row[0], 1, *row[2:]) for row in text.member_rows))


def long_pairs(seed, count):
    """Their exact values need no Poisson part: longer horizons, the edges of the loading, any change."""
    rng = random.Random(seed)
    pairs = []
    for index in range(count):
        base = (long_text, step_text)[index % 2](rng)
        changes = rng.choice(((rng.choice(RATES),), (rng.choice(RATES), new_edition), (rng.choice(OTHERS), rng.choice(RATES))))
        new = base
        for change in changes:
            new = change(rng, new)
        new = replace(new, member_rows=tuple((row[0], 1, *row[2:]) for row in new.member_rows))
        old, new = rng.choice(((base, new), (new, base)))
        pairs.append(Pair(named("long", *changes, index), old.data(), new.data()))
    return pairs


def full_pair():
    """The full fund, and it with its rates moved, fewer rows and its last member changed."""
    rng, old = random.Random(2031), generate.full_fund()
    age, group, d, e, lives = old.member_rows[-1]
    new = new_edition(rng, moved_a_little(rng, with_row(old, len(old.member_rows) - 1, (age, group, d, e - 1, lives))))
    return Pair("full", old.data(), replace(new, rate_rows=new.rate_rows[:110]).data())


if __name__ == "__main__":
    for pair in random_pairs(1, 80) + long_pairs(1, 10):
        print(pair.name, len(pair.old), len(pair.new), pricing.price(pair.old).number, pricing.price(pair.new).number)
