"""Wrong programs for lines with several lives, each told apart by a fund of lives_funds.py.

MUTATIONS holds them with the module and the name of what they change; told_apart() gives the
checks by hand that do not hold under each.  Run as a program, it prints these.
"""

from dataclasses import replace
from unittest import mock

import exact
import lives_funds
import pricing

UNIT = 10 ** 12


def changed(members, change):
    return [replace(m, lives=change(m.lives)) for m in members]


def is_lines(given):
    return isinstance(given, list) and all(isinstance(m, pricing.Folded) for m in given)


def counting(function, change):
    """The function over the same lines with other numbers of lives."""
    return lambda *given: function(*(changed(one, change) if is_lines(one) else one for one in given))


def transform_counting(in_D, in_H):
    def transform(members, fund):
        return right_transform(changed(members, in_D), fund)[0], right_transform(changed(members, in_H), fund)[1]
    return transform


def once(lives):
    return 1


def twice(lives):
    """As if two parts of the program multiplied by the lives."""
    return lives * lives


def as_is(lives):
    return lives


def power_at_once(total, m):
    return pricing.nearest(total * m.p ** m.lives, pricing.MILLION ** m.lives)


def start_of(order):
    """f(0) over single lives in another order than the lines'."""
    return lambda members, lam, horizon: right_start(changed(order(members), once), lam, horizon)


def copies_behind(members):
    """Every line once, and what is left of each behind them."""
    return members + [m for m in members for _ in range(m.lives - 1)]


def by_rates(members):
    return sorted(exact.copies(members), key=lambda m: (m.q, m.i))


def all_equal_together(members):
    """Equal lines joined where the first of them stands."""
    alike = [replace(m, line=None, lives=1) for m in exact.copies(members)]
    return sorted(alike, key=alike.index)


def term_at_once(D, H, n, x, v, lives):
    term = pricing.nearest(lives * x * v, n)
    D[x] += term if n % 2 else -term
    H[x] += lives * x


def triangle_from_lives(D, H, m, order, horizon):
    """v(0,0) is the lives instead of 1."""
    unit, single = pricing.UNIT, replace(m, lives=1)
    with mock.patch.object(pricing, "UNIT", unit * m.lives):
        right_add(D, [0] * len(H), single, order, horizon)
    right_add([0] * len(D), H, m, order, horizon)


def load_at_once(members, lam):
    return lam + sum(pricing.up(m.lives * UNIT * (m.q + m.i), m.p) for m in pricing.group_1(members))


def truncation_at_once(from_start):
    """Taken up once for all lives of a line: at the end, or in each step."""
    def truncation(members, order):
        total = 0
        for m in pricing.group_1(members):
            w = UNIT * (m.lives if from_start else 1)
            for _ in range(order + 1):
                w = pricing.up(w * (m.q + m.i), m.p)
            total += pricing.up((1 if from_start else m.lives) * w * m.p, (m.p - m.q - m.i) * (order + 1))
        return total
    return truncation


def match_with(lives_of):
    """Every line with the lives of another."""
    def match(fund):
        members = right_match(fund)
        return [replace(m, lives=lives_of(members, k)) for k, m in enumerate(members)]
    return match


def match_at_copies(fund):
    """5 and 6 at the place that the first copy would have."""
    lines, before = [], 0
    for m in fund.member_rows:
        lines.append(replace(m, line=replace(m.line, place=m.line.place + before)))
        before += m.lives - 1
    return right_match(replace(fund, member_rows=tuple(lines)))


def rates_alone(members, lam):
    """A life whose rates fold to 0 does not count in R(0)."""
    return right_start_bound([m for m in members if m.q + m.i], lam)


def all_lives_counted(members, lam):
    return right_start_bound([], lam) + pricing.lives_in_all(members)


def limit_at_the_end(reader):
    with mock.patch.object(pricing, "ALL_LIVES_HIGH", 10 ** 9):
        rows = right_read_rows(reader)
    if pricing.lives_in_all(rows[1]) > pricing.ALL_LIVES_HIGH:
        raise pricing.Refusal(pricing.RANGE, reader.place)
    return rows


def asked_a_line_late(member_rows, *row):
    """The lives in all without the line's own."""
    before = pricing.lives_in_all(member_rows) <= pricing.ALL_LIVES_HIGH
    return before and right_in_range([], *row)


def numbers_with(count, made):
    """Member lines of another number of numbers are read too."""
    def numbers_of(line, key, wanted):
        numbers = right_numbers_of(line, key, wanted)
        if numbers is None and key == b"member=":
            others = right_numbers_of(line, key, count)
            return None if others is None else made(others)
        return numbers
    return numbers_of


def lives_before_form(line, key, count):
    """The limit of the lives is asked before the rest of the line is read."""
    if key == b"member=" and line.text.startswith(key):
        lives = [pricing.number_of(text) for text in line.text[len(key):].split(b",")[4:5]]
        if lives and lives[0] is not None and not 1 <= lives[0] <= 1000:
            raise line.refusal(pricing.RANGE)
    return right_numbers_of(line, key, count)


right_transform, right_start, right_add = pricing.transform, pricing.start, pricing.add_group_1_member
right_match, right_start_bound, right_read_rows = pricing.match_and_fold, pricing.start_bound, pricing.read_rows
right_in_range, right_numbers_of = pricing.member_in_range, pricing.numbers_of

# Where lives count.
COUNTED = (
    ("R(0)", pricing, "start_bound"), ("f(0)", pricing, "start"), ("lambda", pricing, "lambda_units"), ("the load", pricing, "load"),
    ("E", pricing, "truncation"), ("D of group 2", pricing, "add_group_2"), ("the mean", pricing, "mean"),
    ("every weight", pricing, "group_2_weights"), ("the exact values of group 1", exact, "group_1_part"),
    ("the exact weights", exact, "weights"), ("the exact lambda", exact, "lambda_value"), ("the exact mean", exact, "mean"),
    ("the exact values of group 1 multiplied out", exact, "group_1_numerators"), ("the denominator", exact, "denominator"),
    ("the exact weights multiplied out", exact, "poisson_numerators"),
)

MUTATIONS = tuple(
    (f"lives {name} in {where}", module, target, counting(getattr(module, target), change))
    for name, change in (("not counted", once), ("counted twice", twice)) for where, module, target in COUNTED) + (
    ("lives not counted in D", pricing, "transform", transform_counting(once, as_is)),
    ("lives counted twice in D", pricing, "transform", transform_counting(twice, as_is)),
    ("lives not counted in H", pricing, "transform", transform_counting(as_is, once)),
    ("lives counted twice in H", pricing, "transform", transform_counting(as_is, twice)),
    ("every line for one life", pricing, "match_and_fold", match_with(lambda members, k: 1)),
    ("the first line's lives for every line", pricing, "match_and_fold", match_with(lambda members, k: members[0].lives)),
    ("the next line's lives", pricing, "match_and_fold", match_with(lambda members, k: members[(k + 1) % len(members)].lives)),
    ("lives of group 1 alone", pricing, "match_and_fold", match_with(lambda members, k: members[k].lives if members[k].group == 1 else 1)),
    ("lives of group 2 alone", pricing, "match_and_fold", match_with(lambda members, k: members[k].lives if members[k].group == 2 else 1)),
    ("f(0) times a power, rounded once", pricing, "times_p", power_at_once),
    ("f(0): every line once, then the other copies", pricing, "start", start_of(copies_behind)),
    ("f(0) in the order of the rates", pricing, "start", start_of(by_rates)),
    ("f(0) with equal lines joined", pricing, "start", start_of(all_equal_together)),
    ("f(0) from the last line on", pricing, "start", start_of(lambda members: exact.copies(members)[::-1])),
    ("a term rounded once for all lives", pricing, "place_term", term_at_once),
    ("the triangle begun with the lives", pricing, "add_group_1_member", triangle_from_lives),
    ("the load taken up once for all lives", pricing, "load", load_at_once),
    ("E taken up once for all lives", pricing, "truncation", truncation_at_once(False)),
    ("w begun with the lives", pricing, "truncation", truncation_at_once(True)),
    ("R(0) without lives that fold", pricing, "start_bound", rates_alone),
    ("R(0) with the lives of group 2", pricing, "start_bound", all_lives_counted),
    ("5 and 6 at the copy's place", pricing, "match_and_fold", match_at_copies),
    ("end= counts lives", pricing, "end_count", pricing.lives_in_all),
    ("lives in all asked at the end", pricing, "read_rows", limit_at_the_end),
    ("lives in all asked a line late", pricing, "member_in_range", asked_a_line_late),
    ("lives in all not asked", pricing, "ALL_LIVES_HIGH", 10 ** 9),
    ("lives in all one fewer", pricing, "ALL_LIVES_HIGH", 999),
    ("lives in all one more", pricing, "ALL_LIVES_HIGH", 1001),
    ("1,000 lives of a line not taken", pricing, "LIVES_HIGH", 999),
    ("0 lives taken", pricing, "LIVES_LOW", 0),
    ("one life not taken", pricing, "LIVES_LOW", 2),
    ("four numbers still read", pricing, "numbers_of", numbers_with(4, lambda numbers: numbers + [1])),
    ("a sixth number passed over", pricing, "numbers_of", numbers_with(6, lambda numbers: numbers[:5])),
    ("the limit of lives before the form", pricing, "numbers_of", lives_before_form),
)


def told_apart():
    """The checks by hand that do not hold under each mutation."""
    for name, module, target, value in MUTATIONS:
        with mock.patch.object(module, target, value):
            yield name, [check for check, holds in lives_funds.fund_checks() if not holds]


if __name__ == "__main__":
    for name, funds in told_apart():
        print("told apart " if funds else "NOT TOLD APART ", f"{name}: {', '.join(funds)}")
