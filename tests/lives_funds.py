"""Funds with lines for several lives, as METHOD 3 prices them (§8): a line
counts as so many copies of itself in its spot.

ROWS holds funds with figures worked by hand, or the number and the line of the refusal; REFUSED the
first fund with other lines in the member's place; EXACT funds with their exact values and premium.
Not by hand: the v and the E of one life that the comments name, and f(0) of six lives on lines apart
and together; these are the calculation's, and formulas.py gives them too.
cases() gives the funds that are stored as cases, checks() pairs (name, holds).  Run as a program, it
prints them.
"""

import random
from dataclasses import replace
from fractions import Fraction
from itertools import accumulate
from math import factorial
from unittest import mock

import exact
import generate
import pricing
from document_funds import EIGHT, FIRST
from generate import Text, in_one_line

UNIT = 10 ** 12
NO_TERMS = 9        # an amount beyond every horizon here, so that no term is placed


def ones(*rows, order=12, X=1, M=1):
    """Lines of group 1 with a death rate, an amount and lives; each rate has the age of its place among them."""
    rates = sorted({q for q, _, _ in rows})
    return Text(horizon=X, order=order, deductible=M, rate_rows=tuple((age, q, 0) for age, q in enumerate(rates)),
                member_rows=tuple((rates.index(q), 1, d, 0, lives) for q, d, lives in rows))


def beyond(*pairs):
    """The same with rates and lives, all amounts beyond X: f is 0 but at 0, and R is 1 but at 0."""
    return ones(*((q, NO_TERMS, lives) for q, lives in pairs))


def claims(*lives, q=8000, X=5):
    """Lines of group 2 with q claims of 1 in a million lives; with 1,000 lives and q = 8,000 lambda is 8."""
    return replace(EIGHT, horizon=X, rate_rows=((40, q, 0),), member_rows=tuple((40, 2, 1, 0, number) for number in lives))


def folded(*lives):
    """Lines of group 1 whose rates fold to 0: f is 1 at 0, and R(0) the number of lives."""
    return replace(FIRST, rate_rows=((40, 500000, 0),), member_rows=tuple((40, 1, 0, 0, number) for number in lives))


# E of the first fund is 42866942 for each life: two pass, three do not.  D(1) is twice nearest(10^12/9), D(2) less twice
# nearest(10^12/81).  The products at 2 are 40000000000 and -19999999999, and half of their sum ends in a half.
FIRST_TWO = replace(FIRST, member_rows=((40, 1, 1, 0, 2),))
FIRST_THREE = replace(FIRST, member_rows=((40, 1, 1, 0, 3),))

# v(1,0), v(1,1), v(2,1) and v(2,2) are 3070624360, 20470829069, 125716453 and 419054843.  At 3 a life takes
# nearest(3 x 125716453/2) = 188574680 off D, the half taken up; three lives at once would take 565724039, and f(3) would
# be 351720000.  E is 4453740 for a life; 13361218 if it were taken up for three at once.
BOTH_RATES = Text(horizon=3, order=2, deductible=0, rate_rows=((40, 20000, 3000),), member_rows=((40, 1, 1, 2, 3),))

# Lambda is 2 x 0.025, the start 951229424502, three times multiplied by 0.97.  c is 1 once and 2 from then on.
BOTH_GROUPS = Text(horizon=4, order=12, frequency=(1000, 500), deductible=0, rate_rows=((40, 20000, 10000),),
                   member_rows=((40, 2, 1, 3, 2), (40, 1, NO_TERMS, NO_TERMS, 3)))

# E is 33332080 for each of three lives and 1880 for each of two: 10^8 in all.
MOST_TRUNCATION = ones((94638, NO_TERMS, 3), (9204, NO_TERMS, 2), order=3, X=2, M=0)

# Eight lives with (q + i)/p = 1/4 and six certain claims.
MOST_LOAD = Text(horizon=0, order=12, deductible=0, rate_rows=((30, 200000, 0), (40, 1000000, 0)),
                 member_rows=((40, 2, 1, 0, 6), (30, 1, 1, 0, 8)))

# Three times up(10^12/24) is 125000000001, and lambda 9 x 0.875: one unit above the limit.  Three times 10^12/24 is
# 125000000000, which together would just pass.
LOAD_TAKEN_UP = replace(MOST_LOAD, rate_rows=((30, 40000, 0), (40, 875000, 0)), member_rows=((30, 1, 1, 0, 3), (40, 2, 1, 0, 9)))

EIGHT_LIVES = dict(E=0, mean=8 * UNIT, D=(0, 8 * UNIT, 0, 0, 0, 0), H=(0,) * 6, R=(691, 5529, 22117, 58980, 117961, 188739),
                   F=(335462628, 3019163652, 13753967748, 42380112004, 99632400516, 191236062135))

ROWS = (
    ("the first fund, two lives", FIRST_TWO,
     dict(E=85733884, mean=200000000000, D=(0, 222222222222, -24691358024), H=(0, 2, 4), f=(810000000000, 180000000000, 10000000001),
          R=(2, 4, 5), premium=0, bound=342935544, gross=1)),
    ("the first fund, three lives", FIRST_THREE, (8, 0)),
    ("eight certain claims on a line", in_one_line(EIGHT), EIGHT_LIVES),
    ("eight certain claims on two lines", replace(EIGHT, member_rows=((40, 2, 1, 0, 3), (40, 2, 1, 0, 5))), EIGHT_LIVES),
    ("eight certain claims on a line, X = 6", replace(in_one_line(EIGHT), horizon=6), (10, 6)),
    ("nine certain claims on a line", replace(EIGHT, member_rows=((40, 2, 1, 0, 9),)), (7, 0)),
    ("eight certain claims on a line and a ninth", replace(EIGHT, member_rows=((40, 2, 1, 0, 8), (30, 2, 1, 0, 1))), (7, 0)),
    # 999835009075 after three; a fourth gives 999780018149.500875, and without the roundings before it 999780018149.33
    ("f(0) rounded for each life", beyond((55, 4)),
     dict(E=4, mean=1980000000, D=(0, 0), H=(0, 0), f=(999780018150, 0), R=(4, 1), premium=1760018150, bound=12)),
    # 999670036299 after three, or 999720025299 where the other comes before the third
    ("f(0) in the line's spot", beyond((110, 3), (60, 1)), dict(f=(999610056097, 0), R=(4, 1))),
    ("f(0) in the line's spot, the other first", beyond((60, 1), (110, 3)), dict(f=(999610056096, 0), R=(4, 1))),
    ("f(0), equal lines apart", beyond((110, 2), (60, 2), (110, 2)), dict(E=6, f=(999440128983, 0), R=(6, 1))),
    ("f(0), equal lines together", beyond((110, 2), (110, 2), (60, 2)), dict(E=6, f=(999440128985, 0), R=(6, 1))),
    ("both rates", BOTH_RATES, dict(E=13361220, mean=78000000000, D=(0, 61412487207, 17166581631, -565724040), H=(0, 3, 12, 9),
                                    f=(932574833000, 57271740001, 9763160999, 351719999), R=(3, 5, 9, 6))),
    ("both groups", BOTH_GROUPS, dict(E=3, mean=880 * 10 ** 9, D=(0, 40 * 10 ** 9, 0, 30 * 10 ** 9, 0), H=(0,) * 5,
                                      f=(868161412549, 34726456502, 694529130, 8690874514, 347357169), R=(128, 7, 2, 3, 2))),
    ("1,000 lives on a line", claims(1000), EIGHT_LIVES),
    ("1,000 lives on a line, one unit of rate more", claims(1000, q=8001), (7, 0)),
    ("1,000 lives on ten lines", claims(*[100] * 10), EIGHT_LIVES),
    ("999 lives and one", claims(999, 1), EIGHT_LIVES),
    ("1,000 lives that fold", folded(1000), dict(E=0, mean=0, D=(0, 0, 0), H=(0, 0, 0), f=(UNIT, 0, 0), R=(1000, 1, 1), premium=0, bound=2001)),
    ("1,000 lives that fold on eleven lines", folded(*range(95, 105), 5), dict(E=0, mean=0, f=(UNIT, 0, 0), R=(1000, 1, 1), bound=2001)),
    ("999 lives and two", folded(999, 2), (2, 10)),
    ("999 lives and two, three lines", folded(999, 2, 5), (2, 10)),
    ("two lives and 999", folded(2, 999), (2, 10)),
    ("1,000 lives and one", folded(1000, 1), (2, 10)),
    ("500 lives, 500 and one", folded(500, 500, 1), (2, 11)),
    ("1,001 lines", folded(*[1] * 1001), (2, 1009)),
    ("E at its limit", MOST_TRUNCATION, dict(E=10 ** 8, H=(0, 0, 0), R=(5, 1, 1))),
    ("E one above its limit", replace(MOST_TRUNCATION, rate_rows=MOST_TRUNCATION.rate_rows + ((60, 1, 0),),
                                      member_rows=MOST_TRUNCATION.member_rows + ((60, 1, NO_TERMS, 0, 1),)), (8, 0)),
    ("load at its limit", MOST_LOAD, dict(mean=7600000000000, D=(0,), H=(0,))),
    ("load above its limit", replace(MOST_LOAD, member_rows=((40, 2, 1, 0, 6), (30, 1, 1, 0, 9))), (7, 0)),
    ("load taken up for each life", LOAD_TAKEN_UP, (7, 0)),
    ("unmatched behind several lives", replace(FIRST_TWO, member_rows=((40, 1, 1, 0, 2), (39, 2, 1, 0, 3), (0, 1, 1, 0, 2))), (5, 10)),
    ("unmatched, the first line", replace(FIRST_TWO, member_rows=((39, 2, 1, 0, 3), (40, 1, 1, 0, 2))), (5, 9)),
    ("half behind several lives", replace(FIRST_TWO, rate_rows=((30, 500000, 0), (40, 100000, 0)),
                                          member_rows=((30, 2, 1, 0, 4), (40, 1, 1, 0, 2), (35, 1, 1, 0, 3))), (6, 12)),
)

# Lines in the place of the first fund's member, and behind it, with number and line.
LINES = tuple(((line,), number, 9) for number, line in (
    (1, b"member=40,1,1,0"), (1, b"member=40,1,1,0,1,1"), (1, b"member=40,1,1,0,"), (1, b"member=40,1,1,0,01"), (1, b"member=40,1,1,0,x"),
    (1, b"member=40,1,1,0,1 "), (1, b"member=40,1,1,0,1001,"), (1, b"member=121,1,1,0,x"), (1, b"member=40,1,1,0,10000000"),
    (2, b"member=40,1,1,0,0"), (2, b"member=40,1,1,0,1001"), (2, b"member=40,1,1,0,9999999"))) + (
    ((b"member=40,1,0,0,2", b"end=2"), 2, 10), ((b"member=40,1,0,0,1000", b"end=1000"), 2, 10),
    ((b"member=40,1,0,0,2", b"member=40,1,0,0,3", b"end=5"), 2, 11), ((b"member=40,1,0,0,999", b"member=40,1,0,0,2", b"end=x"), 2, 10),
    ((b"member=40,1,0,0,999", b"member=40,1,0,0,2,"), 1, 10), ((b"member=40,1,0,0,999", b"member=40,1,0,0,2", b"end=2", b"x"), 2, 10),
)


def file_of(lines):
    """The first fund with these lines in its member's place and, where there is none among them, its end line."""
    made = FIRST.lines()
    return generate.joined([*made[:8], *lines, *([] if lines[-1].startswith((b"end=", b"x")) else made[9:])])


REFUSED = tuple((" ".join(map(bytes.decode, lines)), file_of(lines), (number, place, lines[place - 9])) for lines, number, place in LINES)


# Exact values

TENTHS, QUARTER = (40, 100000, 200000), (30, 250000, 0)
# The sum of (-1/2)^j/j! to j = 63.
EXP = sum(Fraction((-1) ** j, 2 ** j * factorial(j)) for j in range(64))


def over(whole, *numerators):
    return [Fraction(n, whole) for n in numerators]


def exact_fund(*members):
    return Text(order=12, rate_rows=(QUARTER, TENTHS), member_rows=members)


# Two of group 2 have lambda 1/2 and the weight 1/2 at 1: the values are EXP x (1, 1/2, 1/8, 1/48, 1/384).  Three of group 1
# with 0.1 at 1 and 0.2 at 2: 343 of 1,000 have no claim, 3 x 49 one of 1, 3 x 7 + 3 x 98 a total of 2, and so on.
ONE_BY_ONE, REPLACED = over(1000, 343, 147, 315, 85, 90), over(384, 384, 192, 48, 8, 1)
EXACT = (
    ("three lives of group 1", exact_fund((40, 1, 1, 2, 3)), ONE_BY_ONE, Fraction(15, 10)),
    ("two lives of group 2", exact_fund((30, 2, 1, 0, 2)), [EXP * value for value in REPLACED], Fraction(1, 2)),
    ("both groups, equal lines apart", exact_fund((40, 1, 1, 2, 2), (30, 2, 1, 0, 2), (40, 1, 1, 2, 1)),
     [EXP * sum(ONE_BY_ONE[k] * REPLACED[x - k] for k in range(x + 1)) for x in range(5)], Fraction(2)),
)


def exact_holds(text, values, mean):
    """The values and the premium, as fractions and as whole numbers; the deductible is 2."""
    if pricing.price(text.data()).number:
        return False
    fund, members = exact.read_and_fold(text.data())
    whole, numbers = exact.denominator(fund, members), exact.numerators(fund, members)
    premium = UNIT * (mean - 2 + 2 * values[0] + values[1])
    return (exact.values(fund, members) == values and over(whole, *numbers) == values
            and exact.premium(fund, members, values) == premium
            and Fraction(exact.premium_numerator(fund, members, whole, numbers), whole) == premium
            and not exact.check_distance(text.data()))


def cases():
    return ([generate.Case(f"lives-{name}", text.data()) for name, text, _ in ROWS]
            + [generate.Case(f"lives-exact-{name}", text.data()) for name, text, _, _ in EXACT]
            + [generate.Case(f"lives-{name}", data, wanted) for name, data, wanted in REFUSED])


# Checks

def answer_of(text):
    return pricing.price(text.data(), level=generate.USUAL_LEVEL)


def figures_of(answer):
    cells = {name: getattr(answer, name)[:answer.horizon + 1] for name in "DHfRF"}
    return dict(E=answer.truncation, mean=answer.mean, premium=answer.premium, bound=answer.bound, gross=answer.gross, **cells)


def row_holds(text, wanted):
    answer, data = answer_of(text), text.data()
    if isinstance(wanted, tuple):
        line = data.split(b"\n")[wanted[1] - 1] if wanted[0] in (2, 5, 6) else b""
        return (answer.number, answer.place, data[answer.start:answer.start + answer.length]) == (*wanted, line)
    return answer.number == 0 and wanted.items() <= figures_of(answer).items()


def refusal_of(data):
    answer = pricing.price(data)
    return answer.number, answer.place, data[answer.start:answer.start + answer.length]


def fund_checks():
    for name, text, wanted in ROWS:
        yield f"lives: {name}", row_holds(text, wanted)
    for name, data, wanted in REFUSED:
        yield f"lives: {name}: refused", refusal_of(data) == wanted
    for name, text, values, mean in EXACT:
        yield f"lives: {name}: exact values", exact_holds(text, values, mean)


# The same fund with its lines written out

def written_out(text):
    return replace(text, member_rows=tuple((*row[:4], 1) for row in text.member_rows for _ in range(row[4])))


def first_member_line(text):
    return len(text.header_lines()) + len(text.rate_rows) + 1


def line_of_copy(text, number):
    """The line that holds the copy of this number, counted from 1."""
    ends = list(accumulate(row[4] for row in text.member_rows))
    return first_member_line(text) + sum(end < number for end in ends)


def prices_as_copies(text):
    """All figures, cells and the quantile are those of the copies; 5 and 6 stand at the line of the first copy at fault,
    and where lives in all pass their limit, the line holds the 1,001st copy."""
    one, two = answer_of(text), answer_of(written_out(text))
    if one.number in (2, 5, 6):
        copy = two.place - first_member_line(text) + 1
        one_line, two_line = (made.lines()[answer.place - 1] for made, answer in ((text, one), (written_out(text), two)))
        if one.place != line_of_copy(text, copy) or one_line.rpartition(b",")[0] != two_line.rpartition(b",")[0]:
            return False
        if one.number == 2 and copy != pricing.ALL_LIVES_HIGH + 1:
            return False
    elif one.place != two.place:
        return False
    return replace(one, place=0, start=0, length=0) == replace(two, place=0, start=0, length=0)


def drawn_texts(seed, number):
    """Funds of every kind, one in three with many lives, some with a member below the first row."""
    rng = random.Random(seed)
    for k in range(number):
        kind = ("lives", "alllives")[k // 3 % 2] if k % 3 == 0 else generate.SMALL_KINDS[k % len(generate.SMALL_KINDS)]
        text = generate.gap_text(rng) if k % 5 == 0 else generate.small_text(rng, kind)
        yield generate.many_lives(rng, text) if k % 10 == 0 else text


def exact_of(text):
    fund, members = exact.read_and_fold(text.data())
    return exact.values(fund, members), exact.numerators(fund, members), exact.denominator(fund, members)


def copy_checks():
    texts = [(name, text) for name, text, _ in ROWS] + list(enumerate(drawn_texts(8, 300)))
    for name, text in texts:
        yield f"lives: {name}: as its lines written out", prices_as_copies(text)
    for name, text, _, _ in EXACT:
        yield f"lives: {name}: exact values as of its lines written out", exact_of(text) == exact_of(written_out(text))


def spread_checks():
    """The drawn funds meet each number that lines for several lives can change."""
    numbers = [answer_of(text).number for text in drawn_texts(8, 300)]
    for number in (0, 2, 5, 7, 8):
        yield f"lives: {numbers.count(number)} drawn funds answer {number}", number in numbers


def checks():
    return [*fund_checks(), *copy_checks(), *spread_checks()]


if __name__ == "__main__":
    for name, holds in checks():
        print("holds " if holds else "FAILS ", name)
