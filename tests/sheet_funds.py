"""Funds that come as sheets, as METHOD 9 reads them (§6, §8).

CASES holds sheets with their number, place and part, worked by hand; SAME gives for those
whose rows are all taken the fund file with the same rows.  cases() gives them all, stored()
those that are short enough to store, checks() pairs (name, holds).  Run as a program, it
prints them.
"""

import math
from dataclasses import replace

import document_funds
import generate
import generate_sheets
import pricing
import sheets
from generate import ACCEPTED, Text, refused
from generate_sheets import BLANKS, LEAST, LEAST_NORMAL, MINUS_ZERO, blank, case_of, row, with_cell

# Rate rows 1 to 3, of the lines 8 to 10; member rows 4 to 6, of the lines 11 to 13.
BASE = Text(horizon=5, order=5, frequency=(400, 700), deductible=3,
            rate_rows=((0, 20000, 10000), (40, 30000, 0), (50, 45000, 0)),
            member_rows=((40, 1, 2, 3, 1), (50, 2, 1, 1, 2), (30, 1, 4, 0, 1)))
HEADER, RATES, MEMBERS = sheets.sheets_of(BASE)
# Rates that a thousand lives may have.
MANY = replace(BASE, rate_rows=((0, 20, 10), (40, 30, 0), (50, 45, 0)))
INFINITE = math.inf
HALF_ROWS = replace(BASE, rate_rows=((0, 20000, 10000), (40, 250000, 250000), (50, 45000, 0)))

CASES = []       # (case, the Text of the file with the same rows, or None)
MORE = []        # the same; too long or too many to store


def add(name, expected, header=HEADER, rates=RATES, members=MEMBERS, same=None, lengths=generate.ENOUGH, to=CASES):
    to.append((generate_sheets.Case(f"sheets-{name}", header, rates, members, expected, lengths), same))


def add_text(name, expected, text):
    """A fund as it would be written."""
    CASES.append((case_of(f"sheets-{name}", text, expected=expected), text))


def with_number(rows, number, column, n):
    """The rows with another number in the row of this number, counted from 1."""
    new = list(rows[number - 1])
    new[column] = n
    return rows[:number - 1] + (tuple(new),) + rows[number:]


def add_rate_cell(name, column, x, taken, base=BASE, to=CASES):
    """A cell of rate row 3: what it is taken as, or None."""
    sheet = with_cell(sheets.rate_sheet(base.rate_rows), 3, 3, column, x)
    if taken is None:
        add(name, refused(11, 3), rates=sheet, to=to)
    else:
        same = replace(base, rate_rows=with_number(base.rate_rows, 3, column, taken))
        add(name, ACCEPTED, rates=sheet, same=same, to=to)


def add_member_cell(name, column, x, taken, base=BASE, to=CASES):
    """A cell of member row 2, which is row 5."""
    header, rates, members = sheets.sheets_of(base)
    sheet = with_cell(members, 5, 2, column, x)
    if taken is None:
        add(name, refused(11, 5), header, rates, sheet, to=to)
    else:
        same = replace(base, member_rows=with_number(base.member_rows, 2, column, taken))
        add(name, ACCEPTED, header, rates, sheet, same=same, to=to)


def add_lives_cell(name, column, x, taken, to=CASES):
    add_member_cell(name, column, x, taken, MANY, to)


# The first delivery's funds

STARRED = {
    "first": ACCEPTED, "first-order-2": refused(8), "empty": ACCEPTED, "eight": ACCEPTED, "eight-horizon-6": refused(10, 6),
    "ninth": refused(7), "two-fifths": refused(8), "half": refused(6, 9), "half-folded": ACCEPTED, "editions": refused(3),
    "deductible-4": refused(4), "deductible-3": ACCEPTED, "no-frequency": ACCEPTED,
}
for name, expected in STARRED.items():
    add_text(f"document-{name}", expected, document_funds.FUNDS[name])

# Cells

NOT_WHOLE = {
    "0.5": 0.5, "-1": -1.0, "-0.5": -0.5, "10^300": 1e300, "infinite": INFINITE, "minus infinite": -INFINITE, "least": LEAST,
    "minus the least": -LEAST, "least normal": LEAST_NORMAL, "2^53": 2.0 ** 53, "2^64": 2.0 ** 64, "minus 2^63": -2.0 ** 63,
    "a rate": 0.045, "most": 1.7976931348623157e308,
}
WHOLES = {
    # of the rates' age, which must stay above the 40 of the row before
    "age": ({"41": 41, "120": 120},
            {"121": 121, "120.99999999999999": 120.99999999999999, "above 120": math.nextafter(120, 200),
             "below 50": math.nextafter(50, 0), "50.5": 50.5, "256 + 50": 306, "2^32 + 50": 2.0 ** 32 + 50}),
    "member age": ({"0": 0, "1": 1, "49": 49, "120": 120},
                   {"121": 121, "120.99999999999999": 120.99999999999999, "above 50": math.nextafter(50, 60), "-50": -50,
                    "119.5": 119.5}),
    "group": ({"1": 1, "2": 2},
              {"0": 0, "3": 3, "1.5": 1.5, "above 2": math.nextafter(2, 3), "below 1": math.nextafter(1, 0),
               "above 1": math.nextafter(1, 2), "below 2": math.nextafter(2, 1), "-2": -2, "258": 258}),
    "death amount": ({"0": 0, "1": 1, "65535": 65535},
                     {"65536": 65536, "65535.5": 65535.5, "above 65535": math.nextafter(65535, 65536),
                      "below 65535": math.nextafter(65535, 0), "65537": 65537, "1.0000000000000002": 1.0000000000000002}),
    "disability amount": ({"0": 0, "1": 1, "65535": 65535}, {"65536": 65536, "65535.5": 65535.5, "-1.5": -1.5}),
    # the other two members have one life each
    "lives": ({"1": 1, "3": 3, "998": 998},
              {"0": 0, "1001": 1001, "above 1": math.nextafter(1, 2), "below 1": math.nextafter(1, 0), "1000.5": 1000.5, "1.5": 1.5,
               "above 1000": math.nextafter(1000, 2000), "-1": -1, "2^32 + 1": 2.0 ** 32 + 1, "2^16 + 1": 65537}),
}


def add_whole(field, adding, column):
    taken, not_taken = WHOLES[field]
    for name, n in taken.items():
        adding(f"{field} {name}", column, n, n)
    for name, x in not_taken.items():
        adding(f"{field} {name}: not taken", column, x, None)
    for name, x in NOT_WHOLE.items():
        adding(f"{field} {name}: not taken", column, x, None, to=CASES if name in ("0.5", "infinite", "least") else MORE)


add_whole("age", add_rate_cell, 0)
add_whole("member age", add_member_cell, 0)
add_whole("group", add_member_cell, 1)
add_whole("death amount", add_member_cell, 2)
add_whole("disability amount", add_member_cell, 3)
add_whole("lives", add_lives_cell, 4)

# Minus zero is 0, and a group of 0 is out of its range.
add("age minus zero", ACCEPTED, rates=with_cell(RATES, 3, 1, 0, MINUS_ZERO), same=BASE)
add_member_cell("member age minus zero", 0, MINUS_ZERO, 0)
add_member_cell("group minus zero: not taken", 1, MINUS_ZERO, None)
add_member_cell("death amount minus zero", 2, MINUS_ZERO, 0)
add_member_cell("disability amount minus zero", 3, MINUS_ZERO, 0)
add_lives_cell("lives minus zero: not taken", 4, MINUS_ZERO, None)
add_rate_cell("q minus zero", 1, MINUS_ZERO, 0)
add_rate_cell("i minus zero", 2, MINUS_ZERO, 0)

# A blank is any NaN, and 0 in an amount alone.
for bits in BLANKS:
    add_member_cell(f"death amount blank {bits:x}", 2, blank(bits), 0, to=CASES if bits in BLANKS[1:7] else MORE)
    add_member_cell(f"disability amount blank {bits:x}", 3, blank(bits), 0, to=MORE)
    for field, column in (("age", 0), ("q", 1), ("i", 2)):
        add_rate_cell(f"{field} blank {bits:x}: not taken", column, blank(bits), None, to=MORE)
    for field, column in (("member age", 0), ("group", 1), ("lives", 4)):
        add_member_cell(f"{field} blank {bits:x}: not taken", column, blank(bits), None, to=MORE)
add_member_cell("disability amount blank", 3, blank(), 0)
add_member_cell("member age blank: not taken", 0, blank(), None)
add_member_cell("group blank: not taken", 1, blank(BLANKS[2]), None)
add_member_cell("lives blank: not taken", 4, blank(), None)
add_rate_cell("age blank: not taken", 0, blank(), None)
add_rate_cell("q blank: not taken", 1, blank(BLANKS[6]), None)
add_rate_cell("i blank: not taken", 2, blank(BLANKS[3]), None)
add("both amounts blank", ACCEPTED, members=with_cell(with_cell(MEMBERS, 5, 3, 2, blank()), 5, 3, 3, blank(BLANKS[1])),
    same=replace(BASE, member_rows=BASE.member_rows[:2] + ((30, 1, 0, 0),)))
add("a row of blanks", refused(11, 7), members=MEMBERS + row(*[blank()] * 5))

# Rates: i is 0 in row 3, and q where i is asked, so that every k may stand there.
ONLY_I = replace(BASE, rate_rows=BASE.rate_rows[:2] + ((50, 0, 45000),))
for k in (0, 1, 2, 3, 249, 45000, 333333, 499999, 500000, 500001, 700000, 999999, 1000000):
    x, few = k / 1000000, CASES if k in (0, 1, 333333, 500000, 999999, 1000000) else MORE
    add_rate_cell(f"q {k} millionths", 1, x, k, to=few)
    add_rate_cell(f"q a step above {k} millionths: not taken", 1, math.nextafter(x, 2), None, to=few)
    add_rate_cell(f"q a step below {k} millionths: not taken", 1, math.nextafter(x, -1), None, to=few)
    add_rate_cell(f"i {k} millionths", 2, x, k, ONLY_I, to=MORE)
    add_rate_cell(f"i a step above {k} millionths: not taken", 2, math.nextafter(x, 2), None, ONLY_I, to=MORE)
    add_rate_cell(f"i a step below {k} millionths: not taken", 2, math.nextafter(x, -1), None, ONLY_I, to=MORE)
# The written number is the quotient; the product by a millionth and the quotient in two steps are not always.
add_rate_cell("q written 0.333333", 1, float("0.333333"), 333333)
add_rate_cell("q 0.5", 1, 0.5, 500000)
add_rate_cell("q 1", 1, 1.0, 1000000)
add_rate_cell("q 5 times 10^-6: not taken", 1, 5 * 1e-6, None)
add_rate_cell("q 15 by 1,000 by 1,000: not taken", 1, 15 / 1000 / 1000, None)
for name, x in {"0.3333333333333333": 1 / 3, "a half millionth": 0.5e-6, "0.4999995": 0.4999995, "1.000001": 1.000001,
                "in millionths": 45000.0, "2": 2.0, "1.5": 1.5, "0.045 as binary32": 0.04500000178813934}.items():
    add_rate_cell(f"q {name}: not taken", 1, x, None)
for name, x in NOT_WHOLE.items():
    if name not in ("0.5", "a rate"):
        add_rate_cell(f"q {name}: not taken", 1, x, None, to=CASES if name in ("-1", "infinite", "least") else MORE)
        add_rate_cell(f"i {name}: not taken", 2, x, None, ONLY_I, to=MORE)
add("rates, most byte first", refused(11, 1),
    rates=b"".join(one[::-1] for one in generate_sheets.cells_in(RATES)))
add("members, most byte first", refused(11, 4),
    members=b"".join(one[::-1] for one in generate_sheets.cells_in(MEMBERS)))

# Rows cut short

EVERY_AGE = tuple((age, 100 + age, 50) for age in range(121))
ALL_RATES = sheets.rate_sheet(EVERY_AGE)
THOUSAND = tuple((k % 121, 1 + k % 2, k % 7, k % 5, 1) for k in range(1000))
ALL_MEMBERS = sheets.member_sheet(THOUSAND)

for size in range(1, 24):
    few = CASES if size in (1, 8, 16, 23) else MORE
    add(f"rates of {size} bytes", refused(11, 1), rates=RATES[:size], to=CASES if size == 1 else MORE)
    add(f"three rates and {size} bytes", refused(11, 4), rates=RATES + row(60, 0, 0)[:size], to=few)
    add(f"121 rates and {size} bytes", refused(11, 122), rates=ALL_RATES + row(120, 0, 0)[:size],
        to=CASES if size in (8, 23) else MORE)
for size in range(1, 40):
    few = CASES if size in (1, 8, 32, 39) else MORE
    add(f"no rates and members of {size} bytes", refused(11, 1), rates=b"", members=MEMBERS[:size], to=CASES if size == 39 else MORE)
    add(f"three rates and members of {size} bytes", refused(11, 4), members=MEMBERS[:size], to=CASES if size == 32 else MORE)
    add(f"three members and {size} bytes", refused(11, 7), members=MEMBERS + MEMBERS[:size], to=few)
    add(f"1000 members and {size} bytes", refused(11, 1122), rates=ALL_RATES, members=ALL_MEMBERS + MEMBERS[:size],
        to=CASES if size == 39 else MORE)
add("a rate short of its last byte before members", refused(11, 3), rates=RATES[:-1])
add("rates with members' cells", refused(11, 1), rates=MEMBERS[:80])
add("members with rates' cells", refused(11, 4), members=RATES)
add("both cut short", refused(11, 3), rates=RATES[:-8], members=MEMBERS[:-8])
# Read as 40, 1, 2, 3 with 50 lives, then 2, 1, 1, 30 with one, and two cells are left over.
add("members of four cells", refused(11, 6), members=row(40, 1, 2, 3) + row(50, 2, 1, 1) + row(30, 1, 4, 0))
add("one member of four cells", refused(11, 4), members=row(40, 1, 2, 3))
# The third row of five has a group of 3.
add("five members of four cells", refused(11, 6), members=row(40, 1, 2, 3) * 5)

# No rows, as many as are allowed, and one more

add("no rates", refused(5, 8), rates=b"", same=replace(BASE, rate_rows=()))
add("no members", ACCEPTED, members=b"", same=replace(BASE, member_rows=()))
add("no rows", ACCEPTED, rates=b"", members=b"", same=replace(BASE, rate_rows=(), member_rows=()))
add("121 rates", ACCEPTED, rates=ALL_RATES, same=replace(BASE, rate_rows=EVERY_AGE))
add("122 rates", refused(2, 129), rates=ALL_RATES + row(120, 0, 0), same=replace(BASE, rate_rows=EVERY_AGE + ((120, 0, 0),)))
add("122 rates, the last with a faulty cell", refused(11, 122), rates=ALL_RATES + row(121, 0, 0))
add("122 rates, the last with a blank", refused(11, 122), rates=ALL_RATES + row(120, 0, blank()))
add("123 rates, the last with a faulty cell", refused(2, 129), rates=ALL_RATES + row(120, 0, 0) + row(121, 0, 0))
add("122 rates and a faulty member", refused(2, 129), rates=ALL_RATES + row(5, 0, 0), members=row(0.5, 1, 1, 1, 1))
add("1000 members", ACCEPTED, rates=ALL_RATES, members=ALL_MEMBERS,
    same=replace(BASE, rate_rows=EVERY_AGE, member_rows=THOUSAND))
add("1001 members", refused(2, 1011), members=ALL_MEMBERS + MEMBERS[:40],
    same=replace(BASE, member_rows=THOUSAND + BASE.member_rows[:1]))
add("121 rates and 1001 members", refused(2, 1129), rates=ALL_RATES, members=ALL_MEMBERS + MEMBERS[:40],
    same=replace(BASE, rate_rows=EVERY_AGE, member_rows=THOUSAND + BASE.member_rows[:1]), to=MORE)
add("1001 members, the last with a faulty cell", refused(11, 1004), members=ALL_MEMBERS + row(40, 3, 0, 0, 1))
add("1002 members, the last with a faulty cell", refused(2, 1011), members=ALL_MEMBERS + MEMBERS[:40] + row(40, 3, 0, 0, 1), to=MORE)
add("1000 members, the last with a faulty cell", refused(11, 1003), members=with_cell(ALL_MEMBERS, 5, 1000, 3, 0.5), to=MORE)
add("1001 members before editions", refused(2, 1011), header=replace(BASE, members=2031).header(),
    members=ALL_MEMBERS + MEMBERS[:40], to=MORE)

# Lives in all: the file's number and line, at the row that passes them; 11 before it within the row


def with_lives(*lives, group=2):
    """Members with these lives, in rows from 4 on, of the lines from 11 on."""
    return replace(MANY, member_rows=tuple((40, group, 1, 2, number) for number in lives))


def add_lives(name, expected, *lives, group=2):
    text = with_lives(*lives, group=group)
    add(f"lives {name}", expected, *sheets.sheets_of(text), same=text)


add_lives("1000 in a row", ACCEPTED, 1000)
add_lives("1000 in a row, group 1", ACCEPTED, 1000, group=1)
add_lives("999 and 1", ACCEPTED, 999, 1)
add_lives("100 in ten rows", ACCEPTED, *[100] * 10)
add_lives("999 and 2", refused(2, 12), 999, 2)
add_lives("1 and 1000", refused(2, 12), 1, 1000)
add_lives("1000 and 1", refused(2, 12), 1000, 1)
add_lives("500, 500 and 1", refused(2, 13), 500, 500, 1)
add_lives("999, 2 and 5", refused(2, 12), 999, 2, 5)
PAST = sheets.member_sheet(with_lives(999, 2).member_rows)
add("lives past the limit and a faulty cell in the row", refused(11, 5), members=with_cell(PAST, 5, 2, 3, 0.5))
add("lives past the limit and a blank age in the row", refused(11, 5), members=with_cell(PAST, 5, 2, 0, blank()))
add("lives past the limit before a later cell", refused(2, 12), members=PAST + row(40, 2, 1, 2, 0))
add("lives past the limit before a row cut short", refused(2, 12), members=PAST + MEMBERS[:39])
add("lives past the limit and cut short", refused(11, 5), members=PAST[:-1])
add("lives past the limit before editions", refused(2, 12), header=replace(BASE, members=2031).header(), members=PAST)
add("lives 1001 beside 1000", refused(11, 5), members=with_cell(PAST, 5, 2, 4, 1001))
add("lives past the limit, no rates", refused(2, 9), rates=b"", members=PAST)

# Range: the file's number and line

add_text("equal ages", refused(2, 9), replace(BASE, rate_rows=((0, 1, 1), (0, 1, 1), (50, 1, 1))))
add_text("falling ages", refused(2, 10), replace(BASE, rate_rows=((10, 1, 1), (20, 1, 1), (19, 1, 1))))
add_text("ages 120 and 0", refused(2, 9), replace(BASE, rate_rows=((120, 1, 1), (0, 1, 1))))
add("ages 0 and minus zero", refused(2, 9), rates=row(0, 0, 0) + row(MINUS_ZERO, 0, 0) + row(50, 0, 0),
    same=replace(BASE, rate_rows=((0, 0, 0), (0, 0, 0), (50, 0, 0))))
add_text("q + i above 1", refused(2, 8), replace(BASE, rate_rows=((0, 500000, 500001),)))
add_text("q + i of 1 and a millionth", refused(2, 10), replace(BASE, rate_rows=BASE.rate_rows[:2] + ((50, 1000000, 1),)))
add_text("q + i twice 1", refused(2, 8), replace(BASE, rate_rows=((0, 1000000, 1000000),)))
add_text("q + i of 1", ACCEPTED, replace(BASE, rate_rows=BASE.rate_rows[:2] + ((50, 100000, 900000),)))

# 11 before 2 within a row; the first row that has either decides

add("equal ages and a faulty rate", refused(11, 2), rates=with_cell(row(0, 0, 0) * 3, 3, 2, 2, 1.5))
add("q + i above 1 and a faulty age", refused(11, 1), rates=row(0.5, 1, 1))
add("a row's range before the next row's cell", refused(2, 9), rates=row(0, 0, 0) * 2 + row(50, blank(), 0))
add("a row's cell before the next row's range", refused(11, 2), rates=row(0, 0, 0) + row(0, 0, 1.5) + row(0, 0, 0))
add("q + i above 1 before a row cut short", refused(2, 9), rates=row(0, 0, 0) + row(1, 1, 1) + row(2, 0, 0)[:9])
add("a rate's range before a member's cell", refused(2, 10), rates=row(0, 0, 0) + row(7, 0, 0) + row(7, 0, 0),
    members=row(blank(), 1, 1, 1, 1))
add("a rate's cell before a member's", refused(11, 3), rates=with_cell(RATES, 3, 3, 1, 2.0), members=row(0.5, 1, 1, 1, 1))
add("a rate cut short before a member's cell", refused(11, 4), rates=RATES + bytes(8), members=row(0.5, 1, 1, 1, 1))
add("two faulty members", refused(11, 5), members=with_cell(with_cell(MEMBERS, 5, 3, 1, 3), 5, 2, 3, -1))

# 11 belongs to reading, and so comes before 3 to 10

OTHER_EDITION = replace(BASE, members=2031)
FAULTY = with_cell(MEMBERS, 5, 3, 2, 0.5)
add("a cell before editions", refused(11, 6), header=OTHER_EDITION.header(), members=FAULTY)
add("a rate's cell before editions", refused(11, 1), header=OTHER_EDITION.header(), rates=with_cell(RATES, 3, 1, 1, 0.5e-6))
add("a row cut short before editions", refused(11, 6), header=OTHER_EDITION.header(), members=MEMBERS[:-1])
add("range before editions", refused(2, 9), header=OTHER_EDITION.header(), rates=row(5, 0, 0) * 2, members=b"")
add_text("editions", refused(3), OTHER_EDITION)
add("a cell before the deductible", refused(11, 6), header=replace(BASE, deductible=7).header(), members=FAULTY)
add("a cell before an unmatched member", refused(11, 4), rates=row(45, 0, 0), members=MEMBERS[:80] + row(30, 0, 1, 1, 1),
    to=MORE)
add("a cell after an unmatched member", refused(11, 3), rates=row(35, 0, 0), members=row(30, 1, 1, 1, 1) + row(40, 3, 1, 1, 1))
add("a cell after a member of half", refused(11, 6), rates=sheets.rate_sheet(HALF_ROWS.rate_rows), members=FAULTY)
add("a cell before short", refused(11, 6), members=FAULTY, lengths=(0,) * 5, to=MORE)
add("short", refused(9), same=BASE, lengths=(6, 6, 6, 6, 5), to=MORE)
add("just long enough", ACCEPTED, same=BASE, lengths=(6,) * 5, to=MORE)

# 5 and 6 keep the line, with an empty part

add_text("unmatched", refused(5, 13), replace(BASE, rate_rows=((31, 1, 1), (40, 1, 1), (50, 1, 1))))
add_text("unmatched, the first of two", refused(5, 10), replace(BASE, rate_rows=((45, 1, 1),), member_rows=BASE.member_rows[1:] * 2))
add_text("unmatched, no rates", refused(5, 8), replace(BASE, rate_rows=()))
add_text("half", refused(6, 11), HALF_ROWS)
add_text("unmatched behind several lives", refused(5, 12), replace(BASE, rate_rows=((31, 1, 1), (40, 1, 1), (50, 1, 1)),
                                                                   member_rows=((40, 1, 2, 3, 90), (30, 2, 1, 1, 7))))
add_text("half behind several lives", refused(6, 12), replace(HALF_ROWS, member_rows=((50, 2, 2, 3, 90), (40, 1, 1, 1, 7))))
add_text("half, the last member", refused(6, 13),
         replace(HALF_ROWS, member_rows=BASE.member_rows[1:] + BASE.member_rows[:1]))
add("half folded by a blank", ACCEPTED, rates=sheets.rate_sheet(((0, 500000, 0),)), members=row(7, 1, blank(), 5, 1),
    same=replace(BASE, rate_rows=((0, 500000, 0),), member_rows=((7, 1, 0, 5),)))
add_text("unmatched before half", refused(5, 13), replace(HALF_ROWS, rate_rows=((31, 1, 1), (40, 250000, 250000), (50, 1, 1))))

# The header text

LINES = BASE.header_lines()
OUT_OF_RANGE = (b"rates=1899", b"members=3000", b"horizon=4096", b"order=13", b"frequency=0,5001", b"deductible=4097", b"worth=0")


def add_header(name, expected, header, to=CASES):
    add(f"header {name}", expected, header=header, rates=with_cell(RATES, 3, 1, 0, blank()), members=MEMBERS[:-1], to=to)


for place, line in enumerate(LINES, 1):
    before, after = generate.joined(LINES[:place - 1]), generate.joined(LINES[place:])
    add_header(f"without line {place} and what follows", refused(1, place), before)
    add_header(f"with line {place} without its line feed", refused(1, place, line), before + line, CASES if place in (1, 7) else MORE)
    add_header(f"with half of line {place}", refused(1, place, line[:4]), before + line[:4], MORE)
    add_header(f"with line {place} spelled badly", refused(1, place, line + b" "), before + line + b" \n" + after)
    add_header(f"with line {place} out of range", refused(2, place, OUT_OF_RANGE[place - 1]),
               before + OUT_OF_RANGE[place - 1] + b"\n" + after)
    add_header(f"with an empty line before line {place}", refused(1, place), before + b"\n" + line + b"\n" + after, MORE)
    add_header(f"with line {place} twice", refused(1, place + 1, line), before + (line + b"\n") * 2 + after, MORE)
for name, after, part in (
        ("a byte", b"x", b"x"), ("a line feed", b"\n", b""), ("a carriage return", b"\r", b"\r"), ("a nul", b"\0", b"\0"),
        ("a rate line", b"rate=0,20000,10000\n", b"rate=0,20000,10000"), ("an end line", b"end=0\n", b"end=0"),
        ("an open line", b"end=0", b"end=0"), ("two lines", b"one\ntwo\n", b"one"), ("an empty line and another", b"\nend=0\n", b""),
        ("the worth again", b"worth=100\n", b"worth=100"), ("the rest of the file", BASE.data()[len(HEADER):], b"rate=0,20000,10000"),
        # 0.045, which stands behind seven cells, begins with the byte of a line feed
        ("a sheet", RATES, RATES[:56])):
    add_header(f"and {name} after it", refused(1, 8, part), HEADER + after)
add("header and bytes after it, editions that differ", refused(1, 8, b"x"), header=OTHER_EDITION.header() + b"x")
add("header and bytes after it, no rows", refused(1, 8, b"end=0"), header=HEADER + b"end=0\n", rates=b"", members=b"")
add("nothing at all", refused(1, 1), header=b"", rates=b"", members=b"")
add("rows without a header", refused(1, 1), header=b"")


def cases():
    return [case for case, _ in CASES + MORE]


def stored():
    return [case for case, _ in CASES]


# Checks

def answer_of(case, level=0):
    return sheets.price_sheets(*case.sheets(), case.lengths, level)


def without_part(answer):
    return replace(answer, start=0, length=0)


def refusal_of(case):
    answer = answer_of(case)
    return answer.number, answer.place, case.header[answer.start:answer.start + answer.length]


def known_checks():
    for case, _ in CASES + MORE:
        yield f"{case.name}: number, place and part", refusal_of(case) == case.expected


def file_checks():
    """Sheets whose rows are taken are priced as the file, but for the part."""
    level = generate.USUAL_LEVEL
    for case, same in CASES + MORE:
        if same is not None:
            wanted = pricing.price(same.data(), case.lengths, level)
            yield f"{case.name}: as the file", answer_of(case, level) == without_part(wanted)


def figure_checks():
    """The first delivery's listings, from sheets."""
    for name, text, listing in (("first", document_funds.FIRST, document_funds.FIRST_LISTING),
                                ("empty", document_funds.EMPTY, document_funds.EMPTY_LISTING)):
        answer = sheets.price_sheets(*sheets.sheets_of(text))
        yield f"sheets: the {name} fund's listing", pricing.listing(answer) == listing
    eight = sheets.price_sheets(*sheets.sheets_of(document_funds.EIGHT))
    yield "sheets: eight members: R(0) = 691 and R(5) = 188,739", (eight.R[0], eight.R[5]) == (691, 188739)
    # 40 is 0x4044000000000000, 0.1 is 0x3fb999999999999a.
    yield ("sheets: the first fund's rate row, byte for byte", sheets.sheets_of(document_funds.FIRST)[1]
           == bytes.fromhex("0000000000004440 9a9999999999b93f 0000000000000000"))
    yield ("sheets: the first fund's member row, byte for byte", sheets.sheets_of(document_funds.FIRST)[2]
           == bytes.fromhex("0000000000004440 000000000000f03f 000000000000f03f 0000000000000000 000000000000f03f"))


def checks():
    return [*known_checks(), *file_checks(), *figure_checks()]


if __name__ == "__main__":
    for name, holds in checks():
        print("holds " if holds else "FAILS ", name)
