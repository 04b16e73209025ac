"""Checks of the reading of sheets: over random ones, over every rate, and by wrong readers.

checks() and mutation_checks() give pairs (name, holds).
"""

import math
import random
from contextlib import ExitStack
from dataclasses import replace
from unittest import mock

import generate
import generate_sheets
import pricing
import second_reader
import sheet_funds
import sheets
from sheet_funds import without_part

FEW_CELLS = (26, 25, 27, 25, 28)     # enough for the small funds


def answer_of(case, level=0):
    return sheets.price_sheets(*case.sheets(), case.lengths, level)


# Random sheets

def refused_holds(case, answer):
    """Zero figures and cells; the line of the header text, or an empty part."""
    figures = answer.truncation, answer.mean, answer.premium, answer.bound, answer.gross, answer.horizon
    slices = answer.D, answer.H, answer.f, answer.R, answer.F
    part = case.header[answer.start:answer.start + answer.length]
    lines = case.header.split(b"\n")
    named = answer.number in (1, 2) and 1 <= answer.place <= len(lines)
    return (not any(figures) and not any(map(any, slices)) and answer.quantile is None
            and tuple(map(len, slices)) == case.lengths
            and part == (lines[answer.place - 1] if named else b"")
            and (answer.place > 0) == (answer.number in (1, 2, 5, 6, 10, 11))
            and pricing.listing(answer) == f"refused={answer.number},{answer.place}\n")


def reading_holds(case, answer):
    found = (answer.number, answer.place) if answer.number in (1, 2, 11) else None
    return found == second_reader.first_sheet_fault(*case.sheets())


def has_good_header(case):
    """Seven good lines and nothing else: a file of them would lack its line 8."""
    return second_reader.first_fault(case.header) == (1, 8) and case.header.count(b"\n") == 7 and case.header.endswith(b"\n")


def file_of(case):
    """The file with the same rows, or None where some row is not taken or the header is faulty."""
    rows = second_reader.sheet_rows(case.rates, case.members)
    return sheets.file_of(case.header, *rows) if rows is not None and has_good_header(case) else None


def as_file_holds(case, data):
    """Number, place, figures, cells and quantile of the file, and an empty part."""
    level = generate.level_of(case, random.Random(case.name), pricing.price(data, case.lengths))
    return answer_of(case, level) == without_part(pricing.price(data, case.lengths, level))


def random_checks(made):
    for case in made:
        answer = answer_of(case)
        yield f"{case.name}: second reader", reading_holds(case, answer)
        if answer.number:
            yield f"{case.name}: refused", refused_holds(case, answer)
        data = file_of(case)
        if data is not None:
            yield f"{case.name}: as the file", as_file_holds(case, data)


def random_cases(seed, number):
    made = generate_sheets.random_sheets(seed, number)
    return [replace(case, lengths=FEW_CELLS) for case in made]


def spread_checks(made):
    """The random sheets are of every kind of answer that reading has, and most rows are taken."""
    numbers = [answer_of(case).number for case in made]
    compared = sum(file_of(case) is not None for case in made)
    yield f"random sheets: {compared} of {len(made)} have a file with the same rows", compared > len(made) // 2
    for number in (0, 1, 2, 3, 5, 8, 11):
        yield f"random sheets: {numbers.count(number)} answers {number}", number in numbers


# Every rate

def every_rate_checks():
    """All 1,000,001 quotients are taken, each with its k; neither neighbour of one is taken."""
    rate_of, after = sheets.rate_of, math.nextafter
    quotients = [k / 1000000 for k in range(1000001)]
    yield "every rate: taken with its k", all(rate_of(x) == k for k, x in enumerate(quotients))
    yield "every rate: a step above is not taken", all(rate_of(after(x, math.inf)) is None for x in quotients)
    yield "every rate: a step below is not taken", all(rate_of(after(x, -math.inf)) is None for x in quotients)
    yield "every rate: each is above the one before", all(x < y for x, y in zip(quotients, quotients[1:]))
    yield "every rate: as its six digits are read", all(float(f"0.{k:06}") == x for k, x in enumerate(quotients[:-1]))
    sample = random.Random(6).sample(range(1000001), 20000)
    yield ("some rates: the quotient in whole numbers",
           all(second_reader.quotient(k) == quotients[k] for k in (0, 1, 2, 499999, 500000, 999999, 1000000, *sample)))


def whole_checks():
    """Every age, amount and number of lives is taken, and no neighbour of one."""
    for name, low, high in (("age", 0, 120), ("group", 1, 2), ("amount", 0, 65535), ("number of lives", 1, 1000)):
        numbers = range(low, high + 1)
        beside = [x for n in numbers for x in (math.nextafter(n, math.inf), math.nextafter(n, -math.inf), n + 0.5)]
        yield f"every {name}: taken", all(sheets.whole_of(float(n), low, high) == n for n in numbers)
        yield (f"every {name}: nothing beside one is taken",
               all(sheets.whole_of(x, low, high) is None for x in [*beside, low - 1.0, high + 1.0]))


def checks():
    made = random_cases(6, 4000)
    return [*sheet_funds.checks(), *random_checks(sheet_funds.cases()), *random_checks(made), *spread_checks(made),
            *every_rate_checks(), *whole_checks()]


# Wrong readers

right_cell_of, right_whole_of, right_amount_of, right_rate_of = sheets.cell_of, sheets.whole_of, sheets.amount_of, sheets.rate_of
right_rows_of, right_cells_of, right_check_row = sheets.rows_of, sheets.cells_of, sheets.check_row
right_rate_row, right_member_row, right_read_sheets = sheets.rate_row, sheets.member_row, sheets.read_sheets
right_lives_of = sheets.lives_of


def nearest_millionth(cell):
    return None if cell is None or not 0 <= cell <= 1 else round(cell * 1000000)


def millionths_cut_off(cell):
    k = nearest_millionth(cell)
    return k if k is None or int(cell * 1000000) == k and k / 1000000 == cell else None


def product_by_a_millionth(cell):
    k = nearest_millionth(cell)
    return k if k is not None and k * 1e-6 == cell else None


def within_a_step(cell):
    k = nearest_millionth(cell)
    return k if k is not None and abs(k / 1000000 - cell) <= math.ulp(cell) else None


def rate_above_1(cell):
    if cell is None or not 0 <= cell <= 2:
        return None
    k = round(cell * 1000000)
    return k if k / 1000000 == cell else None


def blank_rate(cell):
    return 0 if cell is None else right_rate_of(cell)


def rate_without_sign(cell):
    return None if cell is not None and math.copysign(1, cell) < 0 else right_rate_of(cell)


def fraction_cut_off(cell, low, high):
    return right_whole_of(float(int(cell)) if cell is not None and math.isfinite(cell) else cell, low, high)


def fraction_rounded(cell, low, high):
    return right_whole_of(float(round(cell)) if cell is not None and math.isfinite(cell) else cell, low, high)


def sign_dropped(cell, low, high):
    return right_whole_of(cell if cell is None else abs(cell), low, high)


def minus_zero_refused(cell, low, high):
    return None if cell is not None and math.copysign(1, cell) < 0 else right_whole_of(cell, low, high)


def blank_taken_as_least(cell, low, high):
    """A blank age is 0, a blank group or number of lives 1."""
    return low if cell is None else right_whole_of(cell, low, high)


def one_more(cell, low, high):
    return right_whole_of(cell, low, high + 1)


def one_fewer(cell, low, high):
    return right_whole_of(cell, low, high - 1)


def from_zero(cell, low, high):
    return right_whole_of(cell, 0, high)


def any_whole(cell, low, high):
    """The limit left to the range: 2 where 11 belongs."""
    return right_whole_of(cell, 0, 2.0 ** 40)


def equal_to_nan(x):
    return None if x == math.nan else x


def blank_without_sign(x):
    return None if math.isnan(x) and math.copysign(1, x) > 0 else x


def infinite_is_blank(x):
    return None if math.isinf(x) else right_cell_of(x)


def zero_is_blank(x):
    return None if x == 0 else right_cell_of(x)


def amount_never_blank(cell):
    return right_whole_of(cell, 0, pricing.AMOUNT_HIGH)


def left_over_passed_over(sheet, cells):
    return right_rows_of(sheet[:len(sheet) - len(sheet) % (8 * cells)], cells)


def filled_up(row, cells):
    return right_cells_of(row.ljust(8 * cells, b"\0"), cells)


def most_byte_first(row, cells):
    return right_cells_of(b"".join(one[::-1] for one in generate_sheets.cells_in(row)), cells)


def first_cells_alone(row, cells):
    """The last cell is not looked at."""
    found = right_cells_of(row, cells)
    return found and found[:-1] + [1.0 if cells == sheets.MEMBER_CELLS else 0.0]


def blank_life(cell):
    return 1 if cell is None else right_lives_of(cell)


def no_lives(cell):
    return right_whole_of(cell, 0, pricing.LIVES_HIGH)


def any_lives(cell):
    """The limit left to the range: 2 where 11 belongs."""
    return right_whole_of(cell, 0, 2.0 ** 40)


def four_cells(row):
    """A row as it was before it had lives: one life."""
    with mock.patch.object(sheets, "MEMBER_CELLS", 5):
        return right_member_row(row + generate_sheets.cell(1.0)) if len(row) == 32 else None


def lives_first(row):
    """Lives as the first cell."""
    return right_member_row(row[8:] + row[:8]) if len(row) == 40 else None


def without_lives(in_range):
    """The range of a row but for the lives in all."""
    def holds(before, *row):
        return in_range([] if in_range is pricing.member_in_range else before, *row)
    return holds


def lives_in_all_not_asked(taken, in_range, before, number, last_line):
    right_check_row(taken, without_lives(in_range), before, number, last_line)


def lives_in_all_a_cell(taken, in_range, before, number, last_line):
    """11 where the lives in all pass their limit."""
    if taken is not None and without_lives(in_range)(before, *taken) and not in_range(before, *taken):
        taken = None
    right_check_row(taken, in_range, before, number, last_line)


def lives_in_all_at_the_end(header, rates, members):
    """Asked when every row is read, at the last row."""
    with mock.patch.object(pricing, "ALL_LIVES_HIGH", 10 ** 6):
        fund = right_read_sheets(header, rates, members)
    if pricing.lives_in_all(fund.member_rows) > pricing.ALL_LIVES_HIGH:
        raise fund.member_rows[-1].line.refusal(pricing.RANGE)
    return fund


def range_first(taken, in_range, before, number, last_line):
    """2 before 11 within a row: what is not taken counts as 0, and a group or a number of lives as 1."""
    if taken is not None:
        member = in_range is pricing.member_in_range
        filled = [(1 if member and k in (1, 4) else 0) if n is None else n for k, n in enumerate(taken)]
        if not in_range(before, *filled):
            raise sheets.no_line(last_line + number).refusal(pricing.RANGE)
    right_check_row(None if taken is None or None in taken else taken, in_range, before, number, last_line)


def count_first(taken, in_range, before, number, last_line):
    """One row too many is 2, whatever its cells are."""
    if len(before) == (pricing.MEMBER_ROWS if in_range is pricing.member_in_range else pricing.RATE_ROWS):
        raise sheets.no_line(last_line + number).refusal(pricing.RANGE)
    right_check_row(taken, in_range, before, number, last_line)


def members_on_their_own(taken, in_range, before, number, last_line):
    right_check_row(taken, in_range, before, len(before) + 1 if taken is None else number, last_line)


def range_at_the_row(taken, in_range, before, number, last_line):
    right_check_row(taken, in_range, before, number, 0)


def range_not_asked(taken, in_range, before, number, last_line):
    right_check_row(taken, lambda *row: True, before, number, last_line)


def header_lines(header):
    return header.split(b"\n")[:7]


def after_header_passed_over(header, rates, members):
    return right_read_sheets(generate.joined(header_lines(header)) if header.count(b"\n") >= 7 else header, rates, members)


def all_after_header_handed_back(header, rates, members):
    try:
        return right_read_sheets(header, rates, members)
    except pricing.Refusal as refusal:
        if (refusal.number, refusal.place) == (1, 8):
            start = len(generate.joined(header_lines(header)))
            raise pricing.Refusal(1, 8, start, len(header) - start)
        raise


def members_first(header, rates, members):
    try:
        right_read_sheets(header, b"", members)
    except pricing.Refusal as refusal:
        if refusal.number == sheets.CELL or refusal.place > 8:
            raise pricing.Refusal(refusal.number, refusal.place + len(rates) // 24)
    return right_read_sheets(header, rates, members)


def header_last(header, rates, members):
    right_read_sheets(sheet_funds.HEADER, rates, members)
    return right_read_sheets(header, rates, members)


def editions_first(header, rates, members):
    pricing.check_fund(right_read_sheets(header, b"", b""))
    return right_read_sheets(header, rates, members)


MUTATIONS = (
    ("a rate to the nearest millionth", dict(rate_of=nearest_millionth)),
    ("millionths cut off", dict(rate_of=millionths_cut_off)),
    ("a rate equal to k times 10^-6", dict(rate_of=product_by_a_millionth)),
    ("a rate to within a step", dict(rate_of=within_a_step)),
    ("a rate above 1", dict(rate_of=rate_above_1)),
    ("a blank taken as a rate", dict(rate_of=blank_rate)),
    ("minus zero not taken as a rate", dict(rate_of=rate_without_sign)),
    ("a fraction cut off", dict(whole_of=fraction_cut_off)),
    ("a fraction rounded", dict(whole_of=fraction_rounded)),
    ("a sign dropped", dict(whole_of=sign_dropped)),
    ("minus zero not taken", dict(whole_of=minus_zero_refused)),
    ("a blank taken in an age, a group or lives", dict(whole_of=blank_taken_as_least)),
    ("a blank taken in lives", dict(lives_of=blank_life)),
    ("lives of 0", dict(lives_of=no_lives)),
    ("the limit of lives left to the range", dict(lives_of=any_lives)),
    ("lives limited to 999", dict(lives_of=lambda cell: right_whole_of(cell, 1, 999))),
    ("lives as the first cell", dict(member_row=lives_first)),
    ("rows of four cells still read", dict(MEMBER_CELLS=4, member_row=four_cells)),
    ("lives in all not asked", dict(check_row=lives_in_all_not_asked)),
    ("11 for lives in all", dict(check_row=lives_in_all_a_cell)),
    ("lives in all asked at the end", dict(read_sheets=lives_in_all_at_the_end)),
    ("the most of a field one higher", dict(whole_of=one_more)),
    ("the most of a field one lower", dict(whole_of=one_fewer)),
    ("a group of 0", dict(whole_of=from_zero)),
    ("a limit left to the range", dict(whole_of=any_whole)),
    ("a blank by ==", dict(cell_of=equal_to_nan)),
    ("a blank without a sign alone", dict(cell_of=blank_without_sign)),
    ("an infinite number as a blank", dict(cell_of=infinite_is_blank)),
    ("0 as a blank", dict(cell_of=zero_is_blank)),
    ("a blank amount not taken", dict(amount_of=amount_never_blank)),
    ("bytes left over passed over", dict(rows_of=left_over_passed_over)),
    ("a row cut short filled up", dict(cells_of=filled_up)),
    ("most byte first", dict(cells_of=most_byte_first)),
    ("the last cell not looked at", dict(cells_of=first_cells_alone)),
    ("q and i exchanged", dict(rate_row=lambda row: right_rate_row(row[:8] + row[16:] + row[8:16]))),
    ("d and e exchanged", dict(member_row=lambda row: right_member_row(row[:16] + row[24:32] + row[16:24] + row[32:]))),
    ("range before 11 within a row", dict(joined=lambda numbers: numbers, check_row=range_first)),
    ("the row count before 11", dict(check_row=count_first)),
    ("range at the row", dict(check_row=range_at_the_row)),
    ("range not asked", dict(check_row=range_not_asked)),
    ("the row counted from 0", dict(cell_refusal=lambda number: pricing.Refusal(11, number - 1))),
    ("11 at the file's line", dict(cell_refusal=lambda number: pricing.Refusal(11, number + 7))),
    ("members counted on their own", dict(check_row=members_on_their_own)),
    ("2 for 11", dict(CELL=2)),
    ("a part handed back for a row", dict(no_line=lambda place: pricing.Line(place, 0, b"rates=2030", True))),
    ("a part handed back with 11", dict(cell_refusal=lambda number: pricing.Refusal(11, number, 0, 10))),
    ("a row's line one too low", dict(no_line=lambda place: pricing.Line(place - 1, 0, b"", True))),
    ("bytes after the header passed over", dict(read_sheets=after_header_passed_over)),
    ("all bytes after the header handed back", dict(read_sheets=all_after_header_handed_back)),
    ("members read before rates", dict(read_sheets=members_first)),
    ("the header read last", dict(read_sheets=header_last)),
    ("editions before 11", dict(read_sheets=editions_first)),
)


def failures(checks):
    return sum(not holds for _, holds in checks)


def noticed(known, made):
    """How many checks of each family fail."""
    return {"known": failures((case.name, sheet_funds.refusal_of(case) == case.expected) for case in known),
            "the file": failures(sheet_funds.file_checks()),
            "random": failures(random_checks(made))}


def mutation_checks():
    """Each wrong reader makes at least one check fail; nothing fails without one."""
    stored = sheet_funds.stored()
    known = stored + [case for case in sheet_funds.cases()[len(stored):] if len(case.members) < 20000]
    made = random_cases(8, 160)
    found = [("no mutation: no check of sheets fails", not any(noticed(known, made).values()))]
    for name, changes in MUTATIONS:
        with ExitStack() as stack:
            for target, value in changes.items():
                stack.enter_context(mock.patch.object(sheets, target, value))
            counts = noticed(known, made)
        print(f"  mutation of sheets: {name}: " + ", ".join(f"{family} {number}" for family, number in counts.items()))
        found.append((f"mutation noticed: {name}", any(counts.values())))
    return found
