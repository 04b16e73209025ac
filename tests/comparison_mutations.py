"""Wrong programs that compare two files, each told apart by a pair of comparison_funds.py.

MUTATIONS holds them with the name of what they change; told_apart() gives the pairs worked by
hand that are answered otherwise under each.  Run as a program, it prints these.
"""

from dataclasses import replace
from unittest import mock

import comparison
import comparison_funds
import pricing
from comparison import CENTIME_DIGITS, HEADER_LINES, UNIT_DIGITS

right_excess, right_ends, right_moved = comparison.excess, comparison.gross_ends, comparison.moved
right_header, right_member, right_line = comparison.header_difference, comparison.member_difference, comparison.line_of
right_pointed, right_file, right_others = comparison.pointed, comparison.file_lines, comparison.other_lines
right_move, right_lines = comparison.move_lines, comparison.member_lines


# Figures

def excess_of(figure, rounded=pricing.up, and_one=1):
    """Of the bound, the worth and the loading."""
    def excess(data, answer):
        fund = pricing.read_fund(data)
        return rounded(figure(answer.bound, fund.worth, pricing.loading(fund.deductible)), pricing.GROSS_DIVISOR) + and_one
    return excess


def twice_within(bound, worth, loading):
    return 2 * bound * worth * loading


def down(numerator, divisor):
    return numerator // divisor


def moved_with(change):
    """The move with some of its figures changed."""
    return lambda *given: replace(right_moved(*given), **change(right_moved(*given)))


def turned(old, new, old_answer, new_answer):
    return right_moved(new, old, new_answer, old_answer)


def compared_in_turn(old, new):
    """The new file's block first, and the move from new to old."""
    answers = pricing.price(new), pricing.price(old)
    return comparison.Comparison(*answers, None if any(a.number for a in answers) else comparison.moved(new, old, *answers))


def compared_always(allowed):
    """A move, as if a refused file's figures were 0, where so many files are refused."""
    def compare(old, new):
        answers = pricing.price(old), pricing.price(new)
        refused = sum(answer.number > 0 for answer in answers)
        if not refused:
            return comparison.Comparison(*answers, comparison.moved(old, new, *answers))
        premium, bound, gross = (answers[1].premium - answers[0].premium, answers[0].bound + answers[1].bound,
                                 answers[1].gross - answers[0].gross)
        move = comparison.Move(premium, bound, premium - bound, premium + bound, gross, gross - 1, gross + 1, 0, 0, 0, 0)
        return comparison.Comparison(*answers, move if refused in allowed else None)
    return compare


# What differs

def header_without(place):
    """This header line is not compared."""
    def header_difference(old, new):
        lines = [comparison.lines_of(data)[:HEADER_LINES] for data in (old, new)]
        lines[1][place - 1] = lines[0][place - 1]
        return right_header(*(b"".join(line + b"\n" for line in found) for found in lines))
    return header_difference


def last_header(old, new):
    found = [place for place in range(3, HEADER_LINES + 1) if comparison.lines_of(old)[place - 1] != comparison.lines_of(new)[place - 1]]
    return found[-1] if found else 0


def first_frequency_alone(old, new):
    """The second number of the frequencies is not compared."""
    def cut(data):
        lines = comparison.lines_of(data)
        return b"".join(line + b"\n" for line in lines[:4] + [lines[4].split(b",")[0]] + lines[5:])
    return right_header(cut(old), cut(new))


def rates_in_header(old, new):
    """Rate lines count as lines of the header."""
    if right_header(old, new):
        return right_header(old, new)
    left, right = comparison.rate_lines(old), comparison.rate_lines(new)
    return 0 if left == right else HEADER_LINES + 1 + next(
        (at for at, rows in enumerate(zip(left, right)) if rows[0] != rows[1]), min(len(left), len(right)))


def rates_in_members(old, new):
    """Rate lines count as member lines."""
    def rows(data):
        return comparison.lines_of(data)[HEADER_LINES:-1]
    return next((at + 1 for at in range(max(len(rows(old)), len(rows(new)))) if rows(old)[at:at + 1] != rows(new)[at:at + 1]), 0)


def by_count(old, new):
    left, right = len(right_lines(old)), len(right_lines(new))
    return 0 if left == right else min(left, right) + 1


def within_the_shorter(old, new):
    """Lines that only one file has are passed over."""
    return next((number for number, (left, right) in enumerate(zip(right_lines(old), right_lines(new)), 1) if left != right), 0)


def by_end(old, new):
    """A line that only one file has is told as the longer file's last line."""
    left, right = len(right_lines(old)), len(right_lines(new))
    found = within_the_shorter(old, new)
    return found or (0 if left == right else max(left, right) + 1)


def last_member(old, new):
    left, right = right_lines(old), right_lines(new)
    return next((at + 1 for at in reversed(range(max(len(left), len(right)))) if left[at:at + 1] != right[at:at + 1]), 0)


def in_any_order(old, new):
    return right_member(old, new) if sorted(right_lines(old)) != sorted(right_lines(new)) else 0


def as_lives(old, new):
    """The lives one after the other, however they stand on lines."""
    def lives(data):
        return [line.rpartition(b",")[0] for line in right_lines(data) for _ in range(int(line.rpartition(b",")[2]))]
    return 0 if lives(old) == lives(new) else right_member(old, new)


def lines_without(index):
    """This number of a member line is not compared."""
    def member_lines(data):
        found = [line.removeprefix(b"member=").split(b",") for line in right_lines(data)]
        return [b",".join(numbers[:index] + numbers[index + 1:]) for numbers in found]
    return member_lines


# The listing

def sign_lost(number, digits):
    """As where the whole part, cut towards 0, is printed with its own sign."""
    whole, part = divmod(abs(number), 10 ** digits)
    return f"{-whole if number < 0 else whole}.{part:0{digits}}"


def floored(number, digits):
    """The whole part taken down, the rest counted up from there."""
    whole, part = divmod(number, 10 ** digits)
    return f"{whole}.{part:0{digits}}"


def not_padded(number, digits):
    whole, part = divmod(abs(number), 10 ** digits)
    return f"{'-' if number < 0 else ''}{whole}.{part}"


def padded_with_sign(number, digits):
    """The sign takes one of the places."""
    sign = "-" if number < 0 else ""
    whole, part = divmod(abs(number), 10 ** digits)
    return f"{sign}{whole}.{part:0{digits - len(sign)}}"


def padded_with_sign_if_small(number, digits):
    """The same where the number is printed padded before the point is set."""
    text = f"{number:0{digits + 1}}"
    return f"{text[:-digits]}.{text[-digits:]}"


def sign_in_part(number, digits):
    whole, part = divmod(abs(number), 10 ** digits)
    return f"{whole}.{'-' if number < 0 else ''}{part:0{digits}}"


def minus_zero(number, digits):
    return "-" * (number == 0) + right_pointed(number, digits)


def plus(number, digits):
    return "+" * (number > 0) + right_pointed(number, digits)


def point_alone(number, digits):
    """No 0 before the point."""
    return right_pointed(number, digits).replace("0.", ".") if abs(number) < 10 ** digits else right_pointed(number, digits)


def zeros_dropped(number, digits):
    return right_pointed(number, digits).rstrip("0").rstrip(".")


def other_digits(digits, wrong):
    return lambda number, wanted: right_pointed(number, wrong if wanted == digits else wanted)


def keys(old, new):
    """Another key."""
    return lambda move: [line.replace(old, new, 1) if line.startswith(old) else line for line in right_move(move)]


def gross_first(move):
    lines = right_move(move)
    return lines[3:5] + lines[:3] + lines[5:]


def rates_where_header_alone(move):
    """A changed header line leaves the move to the rates."""
    lines = right_move(move)
    return lines if move.member else [line.replace("exact=", "rates=") for line in lines]


MUTATIONS = (
    ("the difference of the bounds", "arithmetic", lambda old, new: new.bound - old.bound),
    ("the difference of the bounds without its sign", "arithmetic", lambda old, new: abs(new.bound - old.bound)),
    ("the larger bound", "arithmetic", lambda old, new: max(old.bound, new.bound)),
    ("the old bound twice", "arithmetic", lambda old, new: 2 * old.bound),
    ("the new bound alone", "arithmetic", lambda old, new: new.bound),
    ("old and new swapped in the move", "moved", turned),
    ("old and new swapped throughout", "compare", compared_in_turn),
    ("a move where one file is refused", "compare", compared_always((1,))),
    ("a move where both files are refused", "compare", compared_always((2,))),
    ("a move without its sign", "moved", moved_with(lambda m: {"premium": abs(m.premium)})),
    ("a gross move without its sign", "moved", moved_with(lambda m: {"gross": abs(m.gross)})),
    ("the interval's ends exchanged", "moved", moved_with(lambda m: {"least": m.most, "most": m.least})),
    ("the gross interval's ends exchanged", "gross_ends", lambda *given: right_ends(*given)[::-1]),
    ("an interval about 0", "moved", moved_with(lambda m: {"least": -m.arithmetic, "most": m.arithmetic})),
    ("ends without their sign", "moved", moved_with(lambda m: {"least": abs(m.least), "most": abs(m.most)})),
    ("an interval one unit wider", "moved", moved_with(lambda m: {"least": m.least - 1, "most": m.most + 1})),
    ("the excess without one centime", "excess", excess_of(twice_within, and_one=0)),
    ("the excess with two centimes", "excess", excess_of(twice_within, and_one=2)),
    ("the bound once in the excess", "excess", excess_of(lambda bound, worth, loading: bound * worth * loading)),
    ("the excess taken down", "excess", excess_of(twice_within, rounded=down)),
    ("the excess to the nearest", "excess", excess_of(twice_within, rounded=pricing.nearest)),
    ("the excess taken down and one more", "excess", excess_of(twice_within, rounded=down, and_one=2)),
    ("the bound taken up before it is doubled", "excess", lambda data, answer: 2 * (excess_of(
        lambda bound, worth, loading: bound * worth * loading, and_one=0)(data, answer)) + 1),
    ("the excess without the loading", "excess", excess_of(lambda bound, worth, loading: 2 * bound * worth * 1000)),
    ("the excess with the least loading", "excess", excess_of(lambda bound, worth, loading: 2 * bound * worth * 1500)),
    ("the excess without the worth", "excess", excess_of(lambda bound, worth, loading: 2 * bound * loading)),
    ("the excesses on each other's side", "gross_ends", lambda move, old, new: right_ends(move, new, old)),
    ("the old excess on both sides", "gross_ends", lambda move, old, new: right_ends(move, old, old)),
    ("the new excess on both sides", "gross_ends", lambda move, old, new: right_ends(move, new, new)),
    ("both excesses on both sides", "gross_ends", lambda move, old, new: right_ends(move, old + new, old + new)),
    ("header lines counted from 0", "header_difference", lambda old, new: max(right_header(old, new) - 1, 0)),
    ("header lines counted behind the editions", "header_difference", lambda old, new: max(right_header(old, new) - 2, 0)),
    ("the last header line that differs", "header_difference", last_header),
    ("the editions counted as a difference", "FIRST_COMPARED", 1),
    ("the members' edition counted as a difference", "FIRST_COMPARED", 2),
    *((f"header line {place} not compared", "header_difference", header_without(place)) for place in range(3, HEADER_LINES + 1)),
    ("the second frequency not compared", "header_difference", first_frequency_alone),
    ("rates counted as header lines", "header_difference", rates_in_header),
    ("rates counted as member lines", "member_difference", rates_in_members),
    ("members compared by count alone", "member_difference", by_count),
    ("members compared up to the shorter file's end", "member_difference", within_the_shorter),
    ("a line behind the longer file's last", "member_difference", by_end),
    ("the last member line that differs", "member_difference", last_member),
    ("members in any order", "member_difference", in_any_order),
    ("lives wherever they stand", "member_difference", as_lives),
    ("members not compared where the header differs", "member_difference",
     lambda old, new: 0 if right_header(old, new) else right_member(old, new)),
    ("the header not compared where members differ", "header_difference",
     lambda old, new: 0 if right_member(old, new) else right_header(old, new)),
    *((f"{name} not compared", "member_lines", lines_without(index))
      for index, name in enumerate(("age", "group", "the amount at death", "the amount at disability", "lives"))),
    ("member lines counted from 0", "moved", moved_with(lambda m: {"member": max(m.member - 1, 0)})),
    ("lines counted from 0", "line_of", lambda data, number: right_line(data, number) - 1),
    ("lines counted without the rates", "line_of", lambda data, number: HEADER_LINES + number),
    ("the new file's line for the old one's", "moved", moved_with(lambda m: {"old_line": m.new_line})),
    ("the old file's line for the new one's", "moved", moved_with(lambda m: {"new_line": m.old_line})),
    ("the two lines exchanged", "moved", moved_with(lambda m: {"old_line": m.new_line, "new_line": m.old_line})),
    ("the sign lost between 0 and -1", "pointed", sign_lost),
    ("the whole part taken down", "pointed", floored),
    ("the digits not padded", "pointed", not_padded),
    ("the digits padded with the sign among them", "pointed", padded_with_sign),
    ("the number padded before its point is set", "pointed", padded_with_sign_if_small),
    ("the sign behind the point", "pointed", sign_in_part),
    ("a sign before 0", "pointed", minus_zero),
    ("a plus", "pointed", plus),
    ("no 0 before the point", "pointed", point_alone),
    ("zeros at the end dropped", "pointed", zeros_dropped),
    ("eleven digits", "pointed", other_digits(UNIT_DIGITS, 11)),
    ("three digits of centimes", "pointed", other_digits(CENTIME_DIGITS, 3)),
    ("exact for rates", "move_lines", keys("rates=", "exact=")),
    ("rates for exact", "move_lines", keys("exact=", "rates=")),
    ("gross-exact for gross-rates", "move_lines", keys("gross-rates=", "gross-exact=")),
    ("gross-rates for gross-exact", "move_lines", keys("gross-exact=", "gross-rates=")),
    ("rates where the header alone differs", "move_lines", rates_where_header_alone),
    ("the gross move first", "move_lines", gross_first),
    ("no line where nothing else differs", "other_lines", lambda move: [] if right_others(move) == ["other=none"] else right_others(move)),
    ("one difference told of two", "other_lines", lambda move: right_others(move)[:1]),
    ("the member before the header", "other_lines", lambda move: right_others(move)[::-1]),
    ("a refused file's premium", "file_lines", lambda name, answer: right_file(name, replace(answer, number=0))),
    ("a refusal without its place", "file_lines",
     lambda name, answer: [line.split(",")[0] if answer.number else line for line in right_file(name, answer)]),
    ("the gross premium in centimes", "file_lines", lambda name, answer: right_file(name, answer)[:2] + (
        [] if answer.number else [f"{name}-gross={answer.gross}"])),
)


def mutated(target, value):
    return mock.patch.object(comparison, target, value)


def told_apart():
    """The pairs worked by hand whose listing is another under each mutation."""
    for name, target, value in MUTATIONS:
        with mutated(target, value):
            yield name, [check for check, holds in comparison_funds.listing_checks() if not holds]


if __name__ == "__main__":
    for name, pairs in told_apart():
        print("told apart " if pairs else "NOT TOLD APART ", f"{name}: {', '.join(pairs)}")
