"""Reading a second time, in other ways: lines by regular expressions, cells by their bits.

first_fault(data) and first_sheet_fault(header, rates, members) give number and place of the
first refusal of reading, or None; sheet_rows(rates, members) the rows of sheets whose cells
are all taken.
"""

import re
from fractions import Fraction
from functools import lru_cache
from itertools import count

NUMBER = rb"(0|[1-9][0-9]{0,6})"
HEADER = [(re.compile(key + b"=" + b",".join([NUMBER] * many)), low, high) for key, many, low, high in (
    (b"rates", 1, 1900, 2999), (b"members", 1, 1900, 2999), (b"horizon", 1, 0, 4095),
    (b"order", 1, 1, 12), (b"frequency", 2, 0, 5000), (b"deductible", 1, 0, 4096),
    (b"worth", 1, 1, 9999999))]
RATE = re.compile(b"rate=" + b",".join([NUMBER] * 3))
MEMBER = re.compile(b"member=" + b",".join([NUMBER] * 5))
END = re.compile(b"end=" + NUMBER)


def numbers(match):
    return [int(text) for text in match.groups()]


def rate_holds(row, rates):
    age, q, i = row
    return (len(rates) < 121 and age <= 120 and q + i <= 1000000
            and all(age > other[0] for other in rates))


def member_holds(row, members):
    """With 1 life or more on each line, the 1,001st line passes 1,000 lives too."""
    age, group, d, e, lives = row
    return (age <= 120 and 1 <= group <= 2 and max(d, e) <= 65535
            and 1 <= lives <= 1000 - sum(other[4] for other in members))


def first_fault(data):
    """(number, place) of the first line that is form or range, or None."""
    lines = data.split(b"\n")
    lines.pop()                                 # bytes without a line feed
    rates, members = [], []
    for place in count(1):
        if place > len(lines):
            return 1, place
        line = lines[place - 1]
        if place <= len(HEADER):
            pattern, low, high = HEADER[place - 1]
            match = pattern.fullmatch(line)
            if not match:
                return 1, place
            if min(numbers(match)) < low or max(numbers(match)) > high:
                return 2, place
        elif not members and (match := RATE.fullmatch(line)):
            if not rate_holds(numbers(match), rates):
                return 2, place
            rates.append(numbers(match))
        elif match := MEMBER.fullmatch(line):
            if not member_holds(numbers(match), members):
                return 2, place
            members.append(numbers(match))
        elif match := END.fullmatch(line):
            if int(match[1]) != len(members):
                return 2, place
            rest = data[len(b"\n".join(lines[:place])) + 1:]
            return (1, place + 1) if rest else None
        else:
            return 1, place


# Sheets: a cell's 64 bits taken apart, and every number a fraction

BLANK, INFINITE = "blank", "infinite"


def value_of(cell):
    """The exact value of eight bytes, least byte first."""
    bits = sum(byte << 8 * k for k, byte in enumerate(cell))
    sign, exponent, fraction = bits >> 63, bits >> 52 & 0x7ff, bits & (1 << 52) - 1
    if exponent == 0x7ff:
        return BLANK if fraction else INFINITE
    numerator = fraction if exponent == 0 else (2 ** 52 + fraction) << exponent - 1
    return Fraction(-numerator if sign else numerator, 2 ** 1074)


def quotient(k):
    """k by 1,000,000 to the nearest fraction with a numerator of 53 bits, even where two are as near."""
    halvings = 52
    while 0 < k << halvings < 1000000 << 52:
        halvings += 1
    numerator, rest = divmod(k << halvings, 1000000)
    if 2 * rest > 1000000 or 2 * rest == 1000000 and numerator % 2:
        numerator += 1
    return Fraction(numerator, 2 ** halvings)


def rates_equal_to(value):
    """Every k from 0 to 1,000,000 whose quotient is the value, of those around 1,000,000 times the value."""
    about = int(value * 1000000)
    return [k for k in range(about - 2, about + 3) if 0 <= k <= 1000000 and quotient(k) == value]


@lru_cache(maxsize=None)
def number_in(cell, kind):
    """What eight bytes are taken as in a field, or None."""
    value = value_of(cell)
    if value == BLANK:
        return 0 if kind == "amount" else None
    if value == INFINITE:
        return None
    if kind == "rate":
        return next(iter(rates_equal_to(value)), None)
    low, high = {"age": (0, 120), "group": (1, 2), "amount": (0, 65535), "lives": (1, 1000)}[kind]
    return int(value) if value.denominator == 1 and low <= value <= high else None


RATE_FIELDS = ("age", "rate", "rate")
MEMBER_FIELDS = ("age", "group", "amount", "amount", "lives")


def row_of(sheet, number, fields):
    """The numbers of a row, counted from 0, or None where it is not taken."""
    size = 8 * len(fields)
    row = sheet[size * number:size * (number + 1)]
    taken = [number_in(row[8 * k:8 * k + 8], kind) for k, kind in enumerate(fields)] if len(row) == size else [None]
    return None if None in taken else taken


def rows_of(sheet, fields):
    return [row_of(sheet, number, fields) for number in range(-(-len(sheet) // (8 * len(fields))))]


def sheet_rows(rates, members):
    """Rate rows and member rows, or None where some row is not taken."""
    found = rows_of(rates, RATE_FIELDS), rows_of(members, MEMBER_FIELDS)
    return None if None in found[0] + found[1] else found


def first_sheet_fault(header, rates, members):
    """(number, place) of the first fault in the header, else of the first faulty row, or None."""
    fault = first_fault(header)
    if fault and fault[1] <= len(HEADER):
        return fault
    if header.count(b"\n") > len(HEADER) or not header.endswith(b"\n"):
        return 1, len(HEADER) + 1
    before = {3: [], 5: []}
    for place, row in enumerate(rows_of(rates, RATE_FIELDS) + rows_of(members, MEMBER_FIELDS), 1):
        if row is None:
            return 11, place
        holds = rate_holds if len(row) == 3 else member_holds
        if not holds(row, before[len(row)]):
            return 2, len(HEADER) + place
        before[len(row)].append(row)
    return None
