"""The answer of a pricing call, in whole numbers, in the order of docs/METHOD.md.

A line is never written out: what it adds is multiplied by its lives, and the start is
multiplied by its p as often as it has lives.

price(data, lengths, level) gives every figure of a call for any bytes, any
lengths of the five result slices and any level.  listing(answer) gives the
printed text.
Run as a program, it reads a fund file on standard input and prints the listing.
"""

import sys
from dataclasses import dataclass
from itertools import accumulate
from typing import NamedTuple

UNIT = 10 ** 12          # one, in units of 10^-12
MILLION = 10 ** 6        # one, in millionths

EDITION_LOW, EDITION_HIGH = 1900, 2999
HORIZON_HIGH = 4095
ORDER_LOW, ORDER_HIGH = 1, 12
FREQUENCY_HIGH = 5000
DEDUCTIBLE_HIGH = 4096
WORTH_LOW, WORTH_HIGH = 1, 9999999
RATE_ROWS = 121
MEMBER_ROWS = 1000
AGE_HIGH = 120
RATE_HIGH = 1000000
AMOUNT_HIGH = 65535
LIVES_LOW, LIVES_HIGH = 1, 1000     # of a line
ALL_LIVES_HIGH = 1000
DIGITS = 7
HALF = 500000
LOAD_HIGH = 8 * 10 ** 12
TRUNCATION_HIGH = 10 ** 8
BOUND_HIGH = 250000
LEVEL_HIGH = 10 ** 12
START_TERMS = 63
# The tariff's loading from each deductible on, in thousandths.
LOADINGS = ((0, 1500), (100, 1700), (300, 1900), (600, 2100))
GROSS_DIVISOR = 10 ** 15     # the units times the thousandths
LISTING_LENGTHS = (HORIZON_HIGH + 1,) * 5

FORM, RANGE, EDITION, DEDUCTIBLE, UNMATCHED = 1, 2, 3, 4, 5
TOO_HALF, LOAD, ORDER, SHORT, WIDE = 6, 7, 8, 9, 10


# Roundings

def nearest(numerator, divisor):
    """To the nearest whole number, halves away from zero."""
    size = (2 * abs(numerator) + divisor) // (2 * divisor)
    return -size if numerator < 0 else size


def up(numerator, divisor):
    """To the next whole number not below."""
    return -((-numerator) // divisor)


# The fund file

class Refusal(Exception):
    """Number, place, and the part of the file that is handed back."""

    def __init__(self, number, place, start=0, length=0):
        super().__init__(number, place)
        self.number = number
        self.place = place
        # The start of an empty part says nothing, so it is always 0 here.
        self.start = start if length else 0
        self.length = length


@dataclass(frozen=True)
class Line:
    place: int       # lines count from 1
    start: int       # position of the first byte in the file
    text: bytes      # without the line feed, or up to the file's end
    ended: bool      # the line feed is there

    def refusal(self, number):
        return Refusal(number, self.place, self.start, len(self.text))


class Frequencies(NamedTuple):
    """How often a place of group 2 is filled again, in thousandths."""
    death: int           # a, for a deceased member's place
    disability: int      # b, for a disabled member's


@dataclass(frozen=True)
class Member:
    line: Line
    age: int
    group: int
    d: int
    e: int
    lives: int           # the line stands for so many copies of itself


@dataclass(frozen=True)
class Fund:
    rates: int
    members: int
    horizon: int
    order: int
    frequency: Frequencies
    deductible: int
    worth: int           # of one amount, in centimes
    rate_rows: tuple     # (age, q, i), ages strictly rising
    member_rows: tuple   # Member records in file order


class Reader:
    """Keeps the file's bytes and its position."""

    def __init__(self, data):
        self.data = data
        self.position = 0
        self.place = 0

    def at_end(self):
        return self.position == len(self.data)

    def take(self):
        """The next line; a line is missing only if no byte of it stands there."""
        self.place += 1
        if self.at_end():
            raise Refusal(FORM, self.place)
        start = self.position
        feed = self.data.find(b"\n", start)
        if feed < 0:
            self.position = len(self.data)
            return Line(self.place, start, self.data[start:], False)
        self.position = feed + 1
        return Line(self.place, start, self.data[start:feed], True)


def number_of(text):
    """The number that is spelled, or None."""
    if not 1 <= len(text) <= DIGITS:
        return None
    if any(byte < 48 or byte > 57 for byte in text):
        return None
    if len(text) > 1 and text[0] == 48:
        return None
    return int(text)


def numbers_of(line, key, count):
    """The numbers of a line with this key and this many numbers, or None."""
    if not line.ended or not line.text.startswith(key):
        return None
    numbers = [number_of(text) for text in line.text[len(key):].split(b",")]
    if len(numbers) != count or None in numbers:
        return None
    return numbers


def read_numbers(reader, key, count, low, high):
    """The numbers of a header line, each within the limits."""
    line = reader.take()
    numbers = numbers_of(line, key, count)
    if numbers is None:
        raise line.refusal(FORM)
    if not all(low <= number <= high for number in numbers):
        raise line.refusal(RANGE)
    return numbers


def read_header(reader, key, low, high):
    return read_numbers(reader, key, 1, low, high)[0]


def read_frequencies(reader):
    return Frequencies(*read_numbers(reader, b"frequency=", 2, 0, FREQUENCY_HIGH))


def rate_in_range(rate_rows, age, q, i):
    if len(rate_rows) == RATE_ROWS:
        return False
    if age > AGE_HIGH or (rate_rows and age <= rate_rows[-1][0]):
        return False
    return q <= RATE_HIGH and i <= RATE_HIGH and q + i <= RATE_HIGH


def lives_in_all(members):
    return sum(m.lives for m in members)


def member_in_range(member_rows, age, group, d, e, lives):
    if len(member_rows) == MEMBER_ROWS:
        return False
    if not LIVES_LOW <= lives <= LIVES_HIGH or lives_in_all(member_rows) + lives > ALL_LIVES_HIGH:
        return False
    return (age <= AGE_HIGH and group in (1, 2)
            and d <= AMOUNT_HIGH and e <= AMOUNT_HIGH)


def end_count(member_rows):
    """Lines, not lives."""
    return len(member_rows)


def read_rows(reader):
    """The rate lines, the member lines and the end line."""
    rate_rows, member_rows = [], []
    while True:
        line = reader.take()
        rate = numbers_of(line, b"rate=", 3)
        member = numbers_of(line, b"member=", 5)
        end = numbers_of(line, b"end=", 1)
        if rate is not None and not member_rows:
            if not rate_in_range(rate_rows, *rate):
                raise line.refusal(RANGE)
            rate_rows.append(tuple(rate))
        elif member is not None:
            if not member_in_range(member_rows, *member):
                raise line.refusal(RANGE)
            member_rows.append(Member(line, *member))
        elif end is not None:
            if end[0] != end_count(member_rows):
                raise line.refusal(RANGE)
            return tuple(rate_rows), tuple(member_rows)
        else:
            raise line.refusal(FORM)


def read_header_lines(reader):
    """The figures of the header, in the order of Fund."""
    rates = read_header(reader, b"rates=", EDITION_LOW, EDITION_HIGH)
    members = read_header(reader, b"members=", EDITION_LOW, EDITION_HIGH)
    horizon = read_header(reader, b"horizon=", 0, HORIZON_HIGH)
    order = read_header(reader, b"order=", ORDER_LOW, ORDER_HIGH)
    frequency = read_frequencies(reader)
    deductible = read_header(reader, b"deductible=", 0, DEDUCTIBLE_HIGH)
    worth = read_header(reader, b"worth=", WORTH_LOW, WORTH_HIGH)
    return rates, members, horizon, order, frequency, deductible, worth


def check_end(reader):
    if not reader.at_end():
        raise reader.take().refusal(FORM)


def read_fund(data):
    """Reading goes line by line, form before range within a line."""
    reader = Reader(data)
    header = read_header_lines(reader)
    rows = read_rows(reader)
    check_end(reader)
    return Fund(*header, *rows)


# From members to the transform

@dataclass(frozen=True)
class Folded:
    """A member line with its rates after folding."""
    line: Line
    group: int
    d: int
    e: int
    q: int
    i: int
    lives: int

    @property
    def p(self):
        return MILLION - self.q - self.i


def fold(member, q, i):
    """If d = 0, q counts as 0; if e = 0, i counts as 0."""
    return Folded(member.line, member.group, member.d, member.e,
                  q if member.d else 0, i if member.e else 0, member.lives)


def rate_in_force(rate_rows, age):
    """A row holds from its age until the next row's age; None below the first row."""
    in_force = None
    for row_age, q, i in rate_rows:
        if row_age > age:
            break
        in_force = q, i
    return in_force


def match_and_fold(fund):
    """Every member line with its folded rates, in file order; refusal 5."""
    members = []
    for member in fund.member_rows:
        rate = rate_in_force(fund.rate_rows, member.age)
        if rate is None:
            raise member.line.refusal(UNMATCHED)
        members.append(fold(member, *rate))
    return members


def group_1(members):
    return [m for m in members if m.group == 1]


def group_2(members):
    return [m for m in members if m.group == 2]


def death_weight(m, frequency):
    """q x a x 1000 of one life, in units."""
    return m.q * frequency.death * 1000


def disability_weight(m, frequency):
    """i x b x 1000 of one life, in units."""
    return m.i * frequency.disability * 1000


def group_2_weights(members, frequency):
    """The pairs (amount, weight in units) of group 2; a line's weight is that of all its lives."""
    pairs = []
    for m in group_2(members):
        pairs.append((m.d, m.lives * death_weight(m, frequency)))
        pairs.append((m.e, m.lives * disability_weight(m, frequency)))
    return pairs


def lambda_units(members, frequency):
    """The sum of all weights of group 2."""
    return sum(weight for _, weight in group_2_weights(members, frequency))


def check_half(members):
    for m in group_1(members):
        if m.q + m.i >= HALF:
            raise m.line.refusal(TOO_HALF)


def load(members, lam):
    """Lambda plus, over the lives of group 1, up(10^12 x (q+i)/p)."""
    return lam + sum(m.lives * up(UNIT * (m.q + m.i), m.p) for m in group_1(members))


def truncation_steps(order):
    """The figure takes w(r+1)."""
    return order + 1


def member_truncation(m, order):
    """Of one life."""
    w = UNIT
    for _ in range(truncation_steps(order)):
        w = up(w * (m.q + m.i), m.p)
    return up(w * m.p, (m.p - m.q - m.i) * (order + 1))


def truncation(members, order):
    return sum(m.lives * member_truncation(m, order) for m in group_1(members))


def mean(members, frequency):
    """Amounts beyond X count here."""
    ones = sum(m.lives * (m.q * m.d + m.i * m.e) * MILLION for m in group_1(members))
    return ones + sum(amount * weight for amount, weight in group_2_weights(members, frequency))


def next_row(row, q, i, p):
    """v(n,0) to v(n,12) from v(n-1,0) to v(n-1,12), missing neighbours 0."""
    return [nearest(q * (row[l - 1] if l else 0) + i * row[l], p)
            for l in range(ORDER_HIGH + 1)]


def is_placed(m, n, l, x, horizon):
    return x <= horizon and (m.q > 0 or l == 0) and (m.i > 0 or l == n)


def place_term(D, H, n, x, v, lives):
    """A placed term is added to D for odd n, subtracted for even n; H gains x.  All that for each life."""
    term = nearest(x * v, n)
    D[x] += lives * (term if n % 2 else -term)
    H[x] += lives * x


def add_group_1_member(D, H, m, order, horizon):
    row = [UNIT] + [0] * ORDER_HIGH
    for n in range(1, order + 1):
        row = next_row(row, m.q, m.i, m.p)
        for l in range(n + 1):
            x = m.d * l + m.e * (n - l)
            if is_placed(m, n, l, x, horizon):
                place_term(D, H, n, x, row[l], m.lives)


def add_group_2(D, members, frequency, horizon):
    for place, weight in group_2_weights(members, frequency):
        if 1 <= place <= horizon:
            D[place] += weight * place


def transform(members, fund):
    D = [0] * (fund.horizon + 1)
    H = [0] * (fund.horizon + 1)
    for m in group_1(members):
        add_group_1_member(D, H, m, fund.order, fund.horizon)
    add_group_2(D, members, fund.frequency, fund.horizon)
    return D, H


# The recursion and its bounds

def start(members, lam, horizon):
    """f(0): the alternating sum of t(0) to t(63), then times each p, line after line."""
    t = UNIT
    total = t
    for n in range(1, START_TERMS + 1):
        t = nearest(t * lam, n * UNIT)
        total += -t if n % 2 else t
    for m in start_members(members, horizon):
        total = times_p(total, m)
    return total


def times_p(total, m):
    """A line's factor, once for each life, rounded each time."""
    for _ in range(m.lives):
        total = nearest(total * m.p, MILLION)
    return total


def start_members(members, horizon):
    """All of group 1, also where the amount lies beyond X."""
    return group_1(members)


def start_bound(members, lam):
    """R(0): the sum of c(0) to c(63) plus the number of group 1 lives."""
    total = c = 0
    if lam:
        for n in range(1, START_TERMS + 1):
            c = up(c * lam, n * UNIT) + 1
            total += c
    return total + lives_in_all(group_1(members))


def product_bound(k, D_k, H_k, f_value, R_value):
    """The two terms under k in R(x); D already holds k."""
    return (up(abs(D_k) * R_value, UNIT)
            + up(H_k * (abs(f_value) + R_value), UNIT))


def product(D_k, f_value):
    return nearest(D_k * f_value, UNIT)


def recursion(D, H, f_0, R_0, horizon):
    """f and R from 0 on, up to X or to the first R(x) above 250,000."""
    f, R = [f_0], [R_0]
    # Where D(k) and H(k) are both 0, every term under k is 0.
    places = [k for k in range(1, horizon + 1) if D[k] or H[k]]
    for x in range(1, horizon + 1):
        if R[-1] > BOUND_HIGH:
            break
        value = bound = 0
        for k in places:
            if k > x:
                break
            value += product(D[k], f[x - k])
            bound += product_bound(k, D[k], H[k], f[x - k], R[x - k])
        f.append(nearest(value, x))
        R.append(up(bound, x) + 1)
    return f, R


def distribution(fund, members, lam):
    """D, H, f and R; f and R end early where R is above its limit."""
    D, H = transform(members, fund)
    f, R = recursion(D, H, start(members, lam, fund.horizon),
                     start_bound(members, lam), fund.horizon)
    return D, H, f, R


def check_wide(R):
    for x, bound in enumerate(R):
        if bound > BOUND_HIGH:
            raise Refusal(WIDE, x)


def premium(mean_figure, deductible, f):
    return (mean_figure - deductible * UNIT
            + sum((deductible - x) * f[x] for x in range(deductible)))


def premium_bound(deductible, R, truncation_figure):
    return (sum((deductible - x) * R[x] for x in range(deductible))
            + 2 * deductible * truncation_figure)


# The pool's tariff

def loading(deductible):
    """In thousandths: that of the last step that is not above the deductible."""
    return [thousandths for edge, thousandths in LOADINGS if edge <= deductible][-1]


def gross(premium_figure, bound, worth, deductible):
    """In centimes: one division by 10^15, taken up; a negative sum counts as 0."""
    most = max(premium_figure + bound, 0)
    return up(most * worth * loading(deductible), GROSS_DIVISOR)


# The deductible at a level

def running_sums(f):
    """F(x) is f(0) + .. + f(x)."""
    return list(accumulate(f))


def quantile(F, level):
    """The smallest x with F(x) at least the level, or None.

    F need not rise, so every x is asked in turn.
    """
    if level > LEVEL_HIGH:
        return None
    for x, total in enumerate(F):
        if total >= level:
            return x
    return None


# The call

@dataclass(frozen=True)
class Answer:
    number: int
    place: int
    start: int           # the part handed back: start and length in the file
    length: int
    truncation: int
    mean: int
    premium: int
    bound: int           # the premium's bound
    gross: int           # the gross premium, in centimes
    D: tuple             # the five result slices after the call
    H: tuple
    f: tuple
    R: tuple
    F: tuple             # the running sums of f
    horizon: int         # X of an accepted fund, for the listing
    quantile: int        # the smallest x with F(x) at least the level, or None


def check_fund(fund):
    if fund.rates != fund.members:
        raise Refusal(EDITION, 0)
    if fund.deductible > fund.horizon + 1:
        raise Refusal(DEDUCTIBLE, 0)


def check_short(lengths, horizon):
    if min(lengths) < horizon + 1:
        raise Refusal(SHORT, 0)


def valued(fund, lengths, level):
    """The answer for a fund that is read and meets no later refusal's condition."""
    check_fund(fund)
    members = match_and_fold(fund)
    check_half(members)
    lam = lambda_units(members, fund.frequency)
    if load(members, lam) > LOAD_HIGH:
        raise Refusal(LOAD, 0)
    E = truncation(members, fund.order)
    if E > TRUNCATION_HIGH:
        raise Refusal(ORDER, 0)
    check_short(lengths, fund.horizon)
    D, H, f, R = distribution(fund, members, lam)
    check_wide(R)
    mean_figure = mean(members, fund.frequency)
    premium_figure = premium(mean_figure, fund.deductible, f)
    bound = premium_bound(fund.deductible, R, E)
    F = running_sums(f)
    slices = [tuple(cells) + (0,) * (length - len(cells))
              for cells, length in zip((D, H, f, R, F), lengths)]
    return Answer(0, 0, 0, 0, E, mean_figure, premium_figure, bound,
                  gross(premium_figure, bound, fund.worth, fund.deductible),
                  *slices, fund.horizon, quantile(F, level))


def accepted(data, lengths, level):
    """The answer for a fund that meets no refusal's condition."""
    return valued(read_fund(data), lengths, level)


def refused(refusal, lengths):
    """Number and place, zero for every figure and in every lent cell, no quantile."""
    slices = [(0,) * length for length in lengths]
    return Answer(refusal.number, refusal.place, refusal.start, refusal.length,
                  0, 0, 0, 0, 0, *slices, 0, None)


def price(data, lengths=LISTING_LENGTHS, level=0):
    try:
        return accepted(data, lengths, level)
    except Refusal as refusal:
        return refused(refusal, lengths)


# The listing

def cell_bounds(R, truncation_figure):
    """R(x) + 2E: how far f(x) may be from the exact value."""
    return [bound + 2 * truncation_figure for bound in R]


def sum_bounds(R, truncation_figure):
    """R(0) + .. + R(x) + 2E: how far F(x) may be from the exact distribution function.

    The cut counts once, however many cells are added.
    """
    return [total + 2 * truncation_figure for total in accumulate(R)]


def printed_sums(f, F):
    """F as it is lent."""
    return list(F)


def cell_line(x, f, bound, F, sum_bound):
    return f"cell={x},{f},{bound},{F},{sum_bound}"


def cell_lines(answer):
    f, R, F = (cells[:answer.horizon + 1] for cells in (answer.f, answer.R, answer.F))
    return list(map(cell_line, range(answer.horizon + 1), f, cell_bounds(R, answer.truncation),
                    printed_sums(f, F), sum_bounds(R, answer.truncation)))


def listing(answer):
    if answer.number:
        return f"refused={answer.number},{answer.place}\n"
    lines = [f"truncation={answer.truncation}", f"mean={answer.mean}", *cell_lines(answer)]
    lines.append(f"premium={answer.premium}")
    lines.append(f"within={answer.bound}")
    lines.append(f"gross={answer.gross}")
    return "".join(line + "\n" for line in lines)


if __name__ == "__main__":
    sys.stdout.write(listing(price(sys.stdin.buffer.read())))
