"""All checks of the exact calculation.  Run: python3 tests/test_pricing.py

A check is a pair (name, holds).  The last line printed counts them.
"""

import json
import random
import subprocess
import sys
import tempfile
from dataclasses import replace
from fractions import Fraction
from pathlib import Path
from unittest import mock

import cases
import distribution_funds
import document_funds
import exact
import exact_rows
import formulas
import frequency_funds
import generate
import lives_funds
import lives_mutations
import pricing
import quantile_funds
import rate_funds
import second_reader
import sheet_checks
import sheet_funds
import sheets
import tariff_funds
import test_sheet_bytes
import triangle_funds

SHORT_SLICES = (26, 25, 27, 25, 28)     # the small funds have X up to 24
COMPARED = exact.Compared()             # with exact values, by the sections below


def part_of(data, answer):
    return data[answer.start:answer.start + answer.length]


def refusal_of(case):
    answer = pricing.price(case.data, case.lengths)
    return answer.number, answer.place, part_of(case.data, answer)


# What holds of every answer

def refused_answer_holds(data, answer):
    """Zero figures, zero cells, and the part that the place says."""
    zero = (answer.truncation, answer.mean, answer.premium, answer.bound, answer.gross) == (0,) * 5
    zero = zero and answer.quantile is None
    cells = not any(map(any, (answer.D, answer.H, answer.f, answer.R, answer.F)))
    if answer.number in (1, 2, 5, 6):
        part = (answer.place >= 1 and part_of(data, answer)
                == data.split(b"\n")[answer.place - 1])
        if answer.length:
            part = part and data[:answer.start].count(b"\n") == answer.place - 1
    else:
        part = answer.length == 0 and (answer.place > 0) == (answer.number == 10)
    text = pricing.listing(answer) == f"refused={answer.number},{answer.place}\n"
    return zero and cells and part and text and 1 <= answer.number <= 10


def gross_holds(data, answer):
    """The gross premium of the answer's own premium and bound, by the formula."""
    fund = pricing.read_fund(data)
    return answer.gross == formulas.gross(answer.premium, answer.bound, fund.worth, fund.deductible)


def cells_hold(answer):
    """Each cell line has x, f(x), R(x) + 2E, F(x) and R(0) + .. + R(x) + 2E, in the answer's own cells."""
    cells, cut = exact.printed_cells(answer), 2 * answer.truncation
    total, bound = 0, cut
    for x, cell in enumerate(cells):
        total, bound = total + answer.f[x], bound + answer.R[x]
        if cell != (x, answer.f[x], answer.R[x] + cut, total, bound):
            return False
    return len(cells) == answer.horizon + 1


def accepted_answer_holds(answer):
    """Limits kept, the first D and H zero, zero beyond X, one line for each figure."""
    used = answer.horizon + 1
    slices = (answer.D, answer.H, answer.f, answer.R, answer.F)
    return (answer.place == answer.start == answer.length == 0
            and answer.D[0] == answer.H[0] == 0
            and not any(any(cells[used:]) for cells in slices)
            and max(answer.R) <= 250000 and answer.truncation <= 10 ** 8
            and all(h >= 0 for h in answer.H)
            and all(F == sum(answer.f[:x + 1]) for x, F in enumerate(answer.F[:used]))
            and cells_hold(answer)
            and pricing.listing(answer).count("\n") == used + 5)


def quantile_holds(answer, level):
    """The least of all x up to X with F(x) at least the level; none after a refusal or above 10^12."""
    if answer.number or level > 10 ** 12:
        return answer.quantile is None
    reached = [x for x, F in enumerate(answer.F[:answer.horizon + 1]) if F >= level]
    return answer.quantile == (min(reached) if reached else None)


def level_of(case, answer):
    return generate.level_of(case, random.Random(case.name), answer)


def level_holds(case, answer):
    """A level changes the quantile and nothing else."""
    level = level_of(case, answer)
    asked = pricing.price(case.data, case.lengths, level)
    return (replace(asked, quantile=answer.quantile) == answer
            and quantile_holds(asked, level))


def answer_holds(case):
    answer = pricing.price(case.data, case.lengths)
    lengths = tuple(map(len, (answer.D, answer.H, answer.f, answer.R, answer.F)))
    if lengths != case.lengths or not level_holds(case, answer):
        return False
    if answer.number:
        return refused_answer_holds(case.data, answer)
    return accepted_answer_holds(answer) and gross_holds(case.data, answer)


def answer_checks(made):
    return [(f"{case.name}: answer", answer_holds(case)) for case in made]


def expected_checks(made):
    return [(f"{case.name}: number, place and part", refusal_of(case) == case.expected)
            for case in made]


def reading_checks(made):
    """The reader and the second reader agree; later refusals have no fault in reading."""
    checks = []
    for case in made:
        answer = pricing.price(case.data, case.lengths)
        found = (answer.number, answer.place) if answer.number in (1, 2) else None
        checks.append((f"{case.name}: second reader", found == second_reader.first_fault(case.data)))
    return checks


# Demand 3, and the method against the formulas

def is_small(answer):
    return answer.number == 0 and answer.horizon <= 24


def distance_checks(made, seen=None):
    """Demand 3, and the bound of the distribution function."""
    checks = []
    for case in made:
        answer = pricing.price(case.data, case.lengths)
        if is_small(answer):
            broken = exact.check_distance(case.data, answer, seen)
            checks.append((f"{case.name}: demand 3 {broken}", not broken))
    return checks


def one_by_one_checks(made):
    """The bound of the distribution function over longer horizons."""
    checks = []
    for case in made:
        broken = exact.check_without_replacement(case.data, COMPARED)
        checks.append((f"{case.name}: distribution function {broken}", not broken))
    return checks


def formula_checks(made):
    checks = []
    for case in made:
        answer = pricing.price(case.data, case.lengths)
        if is_small(answer):
            level = level_of(case, answer)
            answer = pricing.price(case.data, case.lengths, level)
            broken = formulas.check_figures(case.data, answer, level)
            checks.append((f"{case.name}: formulas {broken}", not broken))
    return checks


def with_slices(made, lengths):
    return [replace(case, lengths=lengths) for case in made]


def small_limit_funds():
    """Limit funds that the exact calculation can take in a short time."""
    large = ("1000", "horizon-high", "deductible-high", "loading", "longest")
    return [case for case in generate.limit_funds()
            if not any(word in case.name for word in large)]


def limit_figure_checks():
    """The limit funds do stand at the limits that they are named for."""
    made = {case.name: case.data for case in generate.limit_funds()}
    checks = [("the longest file has 29,778 bytes", len(made["limit-longest"]) == 29778)]
    for name, load in (("exact", 8 * 10 ** 12), ("below", 8 * 10 ** 12 - 1),
                       ("above", 8 * 10 ** 12 + 1)):
        for lines in ("", "-in-one-line"):
            figure = formulas.Formulas(made[f"limit-load-{name}{lines}"]).load()
            checks.append((f"limit-load-{name}{lines}: load", figure == load))
    for order in (1, 3, 7, 12):
        for name, wanted in (("exact", 10 ** 8), ("above", 10 ** 8 + 1)):
            for lines in ("", "-in-one-line"):
                figure = formulas.Formulas(made[f"limit-truncation-{name}-{order}{lines}"])
                checks.append((f"limit-truncation-{name}-{order}{lines}: figure",
                               figure.truncation() == wanted))
    for name, wanted in (("not", 250000), ("just", 250001)):
        figure = formulas.Formulas(made[f"limit-wide-{name}-3"]).R(6)
        checks.append((f"limit-wide-{name}-3: R(6)", figure == wanted))
    return checks


# Larger funds: the method only

def fund_parts(data):
    """The lines of a good file: header, rates, members, end."""
    lines = data.split(b"\n")[:-1]
    rates = [line for line in lines if line.startswith(b"rate=")]
    members = [line for line in lines if line.startswith(b"member=")]
    return lines[:generate.HEADER_LINES], rates, members, lines[-1:]


def with_header(data, place, line):
    return generate.joined(generate.with_line(data.split(b"\n")[:-1], place, line))


def prefix_holds(data, whole):
    """A shorter horizon gives the same cells up to it."""
    X = whole.horizon // 2
    shorter = with_header(with_header(data, 3, b"horizon=%d" % X), 6, b"deductible=0")
    part = pricing.price(shorter)
    return all(getattr(part, name)[:X + 1] == getattr(whole, name)[:X + 1]
               and not any(getattr(part, name)[X + 1:]) for name in "DHfRF")


def deductible_holds(data, whole):
    """The deductible changes only the premium, its bound and the gross premium; at 0 it is the mean."""
    other = pricing.price(with_header(data, 6, b"deductible=0"))
    return ((other.premium, other.bound) == (whole.mean, 0)
            and replace(other, premium=whole.premium, bound=whole.bound, gross=whole.gross) == whole)


def worth_holds(data, whole):
    """The worth changes only the gross premium, and a thousand amounts of 1 are one of 1,000."""
    one, many = (pricing.price(with_header(data, 7, b"worth=%d" % worth)) for worth in (1, 1000))
    return (replace(one, gross=whole.gross) == replace(many, gross=whole.gross) == whole
            and 1000 * (one.gross - 1) < many.gross <= 1000 * one.gross)


def sum_holds(whole):
    """All f together are within their bounds of at most 1, none far below 0."""
    slack = sum(whole.R) + 2 * whole.truncation
    least = all(f >= -(R + 2 * whole.truncation) for f, R in zip(whole.f, whole.R))
    return sum(whole.f) <= 10 ** 12 + slack and least


def member_order_holds(data, whole):
    """The order of members changes no D, H, truncation figure, mean or R(0)."""
    header, rates, members, end = fund_parts(data)
    other = pricing.price(generate.joined(header + rates + members[::-1] + end))
    return ((other.D, other.H, other.truncation, other.mean, other.R[0])
            == (whole.D, whole.H, whole.truncation, whole.mean, whole.R[0]))


def written_out_holds(data, whole):
    """Each member line written out as so many lines of one life."""
    header, rates, members, _ = fund_parts(data)
    copies = []
    for line in members:
        row, _, lives = line.rpartition(b",")
        copies += [row + b",1"] * int(lives)
    return pricing.price(generate.joined(header + rates + copies + [b"end=%d" % len(copies)])) == whole


def example_cases():
    """The funds of examples/ that are accepted."""
    folder = Path(__file__).resolve().parent.parent / "examples"
    made = [generate.Case(f"example-{path.name}", path.read_bytes()) for path in sorted(folder.glob("*.fund"))]
    return [case for case in made if pricing.price(case.data).number == 0]


def large_checks(made):
    checks = []
    for case in made:
        whole = pricing.price(case.data)
        checks += [
            (f"{case.name}: accepted", whole.number == 0),
            (f"{case.name}: shorter horizon", prefix_holds(case.data, whole)),
            (f"{case.name}: deductible", deductible_holds(case.data, whole)),
            (f"{case.name}: worth", worth_holds(case.data, whole)),
            (f"{case.name}: gross premium", gross_holds(case.data, whole)),
            (f"{case.name}: sum of cells", sum_holds(whole)),
            (f"{case.name}: order of members", member_order_holds(case.data, whole)),
            (f"{case.name}: lines written out", written_out_holds(case.data, whole)),
        ]
    return checks


# Deliberate mutations of the method

def negative_halves_up(numerator, divisor):
    return (2 * numerator + divisor) // (2 * divisor)


def error_times_k(k, D_k, H_k, f_value, R_value):
    return (pricing.up(k * abs(D_k) * R_value, pricing.UNIT)
            + pricing.up(H_k * (abs(f_value) + R_value), pricing.UNIT))


def without_H(k, D_k, H_k, f_value, R_value):
    return pricing.up(abs(D_k) * R_value, pricing.UNIT)


def without_beyond(members, horizon):
    return [m for m in pricing.group_1(members) if max(m.d, m.e) <= horizon]


def mean_of_reachable(members, frequency):
    return right_mean([m for m in members if max(m.d, m.e) <= 24], frequency)


def last_of_pair(m, n, l, x, horizon):
    pair = m.d == m.e and m.q > 0 and m.i > 0
    return right_is_placed(m, n, l, x, horizon) and not (pair and l < n)


def even_added(D, H, n, x, v, lives):
    D[x] += lives * pricing.nearest(x * v, n)
    H[x] += lives * x


def rounded_apart(row, q, i, p):
    """The two parts of a v rounded each by itself."""
    return [pricing.nearest(q * (row[l - 1] if l else 0), p) + pricing.nearest(i * row[l], p)
            for l in range(len(row))]


def neighbours_swapped(row, q, i, p):
    return right_next_row(row, i, q, p)


def over_the_row(row, q, i, p):
    """Made in the row's own cells from the left: the neighbour is already the new one."""
    row = list(row)
    for l in range(len(row)):
        row[l] = pricing.nearest(q * (row[l - 1] if l else 0) + i * row[l], p)
    return row


def last_column_left_out(row, q, i, p):
    """As if row n + 1 ended at column n."""
    made = right_next_row(row, q, i, p)
    columns = max(l for l in range(len(row)) if row[l] or not l) + 1
    return made[:columns] + [0] * (len(row) - columns)


def equal_ages_pass(rate_rows, age, q, i):
    before = [row for row in rate_rows if row[0] != age]
    return right_rate_in_range(before, age, q, i)


def open_line_passes(line, key, count):
    return right_numbers_of(replace(line, ended=True), key, count)


def cells_left(refusal, lengths):
    return replace(right_refused(refusal, lengths),
                   f=tuple(1 for _ in range(lengths[2])))


def quantile_left(refusal, lengths):
    return replace(right_refused(refusal, lengths), quantile=0)


def gross_left(refusal, lengths):
    return replace(right_refused(refusal, lengths), gross=1)


def first_four_only(lengths, horizon):
    right_check_short(lengths[:4], horizon)


def sums_of_sizes(f):
    return right_running_sums(map(abs, f))


def sums_without_own(f):
    return [0] + right_running_sums(f)[:-1]


def last_reached(F, level):
    before = right_quantile(F[::-1], level)
    return None if before is None else len(F) - 1 - before


def only_above(F, level):
    return right_quantile(F, level + 1) if level < 10 ** 12 else None


def level_0_at_0(F, level):
    return right_quantile(F, level) if level else 0


def row_of_a_lower_age(rate_rows, age):
    """A row that holds only above its age."""
    return right_rate_in_force([row for row in rate_rows if row[0] < age], age)


def rate_of_next_row(rate_rows, age):
    """A row that holds up to its age."""
    return min(((row[0], row[1:]) for row in rate_rows if row[0] >= age), default=(0, None))[1]


def first_row(rate_rows, age):
    return right_rate_in_force(rate_rows[:1], age)


def until_the_last_row(rate_rows, age):
    return right_rate_in_force(rate_rows, age) if rate_rows and age <= rate_rows[-1][0] else None


def from_age_0(rate_rows, age):
    return right_rate_in_force(rate_rows, max(age, rate_rows[0][0])) if rate_rows else None


def none_is_zero(rate_rows, age):
    return right_rate_in_force(rate_rows, age) or (0, 0)


def loaded_by_horizon(data, lengths, level):
    answer, fund = right_accepted(data, lengths, level), pricing.read_fund(data)
    return replace(answer, gross=pricing.gross(answer.premium, answer.bound, fund.worth, fund.horizon))


def edge_moved(step, by):
    """The loadings with this step's first deductible moved."""
    return tuple((edge + by * (k == step), loading) for k, (edge, loading) in enumerate(pricing.LOADINGS))


def loading_of(step, other):
    """The loadings with this step's taken from the other."""
    return tuple((edge, pricing.LOADINGS[other if k == step else k][1])
                 for k, (edge, _) in enumerate(pricing.LOADINGS))


def most(premium, bound):
    return max(premium + bound, 0)


def gross_nearest(premium, bound, worth, deductible):
    return pricing.nearest(most(premium, bound) * worth * pricing.loading(deductible), 10 ** 15)


def gross_down(premium, bound, worth, deductible):
    return most(premium, bound) * worth * pricing.loading(deductible) // 10 ** 15


def gross_down_and_one(premium, bound, worth, deductible):
    return gross_down(premium, bound, worth, deductible) + 1


def gross_wrapped(premium, bound, worth, deductible):
    return pricing.up(most(premium, bound) * worth * pricing.loading(deductible) % 2 ** 64, 10 ** 15)


def gross_without_bound(premium, bound, worth, deductible):
    return right_gross(premium, 0, worth, deductible)


def gross_apart(premium, bound, worth, deductible):
    return right_gross(premium, 0, worth, deductible) + right_gross(0, bound, worth, deductible)


def gross_below_zero(premium, bound, worth, deductible):
    return pricing.up((premium + bound) * worth * pricing.loading(deductible), 10 ** 15)


def premium_below_zero_dropped(premium, bound, worth, deductible):
    return right_gross(max(premium, 0), bound, worth, deductible)


def centimes_before_loading(premium, bound, worth, deductible):
    centimes = pricing.up(most(premium, bound) * worth, pricing.UNIT)
    return pricing.up(centimes * pricing.loading(deductible), 1000)


def units_before_worth(premium, bound, worth, deductible):
    units = pricing.up(most(premium, bound) * pricing.loading(deductible), 1000)
    return pricing.up(units * worth, pricing.UNIT)


def swapped(frequency):
    return pricing.Frequencies(frequency.disability, frequency.death)


def death_for_both(frequency):
    return pricing.Frequencies(frequency.death, frequency.death)


def disability_for_both(frequency):
    return pricing.Frequencies(frequency.disability, frequency.disability)


def with_frequencies(function, change):
    """The function with the frequencies that it is given changed."""
    return lambda *given: function(*(change(one) if isinstance(one, pricing.Frequencies) else one for one in given))


def one_number_too(reader):
    """The first delivery's line still read, beside the new one."""
    position, place = reader.position, reader.place
    try:
        return pricing.Frequencies(*[pricing.read_header(reader, b"frequency=", 0, 5000)] * 2)
    except pricing.Refusal:
        reader.position, reader.place = position, place
        return right_read_frequencies(reader)


def third_number_passes(line, key, count):
    numbers = right_numbers_of(line, key, count)
    if numbers is None and key == b"frequency=":
        return (right_numbers_of(line, key, 3) or [])[:2] or None
    return numbers


def limit_of(index):
    """A reader that asks only one of the two for its limit."""
    def read(reader):
        line = reader.take()
        numbers = pricing.numbers_of(line, b"frequency=", 2)
        if numbers is None:
            raise line.refusal(pricing.FORM)
        if numbers[index] > pricing.FREQUENCY_HIGH:
            raise line.refusal(pricing.RANGE)
        return pricing.Frequencies(*numbers)
    return read


def limit_before_form(reader):
    """The first number's limit is asked before the rest is read."""
    line = reader.take()
    first = pricing.number_of(line.text.removeprefix(b"frequency=").split(b",")[0])
    if first is not None and first > pricing.FREQUENCY_HIGH:
        raise line.refusal(pricing.RANGE)
    reader.position, reader.place = line.start, line.place - 1
    return right_read_frequencies(reader)


def half_before_folding(member, q, i):
    if member.group == 1 and q + i >= pricing.HALF:
        raise member.line.refusal(pricing.TOO_HALF)
    return right_fold(member, q, i)


right_is_placed = pricing.is_placed
right_mean = pricing.mean
right_next_row = pricing.next_row
right_rate_in_range = pricing.rate_in_range
right_fold = pricing.fold
right_numbers_of = pricing.numbers_of
right_refused = pricing.refused
right_check_short = pricing.check_short
right_running_sums = pricing.running_sums
right_quantile = pricing.quantile
right_rate_in_force = pricing.rate_in_force
right_accepted = pricing.accepted
right_gross = pricing.gross
right_read_frequencies = pricing.read_frequencies

MUTATIONS = (
    ("negative halves up", "nearest", negative_halves_up),
    ("error times k again", "product_bound", error_times_k),
    ("H term dropped", "product_bound", without_H),
    ("a member beyond X dropped from p", "start_members", without_beyond),
    ("a member beyond X dropped from the mean", "mean", mean_of_reachable),
    ("r instead of r + 1 steps of w", "truncation_steps", lambda order: order),
    ("last term of an equal pair kept", "is_placed", last_of_pair),
    ("even terms added", "place_term", even_added),
    ("a v rounded in two parts", "next_row", rounded_apart),
    ("the neighbours of a v swapped", "next_row", neighbours_swapped),
    ("a row made over the row above it", "next_row", over_the_row),
    ("a row without its last column", "next_row", last_column_left_out),
    ("half tested before folding", "fold", half_before_folding),
    ("equal ages pass", "rate_in_range", equal_ages_pass),
    ("a last line without line feed passes", "numbers_of", open_line_passes),
    ("cells left after a refusal", "refused", cells_left),
    ("load limit one lower", "LOAD_HIGH", pricing.LOAD_HIGH - 1),
    ("load limit one higher", "LOAD_HIGH", pricing.LOAD_HIGH + 1),
    ("truncation limit one lower", "TRUNCATION_HIGH", pricing.TRUNCATION_HIGH - 1),
    ("truncation limit one higher", "TRUNCATION_HIGH", pricing.TRUNCATION_HIGH + 1),
    ("bound limit one lower", "BOUND_HIGH", pricing.BOUND_HIGH - 1),
    ("bound limit one higher", "BOUND_HIGH", pricing.BOUND_HIGH + 1),
    ("quantile by bisection", "quantile", quantile_funds.bisected),
    ("the last x that reaches the level", "quantile", last_reached),
    ("a level that is met exactly passed over", "quantile", only_above),
    ("level 0 not asked", "quantile", level_0_at_0),
    ("level limit one lower", "LEVEL_HIGH", pricing.LEVEL_HIGH - 1),
    ("level limit one higher", "LEVEL_HIGH", pricing.LEVEL_HIGH + 1),
    ("running sums of sizes", "running_sums", sums_of_sizes),
    ("running sums without f(x)", "running_sums", sums_without_own),
    ("the slice for F not counted under short", "check_short", first_four_only),
    ("a quantile after a refusal", "refused", quantile_left),
    ("a rate for the row's own age only", "rate_in_force", rate_funds.by_age_alone),
    ("a rate not yet at the row's age", "rate_in_force", row_of_a_lower_age),
    ("the rate of the next row", "rate_in_force", rate_of_next_row),
    ("the rate of the first row", "rate_in_force", first_row),
    ("no rate above the last row", "rate_in_force", until_the_last_row),
    ("the first row's rate below its age", "rate_in_force", from_age_0),
    ("rates of 0 where none is in force", "rate_in_force", none_is_zero),
    ("loading by the horizon", "accepted", loaded_by_horizon),
    ("the loading of 99 at 100", "LOADINGS", edge_moved(1, 1)),
    ("the loading of 100 at 99", "LOADINGS", edge_moved(1, -1)),
    ("the loading of 299 at 300", "LOADINGS", edge_moved(2, 1)),
    ("the loading of 300 at 299", "LOADINGS", edge_moved(2, -1)),
    ("the loading of 599 at 600", "LOADINGS", edge_moved(3, 1)),
    ("the loading of 600 at 599", "LOADINGS", edge_moved(3, -1)),
    ("the second step's loading in the first", "LOADINGS", loading_of(0, 1)),
    ("the first step's loading in the second", "LOADINGS", loading_of(1, 0)),
    ("the second step's loading in the third", "LOADINGS", loading_of(2, 1)),
    ("the third step's loading in the last", "LOADINGS", loading_of(3, 2)),
    ("the gross premium to the nearest centime", "gross", gross_nearest),
    ("the gross premium taken down", "gross", gross_down),
    ("always a centime more than taken down", "gross", gross_down_and_one),
    ("a product that wraps at 2^64", "gross", gross_wrapped),
    ("the bound left out of the gross premium", "gross", gross_without_bound),
    ("premium and bound taken up apart", "gross", gross_apart),
    ("centimes taken up before the loading", "gross", centimes_before_loading),
    ("units taken up before the worth", "gross", units_before_worth),
    ("a gross premium below 0", "gross", gross_below_zero),
    ("a premium below 0 dropped before the bound", "gross", premium_below_zero_dropped),
    ("a gross premium after a refusal", "refused", gross_left),
    ("worth 0 passes", "WORTH_LOW", pricing.WORTH_LOW - 1),
    ("least worth one higher", "WORTH_LOW", pricing.WORTH_LOW + 1),
    ("most worth one lower", "WORTH_HIGH", pricing.WORTH_HIGH - 1),
    ("the frequencies read in the other order", "read_frequencies", lambda reader: swapped(right_read_frequencies(reader))),
    ("a single frequency still read", "read_frequencies", one_number_too),
    ("a third frequency passed over", "numbers_of", third_number_passes),
    ("the limit of the death frequency alone", "read_frequencies", limit_of(0)),
    ("the limit of the disability frequency alone", "read_frequencies", limit_of(1)),
    ("the limit of the death frequency before the form", "read_frequencies", limit_before_form),
    ("most frequency one lower", "FREQUENCY_HIGH", pricing.FREQUENCY_HIGH - 1),
    ("most frequency one higher", "FREQUENCY_HIGH", pricing.FREQUENCY_HIGH + 1),
)

# Where the frequencies are used.
WEIGHED = (
    ("lambda", pricing, "lambda_units"), ("D", pricing, "add_group_2"), ("the mean", pricing, "mean"),
    ("every weight", pricing, "group_2_weights"), ("the exact weights", exact, "weights"),
    ("the exact lambda", exact, "lambda_value"), ("the exact weights multiplied out", exact, "poisson_numerators"),
)

FREQUENCY_MUTATIONS = tuple(
    (f"{name} in {where}", module, target, with_frequencies(getattr(module, target), change))
    for name, change in (("the frequencies swapped", swapped), ("the death frequency for both", death_for_both),
                         ("the disability frequency for both", disability_for_both))
    for where, module, target in WEIGHED)


def failures(checks):
    return sum(not holds for _, holds in checks)


def noticed(small, limits, damaged):
    """How many checks of each family fail."""
    return {
        "document": failures(document_funds.checks()),
        "demand 3": failures(distance_checks(small)),
        "formulas": failures(formula_checks(small)),
        "expected": failures(expected_checks(limits + damaged)),
        "answers": failures(answer_checks(limits)),
        "quantiles": failures(quantile_funds.checks()),
        "rates": failures(rate_funds.checks()),
        "tariff": failures(tariff_funds.checks()),
        "triangle": failures(triangle_funds.fund_checks()),
        "frequencies": failures(frequency_funds.fund_checks()),
        "distribution": failures(distribution_funds.fund_checks()),
        "lives": failures(lives_funds.fund_checks()),
    }


def noticed_in_listings(small):
    return {
        "document": failures(document_funds.checks()),
        "demand 3": failures(distance_checks(small)),
        "formulas": failures(formula_checks(small)),
        "answers": failures(answer_checks(small)),
        "distribution": failures(distribution_funds.fund_checks()),
    }


def shown(found):
    return ", ".join(f"{family} {number}" for family, number in found.items())


def mutation_funds():
    return [case for case in with_slices(generate.small_funds(11, 48), SHORT_SLICES)
            if "long" not in case.name and "alllives" not in case.name]


def cell_line_mutation_checks():
    """Each wrong cell line is told apart by a fund worked by hand; nothing fails without one."""
    small = mutation_funds()[::2]
    checks = [("no mutation: no check of cell lines fails", not any(noticed_in_listings(small).values()))]
    for name, target, value in distribution_funds.MUTATIONS:
        with distribution_funds.mutated(target, value):
            found = noticed_in_listings(small)
        print(f"  mutation of cell lines: {name}: {shown(found)}")
        checks.append((f"mutation noticed: {name}", found["distribution"] > 0))
    return checks


def noticed_of_lives(small):
    return {
        "demand 3": failures(distance_checks(small)),
        "formulas": failures(formula_checks(small)),
        "expected": failures(expected_checks(generate.lives_damaged())),
        "lives": failures(lives_funds.fund_checks()),
    }


def lives_mutation_checks():
    """Each wrong program for lines with several lives is told apart by a fund worked by hand; nothing fails without one."""
    small = mutation_funds()[::3]
    checks = [("no mutation: no check of lives fails", not any(noticed_of_lives(small).values()))]
    for name, module, target, value in lives_mutations.MUTATIONS:
        with mock.patch.object(module, target, value):
            found = noticed_of_lives(small)
        print(f"  mutation of lives: {name}: {shown(found)}")
        checks.append((f"mutation noticed: {name}", found["lives"] > 0))
    return checks


def mutation_checks():
    """Each mutation makes at least one check fail; nothing fails without one."""
    small = mutation_funds()
    limits = [case for case in generate.limit_funds() if "1000" not in case.name
              and "-high" not in case.name]
    damaged = generate.damaged_files()
    damaged = damaged[::9] + [case for case in damaged if "half" in case.name
                              or "range-" in case.name or "-cut-" in case.name
                              or "frequency=" in case.name]
    checks = [("no mutation: nothing fails",
               not any(noticed(small, limits, damaged).values()))]
    changes = [(name, pricing, target, value) for name, target, value in MUTATIONS]
    for name, module, target, value in [*changes, *FREQUENCY_MUTATIONS]:
        with mock.patch.object(module, target, value):
            found = noticed(small, limits, damaged)
        print(f"  mutation: {name}: {shown(found)}")
        checks.append((f"mutation noticed: {name}", any(found.values())))
    return checks


# The tools

def case_tool_checks():
    with tempfile.TemporaryDirectory() as directory:
        one, two = Path(directory) / "one", Path(directory) / "two"
        cases.write(one, 60, 3)
        cases.write(two, 60, 3)
        same = ([path.name for path in sorted(one.iterdir())]
                == [path.name for path in sorted(two.iterdir())])
        same = same and all(path.read_bytes() == (two / path.name).read_bytes()
                            for path in one.iterdir())
        checks = [("stored cases: two files for each", len(list(one.iterdir())) == 120),
                  ("stored cases: the same seed gives the same files", same),
                  ("stored cases: none differ", cases.differing(one) == ([], 60))]
        changed = sorted(one.glob("*.listing"))[0]
        changed.write_bytes(changed.read_bytes()[:-1])
        sorted(one.glob("*.fund"))[-1].unlink()
        checks.append(("stored cases: a changed and a missing file are found",
                       len(cases.differing(one)[0]) == 2))
    return checks


def stream_checks():
    made = cases.file_cases(60, 3)
    given, wanted = cases.stream_of(made)
    return [("stream: the files and levels are read back", cases.cases_of(given) == made),
            ("stream: the same seed gives the same", cases.file_cases(60, 3) == made),
            ("stream: levels of up to thirteen digits", max(level for _, _, level in made) < 10 ** 13),
            ("stream: its first bytes", given.startswith(b"f %06d 000000 000000 %013d\n" % (len(made[0][1][0]), made[0][2]) + made[0][1][0])),
            ("stream: a quantile for each that is accepted",
             wanted.count(b"\nquantile=") == sum(pricing.price(*file).number == 0 for _, file, _ in made)),
            ("stream: the first answer",
             cases.answer_of(cases.A_FILE, (document_funds.FIRST_FILE,), 900000000001)
             == document_funds.FIRST_LISTING.encode("ascii") + b"line=\nquantile=1\n\n"),
            ("stream: a refusal", cases.answer_of(cases.A_FILE, (document_funds.HALF.data(),), 0)
             == b"refused=6,9\nline=member=40,1,1,0,1\nrefused=6,9\n\n")]


def sheet_stream_checks():
    made = cases.sheet_cases(60, 3)
    given, wanted = cases.stream_of(made)
    first = sheets.sheets_of(document_funds.FIRST)
    header, rates, members = sheet_funds.HEADER, sheet_funds.RATES, sheet_funds.MEMBERS

    def answer_of(three, level):
        return cases.answer_of(cases.SHEETS, three, level)

    return [("stream of sheets: the texts and levels are read back", cases.cases_of(given) == made),
            ("stream of sheets: the same seed gives the same", cases.sheet_cases(60, 3) == made),
            ("stream of sheets: heads of 37 bytes", {len(cases.head_of(*case)) for case in made} == {37}),
            ("stream of sheets: the first answer", answer_of(first, 900000000001)
             == document_funds.FIRST_LISTING.encode("ascii") + b"line=\nquantile=1\n\n"),
            ("stream of sheets: a cell", answer_of((header, rates, members[:-1]), 0)
             == b"refused=11,6\nline=\nrefused=11,6\n\n"),
            ("stream of sheets: bytes after the header", answer_of((header + b"end=0\n", rates, members), 0)
             == b"refused=1,8\nline=end=0\nrefused=1,8\n\n"),
            ("stream of sheets: a quantile for each that is accepted",
             wanted.count(b"\nquantile=") == sum(sheets.price_sheets(*three).number == 0 for _, three, _ in made))]


def stored_stream_checks():
    with tempfile.TemporaryDirectory() as directory:
        folder = Path(directory)
        count = cases.write_stream(folder, 10, 5, 10, 3)
        stored = (folder / "stdin").read_bytes()
        same = cases.file_cases(10, 3) + cases.sheet_cases(5, 3) + cases.pair_cases(10, 3)
        checks = [("stored stream: files, sheets, then pairs", cases.cases_of(stored) == same),
                  ("stored stream: none differs", cases.stream_holds(folder) == (True, count) and count == len(same))]
        (folder / "stdin").write_bytes(stored.replace(b"f ", b"p ", 1))
        checks.append(("stored stream: another kind differs", cases.stream_holds(folder) == (False, count)))
        (folder / "stdin").write_bytes(stored[:-1])
        return checks + [("stored stream: a text cut short differs", cases.stream_holds(folder) == (False, count))]


def sheet_program_checks():
    """The programs on sheets: the full fund's listing, with blanks; and the answer at a level."""
    with tempfile.TemporaryDirectory() as directory:
        folder = Path(directory)
        cases.write_sheet_program(folder, *cases.sheet_programs()["sheets"])
        printed = (folder / "stdout").read_bytes()
        names = [path.name for path in sorted((folder / "data").iterdir())]
        checks = [("program sheets: the full fund's listing", printed == cases.listing_of(generate.full_fund().data())),
                  ("program sheets: its files", names == ["header", "members", "rates"]),
                  ("program sheets: its arguments", (folder / "args").read_text() == "header\nrates\nmembers\n"),
                  ("program sheets: with blanks", (folder / "data" / "members").read_bytes()
                   != sheets.sheets_of(generate.full_fund())[2]),
                  ("program sheets: does not differ", cases.wanted_of(folder) == printed)]
        (folder / "data" / "rates").write_bytes(b"")
        checks += [("program sheets: another sheet differs", cases.wanted_of(folder) != printed)]
        cases.write_sheet_program(folder, *cases.sheet_programs()["sheets_level"])
        printed = (folder / "stdout").read_bytes()
        file = (Path(__file__).resolve().parent.parent / "examples" / "sixty-members.fund").read_bytes()
        checks += [("program sheets_level: the file's line", printed == cases.level_line(file, 990000000000)),
                   ("program sheets_level: its arguments",
                    (folder / "args").read_text() == "header\nrates\nmembers\n990000000000\n"),
                   ("program sheets_level: does not differ", cases.wanted_of(folder) == printed)]
        (folder / "args").write_text("header\nrates\nmembers\n495000000000\n")
        checks += [("program sheets_level: half the level differs", cases.wanted_of(folder) != printed)]
        (folder / "args").write_text("header\nmembers\nrates\n990000000000\n")
        return checks + [("program sheets_level: sheets exchanged differ", cases.wanted_of(folder) != printed)]


def row_checks():
    """The printed rows: read back, they are the fractions of accepted funds."""
    checks = []
    for row in json.loads(json.dumps(exact_rows.rows())):
        data = row["file"].encode("ascii")
        values = [Fraction(text) for text in row["values"]]
        X, M = int(row["horizon"]), int(row["deductible"])
        fund, members = exact.read_and_fold(data)
        again = (exact.mean(fund, members) - M
                 + sum((M - x) * values[x] for x in range(M)))
        checks += [
            (f"row {row['name']}: accepted", pricing.price(data).number == 0),
            (f"row {row['name']}: values",
             len(values) == X + 1 and values == exact.values(fund, members)
             and all(value >= 0 for value in values)),
            (f"row {row['name']}: premium",
             Fraction(row["premium"]) == again * 10 ** 12),
            (f"row {row['name']}: average excess",
             row["average_excess"] in (None, row["premium"])),
            (f"row {row['name']}: demand 3", not exact.check_distance(data)),
        ]
    return checks


def program_checks():
    """The calculation as a program prints the listing of the first fund."""
    program = Path(__file__).resolve().parent / "pricing.py"
    done = subprocess.run([sys.executable, str(program)], check=True,
                          input=document_funds.FIRST_FILE, stdout=subprocess.PIPE)
    return [("program: the listing",
             done.stdout == document_funds.FIRST_LISTING.encode("ascii"))]


def random_bytes_cases(seed, number):
    rng = random.Random(seed)
    return [generate.Case(f"bytes-{index}", bytes(rng.randrange(256) for _ in range(index)),
                          None, (index % 3,) * 5) for index in range(number)]


def sections():
    small = with_slices(generate.small_funds(2024, 360), SHORT_SLICES)
    damaged = generate.damaged_files()
    limits = generate.limit_funds()
    changed = with_slices(generate.random_damage(7, 1500), SHORT_SLICES)
    any_bytes = random_bytes_cases(5, 30)
    yield "the first delivery", document_funds.checks()
    yield "demand 3", distance_checks(small, COMPARED)
    yield "demand 3 at limits", distance_checks(small_limit_funds(), COMPARED)
    yield "demand 3 after random changes", distance_checks(changed[9::10], COMPARED)
    yield "formulas", formula_checks(small[::2]) + formula_checks(small_limit_funds()[::3])
    yield "limits", expected_checks(limits) + limit_figure_checks()
    yield "damaged files", expected_checks(damaged)
    yield "answers", answer_checks(small + limits + damaged + changed + any_bytes)
    yield "second reader", reading_checks(limits + damaged + changed + any_bytes)
    yield "quantiles", quantile_funds.checks() + answer_checks(quantile_funds.cases())
    gaps = with_slices(generate.gap_funds(2, 240), SHORT_SLICES)
    yield "rates for some ages", (rate_funds.checks() + answer_checks(rate_funds.cases() + gaps)
                                  + distance_checks(rate_funds.cases() + gaps, COMPARED) + formula_checks(gaps[::4]))
    steps = generate.step_funds(3, 48)
    yield "tariff", (tariff_funds.checks() + answer_checks(tariff_funds.cases() + steps)
                     + reading_checks(tariff_funds.cases()) + distance_checks(tariff_funds.cases(), COMPARED)
                     + formula_checks(tariff_funds.cases()))
    yield "triangle", (triangle_funds.checks() + answer_checks(triangle_funds.cases())
                       + distance_checks(triangle_funds.cases(), COMPARED) + formula_checks(triangle_funds.cases()))
    yield "frequencies", (frequency_funds.checks() + answer_checks(frequency_funds.cases())
                          + reading_checks(frequency_funds.cases()) + distance_checks(frequency_funds.cases(), COMPARED)
                          + formula_checks(frequency_funds.cases()))
    lives = lives_funds.cases()
    yield "lines for several lives", (lives_funds.checks() + answer_checks(lives) + reading_checks(lives)
                                      + distance_checks(lives, COMPARED) + formula_checks(lives))
    known = distribution_funds.cases()
    alone = generate.one_by_one_funds(7, 30) + distribution_funds.unreplaced_cases()
    yield "distribution function", (distribution_funds.checks() + answer_checks(known) + distance_checks(known, COMPARED)
                                    + formula_checks(known) + one_by_one_checks(alone))
    yield "sheets", sheet_checks.checks()
    yield "sheet_bytes", test_sheet_bytes.checks()
    priced = [case for case in steps if pricing.price(case.data).number == 0]
    yield "larger funds", large_checks(generate.large_funds(9, 6) + priced[::5] + example_cases())
    yield "stored cases", (case_tool_checks() + stream_checks() + sheet_stream_checks() + stored_stream_checks()
                            + sheet_program_checks())
    yield "exact rows", row_checks()
    yield "program", program_checks()
    yield "mutations", mutation_checks()
    yield "mutations of cell lines", cell_line_mutation_checks()
    yield "mutations of lives", lives_mutation_checks()
    yield "mutations of sheets", sheet_checks.mutation_checks()


def main():
    passed = failed = 0
    for name, checks in sections():
        for check, holds in checks:
            if not holds:
                print(f"  FAILED {check}")
        bad = failures(checks)
        passed, failed = passed + len(checks) - bad, failed + bad
        print(f"{name}: {len(checks) - bad} passed, {bad} failed")
        if not checks:
            failed += 1
            print(f"  FAILED {name}: no checks")
    print(f"compared with exact values: {COMPARED.text()}")
    print(f"{passed} passed, {failed} failed")
    return 1 if failed else 0


if __name__ == "__main__":
    sys.exit(main())
