"""The exact values of METHOD 10, from the fund's input alone.

The fractions share with pricing.py only reading and folding, the whole numbers
the weights of group 2 too.  A line for several lives counts as so many copies: the
fractions go through the copies one by one, the whole numbers count in how many ways
so many of a line's lives die and so many become disabled.
check_distance(data) checks demand 3 for one file, that the gross premium
is not below the exact premium's loaded worth, and what METHOD 10
says of the cell lines (§7): the sum of all distances up to x and the distance of
F(x) are within the bound printed at x, and what that means for the answer at a level.
"""

import random
from fractions import Fraction
from itertools import accumulate, product as outcomes_of
from math import comb, factorial, floor

import pricing

ONE = Fraction(1)
UNIT = 10 ** 12
TERMS = 63


# The exact values as fractions

def convolve(left, right):
    """Both are values at 0 to X; the result too."""
    return [sum(left[k] * right[x - k] for k in range(x + 1))
            for x in range(len(left))]


def at_zero(horizon):
    """1 at 0 and 0 elsewhere."""
    return [ONE] + [0 * ONE] * horizon


def below(values, x):
    """0 below 0 too."""
    return values[x] if x >= 0 else 0 * ONE


def copies(members):
    """Each line as often as it has lives, in its spot."""
    return [m for m in members for _ in range(m.lives)]


def group_1_part(members, horizon):
    """Each life maps g(x) to (p g(x) + q g(x-d) + i g(x-e))/10^6."""
    g = at_zero(horizon)
    for m in copies(pricing.group_1(members)):
        g = [(m.p * g[x] + m.q * below(g, x - m.d) + m.i * below(g, x - m.e))
             / 10 ** 6 for x in range(horizon + 1)]
    return g


def weighted_amounts(members, frequency):
    """Of each life of group 2: d with q x a, and e with i x b, as plain fractions."""
    a, b = Fraction(frequency.death, 1000), Fraction(frequency.disability, 1000)
    return [pair for m in copies(pricing.group_2(members))
            for pair in ((m.d, Fraction(m.q, 10 ** 6) * a), (m.e, Fraction(m.i, 10 ** 6) * b))]


def lambda_value(members, frequency):
    return sum((weight for _, weight in weighted_amounts(members, frequency)), 0 * ONE)


def weights(members, frequency, horizon):
    """The weight at k, from 1 to X, as a plain fraction."""
    values = [0 * ONE] * (horizon + 1)
    for k, weight in weighted_amounts(members, frequency):
        if 1 <= k <= horizon:
            values[k] += weight
    return values


def exponential(lam):
    """The sum of (-lambda)^j/j! for j to 63."""
    total = term = ONE
    for j in range(1, TERMS + 1):
        term *= -lam / j
        total += term
    return total


def poisson_part(members, frequency, horizon):
    weight = weights(members, frequency, horizon)
    power = at_zero(horizon)
    total = at_zero(horizon)
    for n in range(1, horizon + 1):
        power = convolve(power, weight)
        total = [a + b / factorial(n) for a, b in zip(total, power)]
    factor = exponential(lambda_value(members, frequency))
    return [value * factor for value in total]


def values(fund, members):
    """The exact value at each x from 0 to X."""
    return convolve(group_1_part(members, fund.horizon),
                    poisson_part(members, fund.frequency, fund.horizon))


def mean(fund, members):
    """The mean as a plain fraction."""
    ones = sum((Fraction(m.q * m.d + m.i * m.e, 10 ** 6) for m in copies(pricing.group_1(members))), 0 * ONE)
    return ones + sum(amount * weight for amount, weight in weighted_amounts(members, fund.frequency))


def premium(fund, members, exact):
    """The exact premium, in units."""
    M = fund.deductible
    return UNIT * (mean(fund, members) - M
                   + sum((M - x) * exact[x] for x in range(M)))


def outcomes(members):
    """Of all outcomes of the group 1 lives: the amount, and its chance over 10^(6g)."""
    choices = [((m.p, 0), (m.q, m.d), (m.i, m.e))
               for m in copies(pricing.group_1(members))]
    for outcome in outcomes_of(*choices):
        weight, amount = 1, 0
        for chance, payment in outcome:
            weight *= chance
            amount += payment
        yield amount, weight


def over_outcomes(members, total):
    return Fraction(total, 10 ** (6 * len(copies(pricing.group_1(members)))))


def average_excess(fund, members):
    """Of all outcomes of the group 1 lives: the average excess over M, in units."""
    M = fund.deductible
    return UNIT * over_outcomes(members, sum(weight * max(amount - M, 0) for amount, weight in outcomes(members)))


def chances_within(fund, members):
    """Of all outcomes of the group 1 lives: the chance of at most x, for each x up to X."""
    listed = list(outcomes(members))
    return [over_outcomes(members, sum(weight for amount, weight in listed if amount <= x))
            for x in range(fund.horizon + 1)]


def loading(deductible):
    """The tariff's, in thousandths: 200 more from each of these deductibles on."""
    return 1500 + 200 * sum(deductible >= edge for edge in (100, 300, 600))


def loaded_worth(fund, exact_premium):
    """Of an exact premium in units: in centimes, not rounded."""
    return exact_premium * fund.worth * loading(fund.deductible) / 10 ** 15


# The same values as whole numbers over one denominator

def group_1_lives(members):
    """g: the lives of group 1."""
    return sum(m.lives for m in members if m.group == 1)


def denominator(fund, members):
    """10^(6g + 12X + 756) x X! x 63!"""
    g, X = group_1_lives(members), fund.horizon
    return 10 ** (6 * g + 12 * X + 12 * TERMS) * factorial(X) * factorial(TERMS)


def claims_within(lives, amount, chance, room):
    """The numbers of claims of this amount that so many lives can have within the room; none where there is no chance."""
    return range(min(lives, room // amount) + 1) if chance else range(1)


def line_numerators(m, horizon):
    """Of a line, over 10^(6 lives): the ways in which so many of its lives die and so many become disabled."""
    result = [0] * (horizon + 1)
    for deaths in claims_within(m.lives, m.d, m.q, horizon):
        others = m.lives - deaths
        for disabled in claims_within(others, m.e, m.i, horizon - deaths * m.d):
            ways = comb(m.lives, deaths) * comb(others, disabled)
            chance = m.q ** deaths * m.i ** disabled * m.p ** (others - disabled)
            result[deaths * m.d + disabled * m.e] += ways * chance
    return result


def group_1_numerators(members, horizon):
    """Over 10^(6g): what each line gives is carried to its place."""
    g = [1] + [0] * horizon
    for m in pricing.group_1(members):
        line = line_numerators(m, horizon)
        places = [k for k in range(horizon + 1) if line[k]]
        g = [sum(line[k] * g[x - k] for k in places if k <= x) for x in range(horizon + 1)]
    return g


def poisson_numerators(members, frequency, horizon):
    """Over 10^(12X) x X!, without the exponential factor."""
    weight = [0] * (horizon + 1)
    for k, units in pricing.group_2_weights(members, frequency):
        if 1 <= k <= horizon:
            weight[k] += units
    power = [1] + [0] * horizon
    total = [0] * (horizon + 1)
    for n in range(horizon + 1):
        scale = (10 ** (12 * (horizon - n))
                 * (factorial(horizon) // factorial(n)))
        total = [a + scale * b for a, b in zip(total, power)]
        power = convolve(power, weight)
    return total


def exponential_numerator(lam):
    """Over 10^756 x 63!, for lambda in units."""
    return sum((-lam) ** j * 10 ** (12 * (TERMS - j))
               * (factorial(TERMS) // factorial(j)) for j in range(TERMS + 1))


def numerators(fund, members):
    """The whole numbers that stand over denominator(fund, members)."""
    factor = exponential_numerator(
        pricing.lambda_units(members, fund.frequency))
    part_1 = group_1_numerators(members, fund.horizon)
    part_2 = poisson_numerators(members, fund.frequency, fund.horizon)
    return [factor * value for value in convolve(part_1, part_2)]


def premium_numerator(fund, members, whole, over):
    """The exact premium in units, over the denominator `whole` of the values `over`."""
    M = fund.deductible
    units = sum(m.lives * (m.q * m.d + m.i * m.e) * 10 ** 6 for m in pricing.group_1(members))
    units += sum(amount * weight for amount, weight in pricing.group_2_weights(members, fund.frequency))
    return ((units - M * UNIT) * whole
            + UNIT * sum((M - x) * over[x] for x in range(M)))


# Demand 3

def few_outcomes(members):
    """At most 3^7 outcomes are listed one by one."""
    return group_1_lives(members) <= 7


def read_and_fold(data):
    fund = pricing.read_fund(data)
    return fund, pricing.match_and_fold(fund)


def check_cells(answer, exact):
    """Statements on f(0) to f(X) that do not hold."""
    return [f"f({x}) is not within R({x}) + 2E" for x, value in enumerate(exact)
            if abs(answer.f[x] - UNIT * value) > answer.R[x] + 2 * answer.truncation]


def check_cells_multiplied_out(answer, whole, over):
    """The same comparison of each f(x), in whole numbers."""
    return [f"f({x}) multiplied out is not within R({x}) + 2E"
            for x, numerator in enumerate(over)
            if abs(answer.f[x] * whole - UNIT * numerator)
            > (answer.R[x] + 2 * answer.truncation) * whole]


# The distribution function

class Compared:
    """How many comparisons were made, and the largest share of a bound that a distance took."""

    def __init__(self):
        self.counts = dict.fromkeys(("sums of distances", "F", "levels", "places at levels"), 0)
        self.shares = dict.fromkeys(("sums of distances", "F"), 0.0)

    def add(self, name, distance, bound):
        self.counts[name] += 1
        if bound:
            self.shares[name] = max(self.shares[name], float(Fraction(distance) / bound))

    def add_level(self, places):
        self.counts["levels"] += 1
        self.counts["places at levels"] += places

    def text(self):
        return (", ".join(f"{count} {name}" for name, count in self.counts.items()) + "; the largest share of a bound: "
                + ", ".join(f"{share:.6f} of {name}" for name, share in self.shares.items()))


def printed_cells(answer):
    """The five numbers of each cell line of the listing."""
    return [tuple(map(int, line.removeprefix("cell=").split(",")))
            for line in pricing.listing(answer).splitlines() if line.startswith("cell=")]


def check_sums(cells, exact, seen):
    """The sum of all distances up to x, and the distance of F(x), against the bound printed at x."""
    broken = []
    distance = total = 0 * ONE
    for (x, f, _, F, bound), value in zip(cells, exact, strict=True):
        distance += abs(f - UNIT * value)
        total += UNIT * value
        seen.add("sums of distances", distance, bound)
        seen.add("F", abs(F - total), bound)
        if distance > bound:
            broken.append(f"the distances up to {x} are not within the printed bound")
        if abs(F - total) > bound:
            broken.append(f"F({x}) is not within the printed bound")
    return broken


def check_sums_multiplied_out(cells, whole, over):
    """The same comparisons in whole numbers."""
    broken = []
    distance = total = 0
    for (x, f, _, F, bound), numerator in zip(cells, over, strict=True):
        distance += abs(f * whole - UNIT * numerator)
        total += UNIT * numerator
        if max(distance, abs(F * whole - total)) > bound * whole:
            broken.append(f"the sums multiplied out are not within the bound printed at {x}")
    return broken


def levels_about(rng, cells, sums):
    """0 and 10^12, any, each F(x) and the levels beside it, and those about each exact sum and its bound."""
    levels = {0, 1, UNIT - 1, UNIT, *(rng.randint(0, UNIT) for _ in range(6))}
    for (_, _, _, F, bound), total in zip(cells, sums):
        levels |= {F - 1, F, F + 1, rng.randint(0, max(F, 0))}
        levels |= {floor(total) + by for by in (-bound - 1, -bound, 0, 1, bound, bound + 1)}
    return sorted(level for level in levels if 0 <= level <= UNIT)


def check_levels(cells, exact, rng, seen):
    """What the answer at a level says of the exact distribution function.

    At the answered x it is at least the level less the bound printed at x.  At each place before x, or
    where none is answered at each place up to the horizon, it is below the level and the bound printed there.
    """
    F = [cell[3] for cell in cells]
    sums = list(accumulate(UNIT * value for value in exact))
    # For whole levels: at most `reach` where it is reached, above `passed` where it is not.
    reach = [floor(total + cell[4]) for total, cell in zip(sums, cells)]
    passed = [floor(total - cell[4]) for total, cell in zip(sums, cells)]
    broken = []
    for level in levels_about(rng, cells, sums):
        x = pricing.quantile(F, level)
        before = passed if x is None else passed[:x]
        seen.add_level(len(before) + (x is not None))
        if x is not None and level > reach[x]:
            broken.append(f"level {level}: the exact sum at {x} is below the level less the bound")
        if not all(level > most for most in before):
            broken.append(f"level {level}: an exact sum before {x} is not below the level and its bound")
    return broken


def check_outcome_sums(fund, members, exact):
    """With lambda 0 the exact distribution function is the chance of at most x over all outcomes."""
    if (pricing.lambda_units(members, fund.frequency) == 0 and few_outcomes(members)
            and list(accumulate(exact)) != chances_within(fund, members)):
        return ["the exact distribution function is not that of the outcomes"]
    return []


def check_without_replacement(data, seen):
    """The statements on the cell lines where lambda is 0: for any horizon and number of lives."""
    answer = pricing.price(data)
    fund, members = read_and_fold(data)
    if answer.number or pricing.lambda_units(members, fund.frequency):
        return ["refused, or lambda is not 0"]
    whole, over = 10 ** (6 * group_1_lives(members)), group_1_numerators(members, fund.horizon)
    exact, cells = [Fraction(numerator, whole) for numerator in over], printed_cells(answer)
    return (check_sums(cells, exact, seen) + check_sums_multiplied_out(cells, whole, over)
            + check_levels(cells, exact, random.Random(data), seen))


# The premium

def check_premium(answer, fund, members, exact_premium):
    broken = []
    if abs(answer.premium - exact_premium) > answer.bound:
        broken.append("the premium is not within its bound")
    if (pricing.lambda_units(members, fund.frequency) == 0
            and few_outcomes(members)
            and exact_premium != average_excess(fund, members)):
        broken.append("the exact premium is not the average excess")
    return broken


def check_gross(answer, fund, exact_premium):
    if answer.gross < loaded_worth(fund, exact_premium):
        return ["the gross premium is below the exact premium's loaded worth"]
    return []


def check_gross_multiplied_out(answer, fund, whole, numerator):
    """The same comparison in whole numbers, for the exact premium's numerator."""
    if answer.gross * 10 ** 15 * whole < numerator * fund.worth * loading(fund.deductible):
        return ["the gross premium multiplied out is below the loaded worth"]
    return []


def check_numerators(whole, over, exact):
    """The fractions and the whole numbers are the same values."""
    return [f"the numerator at {x} is not the exact value"
            for x, numerator in enumerate(over) if exact[x] * whole != numerator]


def check_premium_numerator(whole, numerator, exact_premium):
    if exact_premium * whole != numerator:
        return ["the premium's numerator is not the exact premium"]
    return []


def check_gross_by_outcomes(data):
    """The tariff's statement by the average excess: lambda 0, few lives, any horizon."""
    answer = pricing.price(data)
    if answer.number:
        return []
    fund, members = read_and_fold(data)
    return check_gross(answer, fund, average_excess(fund, members))


def check_distance(data, answer=None, seen=None):
    """The statements of demand 3 and on the cell lines that do not hold for this file; [] if all do.

    A refused file has nothing to hold.  What is compared is counted in `seen`.
    """
    answer, seen = answer or pricing.price(data), seen or Compared()
    if answer.number:
        return []
    fund, members = read_and_fold(data)
    exact, cells = values(fund, members), printed_cells(answer)
    if [len(cell) for cell in cells] != [5] * len(exact):
        return ["not five numbers in each cell line"]
    exact_premium = premium(fund, members, exact)
    whole, over = denominator(fund, members), numerators(fund, members)
    numerator = premium_numerator(fund, members, whole, over)
    return (check_cells(answer, exact)
            + check_cells_multiplied_out(answer, whole, over)
            + check_numerators(whole, over, exact)
            + check_sums(cells, exact, seen)
            + check_sums_multiplied_out(cells, whole, over)
            + check_levels(cells, exact, random.Random(data), seen)
            + check_outcome_sums(fund, members, exact)
            + check_premium(answer, fund, members, exact_premium)
            + check_premium_numerator(whole, numerator, exact_premium)
            + check_gross(answer, fund, exact_premium)
            + check_gross_multiplied_out(answer, fund, whole, numerator))
