"""Prints the exact values of some small funds as JSON, every number a decimal string.

Each row: name, file (the file's text), horizon X, deductible M, values (the
exact value at 0 to X, not multiplied by 10^12), premium (the exact premium in
units) and, for lambda 0, average_excess in units (null otherwise).  A fraction
is numerator/denominator, reduced, with a positive denominator, also where it is 1.
"""

import json
import sys

import exact
import pricing
from generate import Text

QUARTER = (30, 250000, 0)         # lambda 1/4 for one group 2 member, a = b = 1000
EIGHTHS = (35, 125000, 125000)
WHOLE = (38, 700000, 300000)      # q + i = 1,000,000
TENTHS = (40, 100000, 100000)
TENTH = (50, 100000, 0)
HALF = (60, 500000, 0)
FIFTH = (70, 200000, 50000)


def fund(X, M, frequency, rates, members):
    return Text(horizon=X, order=12, frequency=frequency, deductible=M,
                rate_rows=rates, member_rows=members)


FUNDS = {
    "empty": fund(1, 2, 1000, (), ()),
    "one group 1 member": fund(2, 1, 1000, (TENTH,), ((50, 1, 2, 0),)),
    "one group 1 member, q and i": fund(3, 2, 1000, (TENTHS,), ((40, 1, 1, 3),)),
    "two group 1 members, d = e in one":
        fund(4, 2, 1000, (TENTHS, TENTH), ((40, 1, 2, 2), (50, 1, 1, 0))),
    "amounts beyond X, deductible X + 1":
        fund(3, 4, 1000, (TENTHS, TENTH), ((40, 1, 5, 1), (50, 1, 65535, 0))),
    "zero amount folds, deductible 0":
        fund(4, 0, 1000, (FIFTH,), ((70, 1, 0, 2), (70, 1, 3, 0))),
    "q of one half folds": fund(2, 1, 1000, (TENTH, HALF),
                                ((60, 1, 0, 1), (50, 1, 2, 2))),
    "three group 1 members": fund(6, 4, 0, (TENTHS, TENTH),
                                  ((40, 1, 1, 2), (40, 1, 3, 3), (50, 1, 4, 9))),
    "group 2 only, lambda 1/2":
        fund(4, 2, 1000, (QUARTER, EIGHTHS), ((35, 2, 1, 2), (30, 2, 2, 0))),
    "both groups, lambda 1/4":
        fund(4, 3, 1000, (QUARTER, TENTH), ((50, 1, 1, 0), (30, 2, 2, 7))),
    "frequency 0 with group 2 members":
        fund(3, 1, 0, (TENTHS, TENTH), ((40, 2, 1, 1), (40, 1, 2, 1), (50, 2, 2, 0))),
    "group 2, q + i = 1,000,000, lambda 3/10, deductible X + 1":
        fund(5, 6, 300, (WHOLE,), ((38, 2, 1, 3),)),
    "both groups, d = e, beyond X and zero in group 2, lambda 1/2":
        fund(6, 3, 1000, (QUARTER, EIGHTHS, TENTHS),
             ((35, 2, 1, 1), (40, 1, 2, 2), (30, 2, 7, 5), (40, 1, 1, 0),
              (40, 1, 0, 8), (35, 2, 0, 0))),
    "horizon 0, both groups": fund(0, 1, 1000, (QUARTER, TENTHS),
                                   ((40, 1, 1, 1), (30, 2, 1, 1))),
    "rates for some ages, both groups, lambda 1/4":
        fund(4, 2, 1000, (QUARTER, TENTHS), ((39, 2, 1, 0), (49, 1, 2, 1), (120, 1, 1, 3))),
    "group 2, a = 1,000 and b = 2,000, lambda 3/10":
        fund(4, 2, (1000, 2000), (FIFTH,), ((70, 2, 1, 3),)),
    "both groups, only disability replaced, lambda 1/4":
        fund(4, 3, (0, 2000), (EIGHTHS, TENTH), ((35, 2, 1, 2), (50, 1, 1, 0), (50, 2, 3, 3))),
    "lambda 0, death not replaced and no disability":
        fund(3, 1, (0, 5000), (TENTHS, TENTH), ((40, 2, 1, 0), (40, 1, 2, 1), (50, 2, 2, 3))),
    "three lives of group 1 on a line": fund(3, 2, 1000, (TENTHS,), ((40, 1, 1, 2, 3),)),
    "two lives of group 2 on a line, lambda 1/2": fund(4, 2, 1000, (EIGHTHS,), ((35, 2, 1, 2, 2),)),
    "both groups, several lives, equal lines apart, lambda 1/2":
        fund(4, 3, 1000, (QUARTER, TENTH), ((50, 1, 1, 0, 2), (30, 2, 2, 7, 2), (50, 1, 1, 0, 1))),
}


def fraction_text(value):
    return f"{value.numerator}/{value.denominator}"


def row(name, text):
    data = text.data()
    read, members = exact.read_and_fold(data)
    values = exact.values(read, members)
    lambda_zero = pricing.lambda_units(members, read.frequency) == 0
    return {
        "name": name,
        "file": data.decode("ascii"),
        "horizon": str(read.horizon),
        "deductible": str(read.deductible),
        "values": [fraction_text(value) for value in values],
        "premium": fraction_text(exact.premium(read, members, values)),
        "average_excess": (fraction_text(exact.average_excess(read, members))
                           if lambda_zero else None),
    }


def rows():
    return [row(name, text) for name, text in FUNDS.items()]


if __name__ == "__main__":
    json.dump(rows(), sys.stdout, indent=1)
    sys.stdout.write("\n")
