"""Writes crates/tables/specs/ExactRows.antt from the funds and exact values of exact_rows.py.

    python3 tests/write_exact_rows.py          writes the file
    python3 tests/write_exact_rows.py check    says whether the file is what the calculation gives today
"""

import pathlib
import sys

import exact_rows

TARGET = pathlib.Path(__file__).resolve().parent.parent / "crates/tables/specs/ExactRows.antt"

HEAD = """-- Small funds with their exact values as fractions in lowest terms, from an independent calculation (tests/exact.py).
-- Written by tests/write_exact_rows.py.
use Rattle.std.specs.Prelude.{List, [], ◌∷◌, ℕ}
use Rattle.fund.specs.Starred.{text}

pub record Fraction : Type 0 where
  pub num : ℕ
  pub den : ℕ

abbrev pub ◌∕◌ : ℕ → ℕ → Fraction
◌∕◌ a b = record { num = a; den = b }

infix 90 ◌∕◌
-- The exact values at 0 to X; the exact premium and, where lambda is 0, the average excess, both in units.
pub record ExactRow : Type 0 where
  pub file : List ℕ
  pub values : List Fraction
  pub premium : Fraction
  pub average : List Fraction

unfoldable pub exact_rows : List ExactRow
exact_rows =
"""


def fraction(text):
    return text.replace("/", " ∕ ")


def listed(items):
    return "".join(item + " ∷ " for item in items) + "[]"


def row(fund):
    lines = listed('"%s"' % line for line in fund["file"].splitlines())
    average = [] if fund["average_excess"] is None else [fund["average_excess"]]
    return (
        "record {\n      file = text (%s);\n      values = %s;\n      premium = %s;\n      average = %s;\n    }"
        % (
            lines,
            listed(fraction(value) for value in fund["values"]),
            fraction(fund["premium"]),
            listed(map(fraction, average)),
        )
    )


def file_text():
    return HEAD + "".join("    -- %s\n    %s%s\n" % (fund["name"], "" if first else "∷ ", row(fund)) for first, fund in numbered()) + "    ∷ []\n"


def numbered():
    return [(k == 0, fund) for k, fund in enumerate(exact_rows.rows())]


if __name__ == "__main__":
    if sys.argv[1:] == ["check"]:
        same = TARGET.read_text() == file_text()
        print("the stored rows are what the calculation gives" if same else "the stored rows differ")
        sys.exit(0 if same else 1)
    TARGET.write_text(file_text())
