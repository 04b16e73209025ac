"""Writes the first inputs of the fuzzers: python3 fuzz/seeds.py DIR PAIRS

The examples and the short ones of the stored cases, files and sheets, each behind a byte that says which, five bytes for the
slices' lengths and eight for the level; sheets also behind the lengths of the header text and the rate sheet, two bytes each. Into
PAIRS those of the stored pairs, each behind ten bytes for the slices' lengths, eight for the level and two for the old file's length.
"""

import sys
from pathlib import Path

ROOT = Path(__file__).resolve().parent.parent
sys.path.insert(0, str(ROOT / "tests"))
import cases
import generate
import pricing
import sheets

A_FILE, SHEETS = 0, 1
# Bytes for a slice of 240 cells and for one of 4,096.
FEW, ALL = 240, 250
LONGEST = 2000       # bytes of a stored case


def head(kind, horizon, level):
    return bytes([kind] + [FEW if horizon < FEW else ALL] * 5) + level.to_bytes(8, "little")


def stored(kind):
    """The short ones of the stored cases of a kind."""
    found = cases.cases_of((ROOT / "crates" / "cases" / "stdin").read_bytes())
    return [(texts, level) for texts, level in cases.of_kind(kind, found) if sum(map(len, texts)) <= LONGEST]


def file_inputs():
    pairs = [(path.read_bytes(), generate.USUAL_LEVEL) for path in sorted((ROOT / "examples").glob("*.fund"))]
    pairs += [(data, level) for (data,), level in stored(cases.A_FILE)]
    return [head(A_FILE, pricing.price(data).horizon, level) + data for data, level in pairs]


def sheet_inputs():
    folder = ROOT / "examples" / "sheets"
    worked = tuple((folder / name).read_bytes() for name in ("header.txt", "rates.sheet", "members.sheet"))
    pairs = [(worked, generate.USUAL_LEVEL), *stored(cases.SHEETS)]
    return [head(SHEETS, sheets.price_sheets(*three).horizon, level)
            + b"".join(len(text).to_bytes(2, "little") for text in three[:2]) + b"".join(three) for three, level in pairs]


def pair_inputs():
    folder = ROOT / "examples"
    worked = tuple((folder / name).read_bytes() for name in ("sixty-members.fund", "sixty-members-2031.fund"))
    pairs = [(worked, generate.USUAL_LEVEL), *stored(cases.A_PAIR)]
    return [b"".join(head(A_FILE, pricing.price(data).horizon, 0)[1:6] for data in two) + level.to_bytes(8, "little")
            + len(two[0]).to_bytes(2, "little") + b"".join(two) for two, level in pairs]


def main(directory, pairs):
    for folder, inputs in ((directory, file_inputs() + sheet_inputs()), (pairs, pair_inputs())):
        for number, data in enumerate(inputs):
            (folder / f"seed-{number:03}").write_bytes(data)


if __name__ == "__main__":
    main(*map(Path, sys.argv[1:3]))
