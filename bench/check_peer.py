"""Compares the peer with the independent calculation: python3 bench/check_peer.py LIBRARY N SEED

LIBRARY is peer.c built with `cc -shared -fPIC`. Every answer is compared whole: number, place, line, figures, gross premium,
quantile and all cells; N generated files and every known one, then N generated funds as sheets and every known one.
"""

import ctypes
import random
import sys
from pathlib import Path

sys.path.insert(0, str(Path(__file__).resolve().parent.parent / "tests"))
import cases
import distribution_funds
import frequency_funds
import generate
import generate_sheets
import lives_funds
import pricing
import quantile_funds
import rate_funds
import sheet_funds
import sheets
import tariff_funds
import triangle_funds

FIGURES = "number place start length truncation mean premium within gross horizon reached quantile".split()


class Priced(ctypes.Structure):
    _fields_ = [(name, ctypes.c_int64 if name == "premium" else ctypes.c_uint64) for name in FIGURES]


def peer_answer(call, texts, lengths, level):
    """For a file, or for a header text and two sheets. The cells start as garbage, so that each must be written."""
    kinds = (ctypes.c_int64, ctypes.c_uint64) * 2 + (ctypes.c_int64,)
    slices = [(kind * length)(*[7] * length) for kind, length in zip(kinds, lengths)]
    out = Priced()
    given = [word for text in texts for word in (text, ctypes.c_size_t(len(text)))]
    lent = [word for s, n in zip(slices, lengths) for word in (s, ctypes.c_size_t(n))]
    call(*given, ctypes.c_uint64(level), *lent, ctypes.byref(out))
    return [getattr(out, name) for name in FIGURES] + [tuple(s) for s in slices]


def expected_answer(a):
    quantile = (0, 0) if a.quantile is None else (1, a.quantile)
    return [a.number, a.place, a.start, a.length, a.truncation, a.mean, a.premium, a.bound, a.gross,
            a.horizon, *quantile, a.D, a.H, a.f, a.R, a.F]


def heavy_funds(rng, count):
    """Few places with large D and H: products beyond a word, and exact halves by q = 500,000 and a = 1,000."""
    for index in range(count):
        horizon = rng.choice((30, 400, 4095))
        amounts = [rng.randint(1, horizon) for _ in range(3)]
        members = [(rng.choice((20, 30)), 2, rng.choice(amounts), 0) for _ in range(rng.randint(1, 3))]
        members += [(40, 1, d, d) for d in [rng.choice((1, 2, horizon // 12))] * rng.choice((0, 1, 900))]
        text = generate.Text(horizon=horizon, order=12, frequency=rng.choice((1000, 1000, 700)), deductible=horizon,
                             worth=generate.random_worth(rng),
                             rate_rows=((20, 500000, 0), (30, rng.randint(1, 1000000), 0), (40, 700, 900)),
                             member_rows=tuple(members))
        yield generate.Case(f"heavy-{index}", (generate.in_one_line(text) if rng.randrange(2) else text).data())


def any_lengths(rng):
    """Slices that are long enough or, for some, of any length."""
    longest = rng.choice((4096, 12, 12))
    return tuple(rng.choice((longest, rng.randint(0, longest))) for _ in range(5))


def file_calls(count, seed):
    """Generated files, then every known case."""
    rng = random.Random(seed)
    for case in cases.chosen(count, seed):
        yield case, (case.data,), any_lengths(rng)
    known = generate.limit_funds() + generate.damaged_files() + generate.large_funds(seed, 20)
    known += quantile_funds.cases(quantile_funds.ROWS + quantile_funds.MORE_ROWS)
    known += rate_funds.cases() + generate.gap_funds(seed, 300)
    known += tariff_funds.cases() + triangle_funds.cases() + generate.step_funds(seed, 100)
    known += frequency_funds.cases() + distribution_funds.cases(distribution_funds.ALL_ROWS) + lives_funds.cases()
    for case in known + list(heavy_funds(rng, 60)):
        yield case, (case.data,), case.lengths


def sheet_calls(count, seed):
    """Generated sheets, then every known case."""
    rng = random.Random(seed)
    for case in generate_sheets.random_sheets(seed, count):
        yield case, case.sheets(), any_lengths(rng)
    for case in sheet_funds.cases() + [generate_sheets.full_sheets()]:
        yield case, case.sheets(), case.lengths


def compared(name, call, calculation, made, rng, most):
    """Whether no answer differs, and each number up to the most is among them."""
    numbers, reached, differing = [0] * (most + 1), 0, 0
    for case, texts, lengths in made:
        level = generate.level_of(case, rng, calculation(*texts))
        expected = expected_answer(calculation(*texts, lengths, level))
        numbers[expected[0]] += 1
        reached += expected[FIGURES.index("reached")]
        if peer_answer(call, texts, lengths, level) != expected:
            differing += 1
            print(f"differs: {case.name}")
    print(f"{sum(numbers)} {name}, {differing} differ; by number from 0 to {most}: {numbers}; levels reached: {reached}")
    return not differing and reached and 0 not in numbers


def main(library, count, seed):
    peer, rng = ctypes.CDLL(library), random.Random(seed)
    files = compared("files", peer.peer_price, pricing.price, file_calls(count, seed), rng, 10)
    good = compared("sheets", peer.peer_price_sheets, sheets.price_sheets, sheet_calls(count, seed), rng, 11)
    return 0 if files and good else 1


if __name__ == "__main__":
    sys.exit(main(sys.argv[1], int(sys.argv[2]), int(sys.argv[3])))
