"""The library for C against the independent calculation, on random files and sheets.

    python3 tests/library.py N SEED

Builds the library (rt, cc) and prices N files by both: whole funds, funds at
each limit, funds with rates for some ages, funds about the edges of the loading, funds
with two frequencies, funds with wide bounds, funds with lines for several lives, cut and damaged ones, each with a
level.  Then N funds as sheets:
those of sheet_funds.py, and generated ones, taken, with near misses, cut and damaged.
Then N pairs of files through the call that compares: those of comparison_funds.py and
generated ones.
Last every rate: each of the 1,000,001 quotients is taken with its k, and neither of its
neighbours is.
The result slices have lengths from 0 on and are filled with other numbers
before the call, and so are the structs; behind each stand cells that must stay as they are.  Every
figure, the place, the line, the quantile, every cell and every field of a comparison are compared.
"""

import ctypes
import math
import random
import struct
import subprocess
import sys
from pathlib import Path

import comparison
import comparison_funds
import distribution_funds
import document_funds
import frequency_funds
import generate
import generate_pairs
import generate_sheets
import lives_funds
import pricing
import quantile_funds
import rate_funds
import sheet_funds
import sheets
import tariff_funds
import triangle_funds

ROOT = Path(__file__).resolve().parent.parent
BEHIND = 3               # cells behind each slice, structs behind each struct
U64, I64 = ctypes.c_uint64, ctypes.c_int64


class Result(ctypes.Structure):
    """struct miguepo_result."""
    _fields_ = [("number", U64), ("place", U64), ("line_start", U64), ("line_size", U64), ("horizon", U64),
                ("truncation", U64), ("mean", U64), ("premium", I64), ("within", U64), ("gross", U64),
                ("reached", U64), ("quantile", U64)]


class Compared(ctypes.Structure):
    """struct miguepo_comparison."""
    _fields_ = [("moved", U64), ("premium", I64), ("arithmetic", U64), ("least", I64), ("most", I64), ("gross", I64),
                ("gross_least", I64), ("gross_most", I64), ("header", U64), ("member", U64), ("old_line", U64),
                ("new_line", U64)]


def quantile_of(got):
    """The place where reached is 1, None where both fields are 0."""
    if got.reached == 1:
        return got.quantile
    return (got.reached, got.quantile) if got.reached or got.quantile else None


def build(crate):
    """A shared library made of the archive that `scripts/archive` builds of the crate's exports."""
    archive = ROOT / "target" / "staticlib" / f"lib{crate}.a"
    subprocess.run([ROOT / "scripts" / "archive", crate], check=True, stdout=subprocess.DEVNULL)
    shared = archive.with_suffix(".so")
    subprocess.run(["cc", "-shared", "-o", shared, "-Wl,--whole-archive", archive,
                    "-Wl,--no-whole-archive"], check=True)
    return ctypes.CDLL(str(shared))


def calls():
    """The call for a file, the one for a header text and two sheets, and the one that compares two files."""
    pricing = build("miguepo")
    found = pricing.miguepo_price, pricing.miguepo_price_sheets, build("miguepo_comparison").miguepo_compare
    for call in found:
        call.restype = None
    return found


class Struct:
    """One that is lent to a call, with others behind it; all hold other numbers before."""

    def __init__(self, rng, kind):
        self.all, self.size = (kind * (1 + BEHIND))(), ctypes.sizeof(kind)
        ctypes.memmove(self.all, rng.randbytes(ctypes.sizeof(self.all)), ctypes.sizeof(self.all))
        self.before = self.behind()

    def behind(self):
        return bytes(self.all)[self.size:]

    def kept(self):
        return self.before == self.behind()


class Slices:
    """The five of one fund, with cells behind each; all hold other numbers before."""

    def __init__(self, rng, lengths):
        self.lengths = lengths
        self.all = [(kind * (length + BEHIND))() for kind, length in zip((I64, U64, I64, U64, I64), lengths)]
        for cells in self.all:
            for k in range(len(cells)):
                cells[k] = rng.getrandbits(62)
        self.before = self.behind()

    def behind(self):
        return [list(cells[length:]) for cells, length in zip(self.all, self.lengths)]

    def kept(self):
        return self.before == self.behind()

    def arguments(self):
        return [word for cells, length in zip(self.all, self.lengths) for word in (cells, ctypes.c_size_t(length))]

    def left(self):
        return [tuple(cells[:length]) for cells, length in zip(self.all, self.lengths)]


def text_arguments(texts):
    return [word for text in texts for word in (ctypes.c_char_p(text), ctypes.c_size_t(len(text)))]


def answer_in(got, slices):
    return pricing.Answer(got.number, got.place, got.line_start if got.line_size else 0, got.line_size, got.truncation,
                          got.mean, got.premium, got.within, got.gross, *slices.left(), got.horizon, quantile_of(got))


def answer_by(call, rng, texts, lengths, level):
    """The answer, and whether all that stands behind what is lent was kept."""
    slices, result = Slices(rng, lengths), Struct(rng, Result)
    call(*text_arguments(texts), U64(level), *slices.arguments(), result.all)
    return answer_in(result.all[0], slices), slices.kept() and result.kept()


def move_in(got):
    """The move where moved is 1, None where every field is 0."""
    moved, *fields = (getattr(got, name) for name, _ in got._fields_)
    if moved == 1:
        return comparison.Move(*fields)
    return (moved, *fields) if moved or any(fields) else None


def comparison_by(call, rng, files, lengths, level):
    """The comparison, and whether all that stands behind what is lent was kept."""
    slices = [Slices(rng, each) for each in lengths]
    results, told = [Struct(rng, Result) for _ in files], Struct(rng, Compared)
    call(*text_arguments(files), U64(level), *(word for each in slices for word in each.arguments()),
         *(result.all for result in results), told.all)
    answers = (answer_in(result.all[0], each) for result, each in zip(results, slices))
    return comparison.Comparison(*answers, move_in(told.all[0])), all(each.kept() for each in (*slices, *results, told))


def random_lengths(rng, horizon):
    """As many cells as the fund's horizon needs or a few more; of one in three files any number from 0 on."""
    needed = horizon + 1
    least = 0 if rng.randrange(3) == 0 else needed
    return tuple(rng.randint(least, needed + 4) for _ in range(5))


def file_cases(count, seed):
    """Files with the lengths of the slices and a level."""
    rng = random.Random(seed)
    known = quantile_funds.cases(quantile_funds.ROWS + quantile_funds.MORE_ROWS)
    known += [generate.Case(name, text.data()) for name, text in document_funds.FUNDS.items()]
    known += rate_funds.cases() + tariff_funds.cases() + triangle_funds.cases() + frequency_funds.cases()
    known += distribution_funds.cases(distribution_funds.ALL_ROWS) + lives_funds.cases()
    known += generate.limit_funds() + generate.damaged_files()
    known += generate.step_funds(seed, 100)
    for case in known[:count]:
        yield (case.data,), case.lengths, generate.level_of(case, rng, pricing.price(case.data))
    rest = max(0, count - len(known))
    small = generate.small_funds(seed, rest // 2)
    gaps = generate.gap_funds(seed, rest // 4)
    damaged = generate.random_damage(seed, rest - len(small) - len(gaps))
    for case in small + gaps + damaged:
        answer = pricing.price(case.data)
        yield (case.data,), random_lengths(rng, answer.horizon), generate.level_of(case, rng, answer)


def sheet_cases(count, seed):
    """Header texts and sheets with the lengths of the slices and a level."""
    rng = random.Random(seed)
    known = [generate_sheets.full_sheets()] + sheet_funds.cases()
    for case in known[:count]:
        yield case.sheets(), case.lengths, generate.level_of(case, rng, sheets.price_sheets(*case.sheets()))
    for case in generate_sheets.random_sheets(seed, max(0, count - len(known))):
        answer = sheets.price_sheets(*case.sheets())
        yield case.sheets(), random_lengths(rng, answer.horizon), generate.level_of(case, rng, answer)


def pair_cases(count, seed):
    """Pairs of files with the lengths of the slices of each and a level."""
    rng = random.Random(seed)
    known = [generate_pairs.Pair(name, old, new) for name, old, new, _ in comparison_funds.PAIRS] + [generate_pairs.full_pair()]
    rest = max(0, count - len(known))
    made = generate_pairs.random_pairs(seed, rest - rest // 10) + generate_pairs.long_pairs(seed, rest // 10)
    for pair in known[:count] + made:
        files = pair.old, pair.new
        answers = [pricing.price(data) for data in files]
        lengths = tuple(random_lengths(rng, answer.horizon) for answer in answers)
        yield files, lengths, generate.level_of(generate.Case(pair.name, pair.old), rng, rng.choice(answers))


def compared_pairs(call, made, rng):
    """How many pairs there are, and how many differ."""
    count = moved = bad = 0
    for files, lengths, level in made:
        wanted = comparison.compare(*files, lengths, level)
        got, kept = comparison_by(call, rng, files, lengths, level)
        count, moved = count + 1, moved + (wanted.move is not None)
        if got != wanted or not kept:
            bad += 1
            print(f"differs: {[data[:200] for data in files]!r} with slices of {lengths} and level {level}")
    print(f"{count} pairs, {moved} with a move, {bad} differ")
    return count, bad


def compared(name, call, calculation, made, rng):
    """How many answers there are, and how many differ."""
    numbers, reached, bad = [0] * 12, 0, 0
    for texts, lengths, level in made:
        wanted = calculation(*texts, lengths, level)
        got, kept = answer_by(call, rng, texts, lengths, level)
        numbers[wanted.number] += 1
        reached += wanted.quantile is not None
        if got != wanted or not kept:
            bad += 1
            print(f"differs: {[text[:200] for text in texts]!r} with slices of {lengths} and level {level}")
    print("accepted and refused by number:", *numbers)
    print(f"levels reached: {reached}")
    print(f"{sum(numbers)} {name}, {bad} differ")
    return sum(numbers), bad


# A fund of one member of group 2 with d = 1, whose mean is 1,000 times its q.
ONE_RATE = generate.Text(horizon=0, frequency=(1, 0), deductible=0, member_rows=((0, 2, 1, 0),))


def every_rate(call):
    """How many rates are not taken with their k, or have a neighbour that is taken."""
    header, _, members = sheets.sheets_of(ONE_RATE)
    rates, result = ctypes.create_string_buffer(24), Result()
    slices = [word for _ in range(5) for word in ((U64 * 1)(), ctypes.c_size_t(1))]
    arguments = [ctypes.c_char_p(header), ctypes.c_size_t(len(header)), rates, ctypes.c_size_t(24),
                 ctypes.c_char_p(members), ctypes.c_size_t(len(members)), U64(0), *slices, ctypes.byref(result)]

    def answer(x):
        struct.pack_into("<3d", rates, 0, 0, x, 0)
        call(*arguments)
        return result.number, result.mean

    return sum(answer(k / 1000000) != (0, 1000 * k) or answer(math.nextafter(k / 1000000, 2)) != (11, 0)
               or answer(math.nextafter(k / 1000000, -1)) != (11, 0) for k in range(1000001))


def main(arguments):
    count, seed = (int(word) for word in arguments)
    (price, price_sheets, compare), rng = calls(), random.Random(seed)
    found = [compared("files", price, pricing.price, file_cases(count, seed), rng),
             compared("sheets", price_sheets, sheets.price_sheets, sheet_cases(count, seed), rng),
             compared_pairs(compare, pair_cases(count, seed), rng)]
    missed = every_rate(price_sheets)
    print(f"1000001 rates, {missed} not taken with their k or with a neighbour that is taken")
    return 1 if missed or any(bad or not number for number, bad in found) else 0


if __name__ == "__main__":
    if len(sys.argv) != 3:
        sys.exit(__doc__)
    sys.exit(main(sys.argv[1:]))
