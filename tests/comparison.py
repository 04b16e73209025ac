"""The comparison of two fund files: an old edition's and a new one's.

compare(old, new) gives both answers and, where both files are accepted, how premium and
gross premium moved, the intervals in which the exact moves lie, and what differs beside
the editions and the rates.  listing(comparison) gives the bytes that are printed.
The figures come from the answers of pricing.py, the differences from the files' lines:
in accepted files two lines say the same only where they are the same bytes.

exact_move(old, new) gives the exact moves as fractions; check_move(old, new) lists what
does not hold of them and of the differences.  Run as a program, it takes pairs of paths:

    python3 tests/comparison.py OLD NEW [OLD NEW]..
"""

import sys
from dataclasses import dataclass
from fractions import Fraction
from functools import lru_cache
from itertools import zip_longest
from pathlib import Path

import exact
import pricing

HEADER_LINES = 7
FIRST_COMPARED = 3       # the header lines before it are the two editions
UNIT_DIGITS, CENTIME_DIGITS = 12, 2


@dataclass(frozen=True)
class Move:
    premium: int         # the new premium less the old one, in units
    arithmetic: int      # the two bounds together
    least: int           # the exact move lies from least to most
    most: int
    gross: int           # the new gross premium less the old one, in centimes
    gross_least: int     # the move of the exact premium's loaded worth lies from here
    gross_most: int      # to here
    header: int          # the first header line from the third on that differs, or 0
    member: int          # the first member line that differs, from 1 among them, or 0
    old_line: int        # its line in the old file, or 0
    new_line: int        # its line in the new file, or 0


@dataclass(frozen=True)
class Comparison:
    old: pricing.Answer
    new: pricing.Answer
    move: Move           # None where a file is refused


# What differs

def lines_of(data):
    """Without their line feeds."""
    return data.split(b"\n")[:-1]


def rate_lines(data):
    return [line for line in lines_of(data)[HEADER_LINES:] if line.startswith(b"rate=")]


def member_lines(data):
    return [line for line in lines_of(data)[HEADER_LINES:] if line.startswith(b"member=")]


def header_difference(old, new):
    """The number of the first header line from the third on that differs, or 0."""
    for place in range(FIRST_COMPARED, HEADER_LINES + 1):
        if lines_of(old)[place - 1] != lines_of(new)[place - 1]:
            return place
    return 0


def member_difference(old, new):
    """The number of the first member line that differs, or 0; a line that only one file has differs."""
    for number, (left, right) in enumerate(zip_longest(member_lines(old), member_lines(new)), 1):
        if left != right:
            return number
    return 0


def line_of(data, number):
    """Where this member line stands; for one more than the file has, where its end= stands."""
    return HEADER_LINES + len(rate_lines(data)) + number


# The moves

def arithmetic(old, new):
    return old.bound + new.bound


def excess(data, answer):
    """A gross premium is less than this above the exact premium's loaded worth, in centimes."""
    fund = pricing.read_fund(data)
    return pricing.up(2 * answer.bound * fund.worth * pricing.loading(fund.deductible), pricing.GROSS_DIVISOR) + 1


def gross_ends(move, old_excess, new_excess):
    return move - new_excess, move + old_excess


def moved(old, new, old_answer, new_answer):
    premium = new_answer.premium - old_answer.premium
    within = arithmetic(old_answer, new_answer)
    gross = new_answer.gross - old_answer.gross
    ends = gross_ends(gross, excess(old, old_answer), excess(new, new_answer))
    member = member_difference(old, new)
    lines = (line_of(old, member), line_of(new, member)) if member else (0, 0)
    return Move(premium, within, premium - within, premium + within, gross, *ends,
                header_difference(old, new), member, *lines)


def compare(old, new, lengths=(pricing.LISTING_LENGTHS,) * 2, level=0):
    """With the lengths of each file's result slices."""
    answers = tuple(pricing.price(data, cells, level) for data, cells in zip((old, new), lengths))
    refused = any(answer.number for answer in answers)
    return Comparison(*answers, None if refused else moved(old, new, *answers))


# The listing

def pointed(number, digits):
    """A whole number with a point before its last digits."""
    whole, part = divmod(abs(number), 10 ** digits)
    return f"{'-' if number < 0 else ''}{whole}.{part:0{digits}}"


def units(number):
    return pointed(number, UNIT_DIGITS)


def centimes(number):
    return pointed(number, CENTIME_DIGITS)


def file_lines(name, answer):
    if answer.number:
        return [f"{name}-refused={answer.number},{answer.place}"]
    return [f"{name}-premium={units(answer.premium)}", f"{name}-within={units(answer.bound)}",
            f"{name}-gross={centimes(answer.gross)}"]


def other_lines(move):
    lines = [f"other=header,{move.header}"] if move.header else []
    if move.member:
        lines.append(f"other=member,{move.member},{move.old_line},{move.new_line}")
    return lines or ["other=none"]


def move_lines(move):
    cause = "exact" if move.header or move.member else "rates"
    return [f"move={units(move.premium)}", f"arithmetic={units(move.arithmetic)}",
            f"{cause}={units(move.least)},{units(move.most)}",
            f"gross-move={centimes(move.gross)}",
            f"gross-{cause}={centimes(move.gross_least)},{centimes(move.gross_most)}", *other_lines(move)]


def listing(comparison):
    lines = file_lines("old", comparison.old) + file_lines("new", comparison.new)
    if comparison.move is not None:
        lines += move_lines(comparison.move)
    return "".join(line + "\n" for line in lines).encode("ascii")


# The exact moves

def exact_values(fund, members):
    """The exact value at each x; without a Poisson part for any horizon."""
    if pricing.lambda_units(members, fund.frequency):
        return exact.values(fund, members)
    whole = 10 ** (6 * exact.group_1_lives(members))
    return [Fraction(number, whole) for number in exact.group_1_numerators(members, fund.horizon)]


@lru_cache(maxsize=64)
def exact_premium(data):
    """Of an accepted file: in units, and its loaded worth in centimes."""
    fund, members = exact.read_and_fold(data)
    premium = exact.premium(fund, members, exact_values(fund, members))
    return premium, exact.loaded_worth(fund, premium)


def exact_move(old, new):
    """Of accepted files: the exact premium's move in units, and that of its loaded worth in centimes."""
    (old_premium, old_worth), (new_premium, new_worth) = exact_premium(old), exact_premium(new)
    return new_premium - old_premium, new_worth - old_worth


def renewed(old, new):
    """The old file with its two editions and its rate lines replaced by the new file's."""
    lines = lines_of(new)[:FIRST_COMPARED - 1] + lines_of(old)[FIRST_COMPARED - 1:HEADER_LINES] + rate_lines(new)
    lines += member_lines(old) + lines_of(old)[-1:]
    return b"".join(line + b"\n" for line in lines)


# What a listing says, taken from its text

def entries(text):
    """Key and value of each line."""
    return [tuple(line.split("=")) for line in text.decode("ascii").splitlines()]


def numbers(value, scale):
    return [Fraction(word) * scale for word in value.split(",")]


def wanted_keys(old, new, exactly):
    """The keys that a listing has, in order, before those of what differs."""
    keys = []
    for name, answer in (("old", old), ("new", new)):
        keys += [f"{name}-refused"] if answer.number else [f"{name}-premium", f"{name}-within", f"{name}-gross"]
    if not (old.number or new.number):
        cause = "exact" if exactly else "rates"
        keys += ["move", "arithmetic", cause, "gross-move", f"gross-{cause}"]
    return keys


def read_differences(old, new):
    """The values of the other= lines, from the numbers of the two funds as they are read."""
    one, two = pricing.read_fund(old), pricing.read_fund(new)
    header = [place for place, name in enumerate(("horizon", "order", "frequency", "deductible", "worth"), FIRST_COMPARED)
              if getattr(one, name) != getattr(two, name)]
    left, right = ([(m.age, m.group, m.d, m.e, m.lives) for m in fund.member_rows] for fund in (one, two))
    values = [f"header,{header[0]}"] if header else []
    if left != right:
        same = 0
        while left[same:same + 1] == right[same:same + 1]:
            same += 1
        lines = (HEADER_LINES + len(fund.rate_rows) + same + 1 for fund in (one, two))
        values.append("member,%d,%d,%d" % (same + 1, *lines))
    return values or ["none"]


def statements(*pairs):
    """The names of the statements that do not hold."""
    return [name for name, holds in pairs if not holds]


def check_premium_move(value, cause, move):
    (said,), (within,) = numbers(value["move"], 10 ** 12), numbers(value["arithmetic"], 10 ** 12)
    least, most = numbers(value[cause], 10 ** 12)
    return statements(
        ("the exact move is not in its interval", least <= move <= most),
        ("the move is not within the arithmetic of the exact move", abs(move - said) <= within),
        ("the ends are not the move less and with the arithmetic", (least, most) == (said - within, said + within)))


def check_gross_move(value, cause, old_worth, new_worth, move):
    """Each end of the interval is an excess away from the gross move."""
    (old_gross,), (new_gross,) = numbers(value["old-gross"], 100), numbers(value["new-gross"], 100)
    (said,) = numbers(value["gross-move"], 100)
    least, most = numbers(value[f"gross-{cause}"], 100)
    return statements(
        ("the gross move is not that of the gross premiums", said == new_gross - old_gross),
        ("the loaded worth's move is not in its interval", least <= move <= most),
        ("the old loaded worth is not below its gross premium by less than the excess",
         old_gross - (most - said) < old_worth <= old_gross),
        ("the new loaded worth is not below its gross premium by less than the excess",
         new_gross - (said - least) < new_worth <= new_gross))


def check_others(old, new, said, differences, new_premium):
    kept, none = renewed(old, new), differences == ["none"]
    return statements(
        ("what differs is not what the funds say", said == differences),
        ("nothing else differs, or something does", (kept == new) == none),
        ("the exact premium is not that of the old file with the new rates",
         not none or exact_premium(kept)[0] == new_premium))


def check_move(old, new, text=None):
    """What does not hold of a listing of these files, the calculation's own unless one is given; [] if all does."""
    answers = pricing.price(old), pricing.price(new)
    said = entries(listing(compare(old, new)) if text is None else text)
    refused = any(answer.number for answer in answers)
    differences = [] if refused else read_differences(old, new)
    keys = wanted_keys(*answers, differences != ["none"])
    if [key for key, _ in said] != keys + ["other"] * len(differences):
        return [f"the lines are not {keys}"]
    if refused:
        return []
    value, cause = dict(said), "rates" if differences == ["none"] else "exact"
    (_, old_worth), (new_premium, new_worth) = exact_premium(old), exact_premium(new)
    move, worth_move = exact_move(old, new)
    return (check_premium_move(value, cause, move)
            + check_gross_move(value, cause, old_worth, new_worth, worth_move)
            + check_others(old, new, [entry for key, entry in said if key == "other"], differences, new_premium))


# The program

def read(path, name):
    """The file's bytes; None, with the reason on standard error, where it cannot be read."""
    try:
        return Path(path).read_bytes()
    except OSError as error:
        print(f"{name}: {error}", file=sys.stderr)
        return None


def listing_of_paths(old_path, new_path):
    files = {"old": read(old_path, "old"), "new": read(new_path, "new")}
    if None in files.values():
        return "".join(f"unreadable={name}\n" for name, data in files.items() if data is None).encode("ascii")
    return listing(compare(files["old"], files["new"]))


def main(paths):
    if not paths or len(paths) % 2:
        print(__doc__, file=sys.stderr)
        return 2
    sys.stdout.buffer.write(b"\n".join(map(listing_of_paths, paths[::2], paths[1::2])))
    return 0


if __name__ == "__main__":
    sys.exit(main(sys.argv[1:]))
