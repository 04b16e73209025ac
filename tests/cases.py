"""Stored cases: files with their answers, for a program to be run against.

    python3 tests/cases.py write DIR N SEED
    python3 tests/cases.py check DIR
    python3 tests/cases.py stream DIR FILES SHEETS PAIRS SEED
    python3 tests/cases.py check-stream DIR
    python3 tests/cases.py programs CRATES
    python3 tests/cases.py check-programs CRATES

A case is two files of one name.  NAME.fund holds the raw bytes for standard
input.  NAME.listing holds the exact bytes that the program must print on
standard output, every line with its line feed.  Nothing else is stored.
The names begin with a running number and say how the file was made.

A stream is all cases in two files of one folder, for a program that reads them
one after the other: files, then header texts with two sheets, then pairs of files.
stdin has for each case a head, and then its texts one after the other.  The head is a
letter for the kind, the lengths of three texts as six decimal digits each (000000 for
those that the kind does not have), the level as thirteen decimal digits, a space before
each number, and a line feed.

Of a file (f) stdout has its listing, then `line=` and the part of the file that is
handed back, then the line that the program `level` prints, and an empty line.  The last
files are those of quantile_funds.py and rate_funds.py, funds with rates for some ages
only, and those of tariff_funds.py, triangle_funds.py, frequency_funds.py,
distribution_funds.py and lives_funds.py.  Of a header text with two sheets (s) it has
the same; the part is one of the header text.  The first ones are those of
sheet_funds.py that are short.  Of a pair (p), whose level is 0, it has the listing of
the comparison and an empty line.  The first pairs are those of comparison_funds.py; then
come generated ones, and the full fund under other rates with its last member changed.

The programs of CRATES: `listing` is run on a full fund; `level` is asked at the level in
its file args; `sheets` and `sheets_level` are run on the three files that their args name,
in their folder data, the second at the level behind them; `compare` is run on several
pairs, among them a file that is longer than what is read, files that are not there and a
folder.
"""

import random
import sys
from itertools import zip_longest
from pathlib import Path

import comparison
import comparison_funds
import distribution_funds
import document_funds
import frequency_funds
import generate
import generate_pairs
import generate_sheets
import lives_funds
import pricing
import quantile_funds
import rate_funds
import sheet_funds
import sheets
import tariff_funds
import triangle_funds


LONGEST = 65536      # what the program that reads a stream has room for
MOST_LEVEL = 9999999999999      # thirteen digits
A_FILE, SHEETS, A_PAIR = b"f", b"s", b"p"
TEXTS = {A_FILE: 1, SHEETS: 3, A_PAIR: 2}      # how many a case of each kind has
HEAD = 37            # bytes before the texts of a case
GAPS = 40            # funds with rates for some ages only


def listing_of(data):
    return printed(pricing.price(data))


def known_cases(rng):
    """The first delivery's funds, then limits, other refusals and form faults in turn."""
    document = [generate.Case(f"document-{name}", text.data())
                for name, text in document_funds.FUNDS.items()]
    damaged = generate.damaged_files()
    kinds = [generate.limit_funds(),
             [case for case in damaged if "-form-" not in case.name],
             [case for case in damaged if "-form-" in case.name]]
    for kind in kinds:
        rng.shuffle(kind)
    in_turn = [case for three in zip_longest(*kinds) for case in three if case]
    return document + [case for case in in_turn if case.lengths == generate.ENOUGH]


def chosen(count, seed):
    """Of each ten cases: four known ones, two random damages, four small funds."""
    known = known_cases(random.Random(seed))[:count * 4 // 10]
    damaged = generate.random_damage(seed, count * 2 // 10)
    small = generate.small_funds(seed, count - len(known) - len(damaged))
    return known + damaged + small


def write(directory, count, seed):
    directory.mkdir(parents=True, exist_ok=True)
    width = len(str(count))
    for index, case in enumerate(chosen(count, seed), 1):
        name = f"{index:0{width}}-{file_name(case.name)}"
        (directory / f"{name}.fund").write_bytes(case.data)
        (directory / f"{name}.listing").write_bytes(listing_of(case.data))
    return count


def file_name(name):
    """Letters, digits and hyphens only."""
    return "".join(c if c.isascii() and c.isalnum() else "-" for c in name)


def differing(directory):
    """The names of cases whose stored answer is not today's, and their number."""
    funds = {path.stem for path in directory.glob("*.fund")}
    listings = {path.stem for path in directory.glob("*.listing")}
    bad = sorted(funds ^ listings)
    for name in sorted(funds & listings):
        stored = (directory / f"{name}.listing").read_bytes()
        if listing_of((directory / f"{name}.fund").read_bytes()) != stored:
            bad.append(name)
    return bad, len(funds | listings)


def check(directory):
    bad, count = differing(directory)
    for name in bad:
        print(f"differs: {name}")
    print(f"{count} cases, {len(bad)} differ")
    return 0 if count and not bad else 1


def printed(answer):
    return pricing.listing(answer).encode("ascii")


def quantile_line(answer):
    """The line of an answer at a level, as the program `level` prints it."""
    if answer.number:
        return printed(answer)
    return b"quantile=none\n" if answer.quantile is None else b"quantile=%d\n" % answer.quantile


def level_line(data, level):
    return quantile_line(pricing.price(data, level=level))


def told(answer, text):
    """What a stream's program writes of an answer; its part is one of the text."""
    part = text[answer.start:answer.start + answer.length]
    return printed(answer) + b"line=" + part + b"\n" + quantile_line(answer) + b"\n"


def comparison_of(old, new):
    return comparison.listing(comparison.compare(old, new))


def answer_of(kind, texts, level):
    """What a stream's program writes of a case."""
    if kind == A_PAIR:
        return comparison_of(*texts) + b"\n"
    price = sheets.price_sheets if kind == SHEETS else pricing.price
    return told(price(*texts, level=level), texts[0])


def head_of(kind, texts, level):
    lengths = [len(text) for text in texts] + [0] * (max(TEXTS.values()) - len(texts))
    return b"%s %06d %06d %06d %013d\n" % (kind, *lengths, level)


def stream_of(made):
    """stdin and stdout for cases: kind, texts and level."""
    return (b"".join(head_of(*case) + b"".join(case[1]) for case in made),
            b"".join(answer_of(*case) for case in made))


def cases_of(stream):
    """The cases of a stream, each its kind, its texts and its level."""
    found, at = [], 0
    while at < len(stream):
        kind, *numbers = stream[at:at + HEAD].split()
        *sizes, level = map(int, numbers)
        at += HEAD
        texts = []
        for size in sizes[:TEXTS[kind]]:
            texts.append(stream[at:at + size])
            at += size
        found.append((kind, tuple(texts), level))
    return found


def of_kind(kind, found):
    """The texts and levels of the cases of a kind."""
    return [(texts, level) for its_kind, texts, level in found if its_kind == kind]


def file_cases(count, seed):
    rng = random.Random(seed)
    made = chosen(count, seed) + quantile_funds.cases() + rate_funds.cases() + generate.gap_funds(seed, GAPS)
    made += tariff_funds.cases() + triangle_funds.cases() + frequency_funds.cases() + distribution_funds.cases()
    made += lives_funds.cases()
    return [(A_FILE, (case.data,), generate.level_of(case, rng, pricing.price(case.data), MOST_LEVEL))
            for case in made if len(case.data) <= LONGEST]


def sheet_cases(count, seed):
    rng = random.Random(seed)
    made = sheet_funds.stored() + generate_sheets.random_sheets(seed, count)
    return [(SHEETS, case.sheets(), generate.level_of(case, rng, sheets.price_sheets(*case.sheets()), MOST_LEVEL))
            for case in made if sum(map(len, case.sheets())) <= LONGEST]


def pair_cases(count, seed):
    """The pairs worked by hand, so many generated ones, one in ten of them long, and the full pair."""
    made = generate_pairs.random_pairs(seed, count - count // 10) + generate_pairs.long_pairs(seed, count // 10)
    pairs = [(old, new) for _, old, new, _ in comparison_funds.PAIRS]
    pairs += [(pair.old, pair.new) for pair in [*made, generate_pairs.full_pair()]]
    return [(A_PAIR, pair, 0) for pair in pairs if max(map(len, pair)) <= LONGEST]


def write_stream(directory, files, sheet_texts, pairs, seed):
    made = file_cases(files, seed) + sheet_cases(sheet_texts, seed) + pair_cases(pairs, seed)
    given, wanted = stream_of(made)
    directory.mkdir(parents=True, exist_ok=True)
    (directory / "stdin").write_bytes(given)
    (directory / "stdout").write_bytes(wanted)
    return len(made)


def stream_holds(directory):
    """Whether the cases of the stored stdin give it and the stored stdout, and their number."""
    stored = tuple((directory / name).read_bytes() for name in ("stdin", "stdout"))
    found = cases_of(stored[0])
    return stream_of(found) == stored, len(found)


def check_stream(directory):
    same, count = stream_holds(directory)
    print(f"{count} cases, " + ("none differs" if same else "some differ"))
    return 0 if count and same else 1


# Programs

EXAMPLES = Path(__file__).resolve().parent.parent / "examples"


def programs():
    """The programs of one file with their input and, for one that is asked at a level, the level."""
    return {"listing": (generate.full_fund().data(), None),
            "level": ((EXAMPLES / "sixty-members.fund").read_bytes(), 990000000000)}


SHEET_FILES = ("header", "rates", "members")
FULL_PAIR = ("old", "new")
SMALL_PAIR = ("first", "second")
LONG = "long"            # longer than what is read
MISSING = "missing"      # no file of this name is stored
FOLDER = "."             # it can be opened, and no read of it succeeds


def full_sheets():
    """The full fund as sheets, with blanks and minus zeros."""
    return generate_sheets.other_zeros(random.Random(2030), generate_sheets.full_sheets()).sheets()


def example_sheets():
    """The fund of sixty members as sheets."""
    return tuple((EXAMPLES / "sheets" / name).read_bytes() for name in ("header.txt", "rates.sheet", "members.sheet"))


def sheet_programs():
    """The programs of sheets with their files and, for one that is asked at a level, the level."""
    return {"sheets": (full_sheets(), None), "sheets_level": (example_sheets(), 990000000000)}


def compared_files():
    """The fund of sixty members, and it under a new edition; a small pair; and a file that is longer than what is read."""
    full = [(EXAMPLES / name).read_bytes() for name in ("sixty-members.fund", "sixty-members-2031.fund")]
    small = next((old, new) for name, old, new, _ in comparison_funds.PAIRS if name == "a unit lost")
    return dict(zip((*FULL_PAIR, *SMALL_PAIR, LONG), [*full, *small, generate.overlong_file().data()], strict=True))


def compared_names():
    """The names of the pairs that are compared: each kind of file that cannot be read, old and new, a pair the other way round, and a file
    that is too long beside one that is not."""
    return [FULL_PAIR, (MISSING, "new"), ("old", FOLDER), (FOLDER, MISSING), SMALL_PAIR[::-1], (LONG, "new")]


def line_of_sheets(three, level):
    answer = sheets.price_sheets(*three) if level is None else sheets.price_sheets(*three, level=level)
    return printed(answer) if level is None else quantile_line(answer)


def read_stored(folder, name):
    """The stored file of a name, or None where there is none."""
    path = folder / "data" / name
    return path.read_bytes() if path.is_file() else None


def pair_text(old, new):
    """What `compare` prints of two files, each None where it cannot be read."""
    if old is not None and new is not None:
        return comparison_of(old, new)
    return b"".join(b"unreadable=%s\n" % side for side, data in ((b"old", old), (b"new", new)) if data is None)


def store_with_data(folder, files, words, wanted):
    (folder / "data").mkdir(parents=True, exist_ok=True)
    for name, data in files.items():
        (folder / "data" / name).write_bytes(data)
    (folder / "args").write_text("".join(f"{word}\n" for word in words))
    (folder / "stdout").write_bytes(wanted)


def write_sheet_program(folder, three, level=None):
    words = [*SHEET_FILES] if level is None else [*SHEET_FILES, str(level)]
    store_with_data(folder, dict(zip(SHEET_FILES, three, strict=True)), words, line_of_sheets(three, level))


def write_compared_program(folder):
    files, pairs = compared_files(), compared_names()
    wanted = b"\n".join(pair_text(*map(files.get, pair)) for pair in pairs)
    store_with_data(folder, files, [name for pair in pairs for name in pair], wanted)


def write_programs(crates):
    for name, (data, level) in programs().items():
        (crates / name / "stdin").write_bytes(data)
        (crates / name / "stdout").write_bytes(listing_of(data) if level is None else level_line(data, level))
        if level is not None:
            (crates / name / "args").write_text(f"{level}\n")
    for name, (three, level) in sheet_programs().items():
        write_sheet_program(crates / name, three, level)
    write_compared_program(crates / "compare")
    return len(programs()) + len(sheet_programs()) + 1


def wanted_of_sheets(folder):
    words = (folder / "args").read_text().splitlines()
    names, levels = words[:len(SHEET_FILES)], words[len(SHEET_FILES):]
    return line_of_sheets([read_stored(folder, name) for name in names], int(levels[0]) if levels else None)


def wanted_of_pairs(folder):
    files = [read_stored(folder, name) for name in (folder / "args").read_text().splitlines()]
    return b"\n".join(map(pair_text, files[::2], files[1::2]))


def wanted_of(folder):
    """What a program should print for what its folder holds."""
    if (folder / "data" / SHEET_FILES[0]).exists():
        return wanted_of_sheets(folder)
    if (folder / "data").exists():
        return wanted_of_pairs(folder)
    data = (folder / "stdin").read_bytes()
    arguments = folder / "args"
    return level_line(data, int(arguments.read_text())) if arguments.exists() else listing_of(data)


def check_programs(crates):
    names = [*programs(), *sheet_programs(), "compare"]
    bad = [name for name in names if wanted_of(crates / name) != (crates / name / "stdout").read_bytes()]
    for name in bad:
        print(f"differs: {name}")
    print(f"{len(names)} programs, {len(bad)} differ")
    return 1 if bad else 0


def main(arguments):
    if len(arguments) == 4 and arguments[0] == "write":
        count = write(Path(arguments[1]), int(arguments[2]), int(arguments[3]))
        print(f"{count} cases written")
        return 0
    if len(arguments) == 2 and arguments[0] == "check":
        return check(Path(arguments[1]))
    if len(arguments) == 6 and arguments[0] == "stream":
        print(f"{write_stream(Path(arguments[1]), *map(int, arguments[2:]))} cases written")
        return 0
    if len(arguments) == 2 and arguments[0] == "check-stream":
        return check_stream(Path(arguments[1]))
    if len(arguments) == 2 and arguments[0] == "programs":
        print(f"{write_programs(Path(arguments[1]))} programs written")
        return 0
    if len(arguments) == 2 and arguments[0] == "check-programs":
        return check_programs(Path(arguments[1]))
    print(__doc__, file=sys.stderr)
    return 2


if __name__ == "__main__":
    sys.exit(main(sys.argv[1:]))
