"""All checks of the comparison of two files.  Run: python3 tests/test_comparison.py

A check is a pair (name, holds).  The last line printed counts them.
"""

import random
import subprocess
import sys
import tempfile
import time
from collections import Counter
from pathlib import Path

import cases
import comparison
import comparison_funds
import comparison_mutations
import generate_pairs
import pricing

ROOT = Path(__file__).resolve().parent.parent
OLD, NEW = ROOT / "examples" / "sixty-members.fund", ROOT / "examples" / "sixty-members-2031.fund"
SMALL, LONG = 12000, 1200        # pairs from a seed, against exact values
MUTATED = 400                    # pairs that each wrong program is tried on
KINDS = Counter()                # of the pairs from a seed


# Pairs from a seed

def kind_of(pair):
    move = comparison.compare(pair.old, pair.new).move
    if move is None:
        return "a file refused"
    words = [word for word, differs in (("header", move.header), ("members", move.member)) if differs]
    return " and ".join(words) or "rates alone"


def exact_checks(pairs):
    checks = []
    for pair in pairs:
        KINDS[kind_of(pair)] += 1
        broken = comparison.check_move(pair.old, pair.new)
        checks.append((f"exact: {pair.name} {broken}", not broken))
    return checks


def exchanged_holds(pair):
    """From new to old every move is the opposite, every interval too, and the same lines differ."""
    there, back = comparison.compare(pair.old, pair.new), comparison.compare(pair.new, pair.old)
    if (there.old, there.new) != (back.new, back.old) or (there.move is None) != (back.move is None):
        return False
    if there.move is None:
        return True
    one, two = there.move, back.move
    return ((one.premium, one.least, one.most, one.arithmetic) == (-two.premium, -two.most, -two.least, two.arithmetic)
            and (one.gross, one.gross_least, one.gross_most) == (-two.gross, -two.gross_most, -two.gross_least)
            and (one.header, one.member, one.old_line, one.new_line) == (two.header, two.member, two.new_line, two.old_line))


def twice_holds(data):
    """A file beside itself: no move, and nothing else differs."""
    move = comparison.compare(data, data).move
    return move is None or (move.premium, move.gross, move.header, move.member, move.least) == (0, 0, 0, 0, -move.arithmetic)


def with_point(figure, digits):
    """A figure of a listing, in whole units, as decimals."""
    size = figure.lstrip("-").zfill(digits + 1)
    return ("-" if figure.startswith("-") else "") + size[:-digits] + "." + size[-digits:]


def own_lines(name, data):
    """The block of a file, from the listing of the file."""
    own = dict(line.split("=") for line in pricing.listing(pricing.price(data)).splitlines() if not line.startswith("cell="))
    if "refused" in own:
        return [f"{name}-refused={own['refused']}"]
    return [f"{name}-{key}={with_point(own[key], digits)}" for key, digits in (("premium", 12), ("within", 12), ("gross", 2))]


def own_figures_hold(pair):
    """The block of a file says what the listing of the file does, whatever it is compared with."""
    lines = comparison.listing(comparison.compare(pair.old, pair.new)).decode("ascii").splitlines()
    wanted = own_lines("old", pair.old) + own_lines("new", pair.new)
    return lines[:len(wanted)] == wanted


def turning_checks(pairs):
    return ([(f"exchanged: {pair.name}", exchanged_holds(pair)) for pair in pairs]
            + [(f"twice: {pair.name}", twice_holds(pair.new)) for pair in pairs])


def terms_checks(count):
    """Horizon, order and worth do not enter the exact premium: the exact move is then the rates' too."""
    rng, checks = random.Random(2031), []
    for index in range(count):
        old = generate_pairs.base_text(rng)
        change = (generate_pairs.other_horizon, generate_pairs.other_order, generate_pairs.other_worth)[index % 3]
        new = change(rng, generate_pairs.moved_a_little(rng, old))
        if not any(pricing.price(text.data()).number for text in (old, new)):
            kept = comparison.renewed(old.data(), new.data())
            same = comparison.exact_premium(new.data())[0] == comparison.exact_premium(kept)[0]
            checks.append((f"exact premium: {change.__name__} {index}", same))
    return checks


# Wrong programs

def mutation_checks(pairs):
    """Each is told apart by a pair worked by hand; how many pairs from a seed notice is printed."""
    by_hand, checks = dict(comparison_mutations.told_apart()), []
    right = [comparison.listing(comparison.compare(pair.old, pair.new)) for pair in pairs]
    for name, target, value in comparison_mutations.MUTATIONS:
        with comparison_mutations.mutated(target, value):
            other = sum(comparison.listing(comparison.compare(pair.old, pair.new)) != listing for pair, listing in zip(pairs, right))
        print(f"  {name}: {len(by_hand[name])} by hand, {other} of {len(pairs)} from a seed")
        checks.append((f"told apart by hand: {name}", bool(by_hand[name])))
    return checks


def unsound_checks(pairs):
    """Wrong intervals are noticed by the exact values alone."""
    checks = []
    for name in ("the difference of the bounds", "an interval about 0", "the interval's ends exchanged", "the excess without one centime",
                 "the gross interval's ends exchanged", "old and new swapped in the move", "the new bound alone"):
        target, value = next(row[1:] for row in comparison_mutations.MUTATIONS if row[0] == name)
        with comparison_mutations.mutated(target, value):
            noticed = sum(bool(comparison.check_move(pair.old, pair.new)) for pair in pairs)
        print(f"  {name}: the exact values of {noticed} of {len(pairs)} pairs notice")
        checks.append((f"the exact values notice: {name}", noticed > 0))
    return checks


# The worked pair and the programs

CHANGED_MEMBER = b"member=61,1,35,17,1", b"member=61,1,35,12,1"


def shown(old, new, lines=slice(None)):
    """A listing, or some of its lines, as docs/COMPARING.md shows it."""
    return "".join(f"    {line}\n" for line in comparison.listing(comparison.compare(old, new)).decode("ascii").splitlines()[lines])


def old_with(old, new, column):
    """The new file with one of the old file's two rates on each rate line."""
    old_rows, new_rows = ([line.split(b",") for line in comparison.rate_lines(data)] for data in (old, new))
    rows = [b",".join(one if at == column else two for at, (one, two) in enumerate(zip(*pair))) for pair in zip(old_rows, new_rows)]
    lines = comparison.lines_of(new)
    return b"".join(line + b"\n" for line in lines[:7] + rows + lines[7 + len(rows):])


def worked_checks():
    old, new = OLD.read_bytes(), NEW.read_bytes()
    changed = new.replace(*CHANGED_MEMBER)
    found, page = comparison.compare(old, new), (ROOT / "docs" / "COMPARING.md").read_text()
    middle = old_with(old, new, 2)          # the old disability rates
    deaths, disabilities = comparison.compare(old, middle).move.premium, comparison.compare(middle, new).move.premium
    return [("the worked pair: accepted", found.move is not None),
            ("the worked pair: the rates alone", comparison.renewed(old, new) == new and found.move.header == found.move.member == 0),
            ("the worked pair: every rate line differs", not set(comparison.rate_lines(old)) & set(comparison.rate_lines(new))),
            ("docs/COMPARING.md: the worked pair", shown(old, new) in page),
            ("docs/COMPARING.md: a member changed", new.count(CHANGED_MEMBER[0]) == 1 and shown(old, changed, slice(6, None)) in page),
            ("docs/COMPARING.md: the file between", comparison.renewed(old, changed) == new),
            ("docs/COMPARING.md: the second step", shown(new, changed) in page),
            ("docs/COMPARING.md: a file refused", shown(old, new.replace(b"members=2031", b"members=2030")) in page),
            ("docs/COMPARING.md: deaths and disabilities", (round(deaths, -8), round(disabilities, -8)) == (-41500000000, 81000000000))]


def run(*arguments):
    done = subprocess.run([sys.executable, "tests/comparison.py", *map(str, arguments)], cwd=ROOT, capture_output=True)
    return done.returncode, done.stdout, bool(done.stderr)


def program_checks():
    text = comparison.listing(comparison.compare(OLD.read_bytes(), NEW.read_bytes()))
    missing = ROOT / "examples" / "no.fund"
    return [("program: a pair", run(OLD, NEW) == (0, text, False)),
            ("program: two pairs", run(OLD, NEW, OLD, NEW) == (0, text + b"\n" + text, False)),
            ("program: the new file unreadable", run(OLD, missing) == (0, b"unreadable=new\n", True)),
            ("program: the old file unreadable", run(missing, NEW, OLD, NEW) == (0, b"unreadable=old\n\n" + text, True)),
            ("program: both unreadable", run(ROOT, missing) == (0, b"unreadable=old\nunreadable=new\n", True)),
            ("program: an odd number of files", run(OLD)[:2] == (2, b"")),
            ("program: no files", run()[:2] == (2, b""))]


def stream_checks():
    made = cases.pair_cases(40, 3)
    given, wanted = cases.stream_of(made)
    pairs = [pair for pair, _ in cases.of_kind(cases.A_PAIR, made)]
    old, new = pairs[0]
    return [("stream of comparisons: the files are read back", cases.cases_of(given) == made),
            ("stream of comparisons: the same seed gives the same", cases.pair_cases(40, 3) == made),
            ("stream of comparisons: its first bytes",
             given.startswith(b"p %06d %06d 000000 0000000000000\n" % (len(old), len(new)) + old + new)),
            ("stream of comparisons: its first answer", wanted.startswith(comparison_funds.PAIRS[0][3] + b"\n")),
            ("stream of comparisons: an empty line behind each", wanted.endswith(b"\n\n") and wanted.count(b"\n\n") == len(pairs)),
            ("stream of comparisons: none too long", max(len(data) for pair in pairs for data in pair) <= cases.LONGEST),
            ("stream of comparisons: pairs worked by hand", [pair for pair in comparison_funds.PAIRS if pair[1:3] not in pairs] == [])]


def stored_program_checks():
    with tempfile.TemporaryDirectory() as directory:
        folder = Path(directory) / "compare"
        cases.write_compared_program(folder)
        printed = (folder / "stdout").read_bytes()
        words = (folder / "args").read_text().splitlines()
        checks = [("program compare: its arguments", words == ["old", "new", "missing", "new", "old", ".", ".", "missing", "second", "first", "long", "new"]),
                  ("program compare: a listing or what cannot be read for each pair, with empty lines between",
                   [part.split(b"=")[0] for part in printed.split(b"\n\n")] == [b"old-premium", *[b"unreadable"] * 3, b"old-premium", b"old-refused"]),
                  ("program compare: which file cannot be read",
                   printed.split(b"\n\n")[1:4] == [b"unreadable=old", b"unreadable=new", b"unreadable=old\nunreadable=new"]),
                  ("program compare: its files", [(folder / "data" / name).read_bytes() for name in ("old", "new")]
                   == [OLD.read_bytes(), NEW.read_bytes()]),
                  ("program compare: a file that is longer than what is read", (folder / "data" / "long").stat().st_size > cases.LONGEST
                   and printed.split(b"\n\n")[-1].startswith(b"old-refused=2,1129\nnew-premium=")),
                  ("program compare: does not differ", cases.wanted_of(folder) == printed)]
        (folder / "data" / "new").write_bytes(OLD.read_bytes())
        return checks + [("program compare: another file differs", cases.wanted_of(folder) != printed)]


def sections():
    small, long = generate_pairs.random_pairs(2031, SMALL), generate_pairs.long_pairs(2031, LONG)
    yield "pairs worked by hand", comparison_funds.checks()
    yield "pairs from a seed against exact values", exact_checks(small)
    yield "long pairs against exact values", exact_checks(long)
    yield "old and new exchanged", turning_checks(small[::6] + long[::20])
    yield "the files' own figures", [(f"own figures: {pair.name}", own_figures_hold(pair)) for pair in small[1::6] + long[1::20]]
    yield "what enters no exact premium", terms_checks(600)
    yield "the worked pair", worked_checks()
    yield "program", program_checks()
    yield "stored cases", stream_checks() + stored_program_checks()
    yield "wrong programs", mutation_checks(small[:MUTATED])
    yield "wrong programs against exact values", unsound_checks(small[:MUTATED])


def main():
    passed = failed = 0
    started = time.monotonic()
    for name, checks in sections():
        for check, holds in checks:
            if not holds:
                print(f"  FAILED {check}")
        bad = sum(not holds for _, holds in checks)
        passed, failed = passed + len(checks) - bad, failed + bad
        print(f"{name}: {len(checks) - bad} passed, {bad} failed")
        if not checks:
            failed += 1
            print(f"  FAILED {name}: no checks")
    print("what differs, or a refusal: " + ", ".join(f"{count} {kind}" for kind, count in KINDS.most_common()))
    print(f"{time.monotonic() - started:.0f} seconds")
    print(f"{passed} passed, {failed} failed")
    return 1 if failed else 0


if __name__ == "__main__":
    sys.exit(main())
