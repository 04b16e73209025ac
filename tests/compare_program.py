"""The program `compare` on pairs of files from a seed.

    python3 tests/compare_program.py N SEED [PROGRAM]

Writes N generated pairs and those worked by hand to a folder, runs the program (target/bin/compare, built by
`scripts/build compare`) on one pair, on several and on files that are not there, and compares what it prints with the
independent calculation.
"""

import subprocess
import sys
import tempfile
from pathlib import Path

import comparison
import comparison_funds
import generate_pairs

ROOT = Path(__file__).resolve().parent.parent
AT_ONCE = 50         # pairs of one run


def pairs(count, seed):
    made = generate_pairs.random_pairs(seed, count - count // 10) + generate_pairs.long_pairs(seed, count // 10)
    by_hand = [generate_pairs.Pair(name, old, new) for name, old, new, _ in comparison_funds.PAIRS]
    return by_hand + [*made, generate_pairs.full_pair()]


def stored(folder, found):
    """The paths of each pair, and its listing."""
    for index, pair in enumerate(found):
        paths = folder / f"{index}.old", folder / f"{index}.new"
        for path, data in zip(paths, (pair.old, pair.new)):
            path.write_bytes(data)
        yield *map(str, paths), comparison.listing(comparison.compare(pair.old, pair.new))


def runs(folder, rows):
    """The arguments of each run, and what it must print."""
    missing = str(folder / "missing")
    yield rows[0][:2], rows[0][2]
    for start in range(0, len(rows), AT_ONCE):
        part = rows[start:start + AT_ONCE]
        yield [path for row in part for path in row[:2]], b"\n".join(row[2] for row in part)
    old, new, text = rows[0]
    yield [old, missing], b"unreadable=new\n"
    yield [missing, new, old, new], b"unreadable=old\n\n" + text
    yield [old, new, missing, missing], text + b"\nunreadable=old\nunreadable=new\n"


def main(arguments):
    if len(arguments) not in (2, 3):
        print(__doc__, file=sys.stderr)
        return 2
    program = arguments[2] if len(arguments) == 3 else ROOT / "target" / "bin" / "compare"
    with tempfile.TemporaryDirectory() as directory:
        folder = Path(directory)
        rows = list(stored(folder, pairs(int(arguments[0]), int(arguments[1]))))
        bad = count = 0
        for given, wanted in runs(folder, rows):
            count += 1
            done = subprocess.run([program, *given], capture_output=True)
            if (done.returncode, done.stdout) != (0, wanted):
                bad += 1
                print(f"differs: {' '.join(map(str, given[:2]))} ..")
    print(f"{len(rows)} pairs in {count} runs, {bad} differ")
    return 1 if bad else 0


if __name__ == "__main__":
    sys.exit(main(sys.argv[1:]))
