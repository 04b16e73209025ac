"""The listing program on input that comes in pieces.

    python3 tests/pieces.py

Builds the program (rt) and gives it files through a pipe, each cut at several places with a
pause at each, so that one read gives one piece: the first byte alone, the last byte alone, in the middle of
a line, around what is read at most. What it prints is compared with the independent calculation.
"""

import subprocess
import sys
import time
from pathlib import Path

import cases
import document_funds
import generate

ROOT = Path(__file__).resolve().parent.parent
PAUSE = 0.05


def files():
    known = {name: text.data() for name, text in document_funds.FUNDS.items()}
    first = sorted(known)[0]
    return {first: known[first], "full": generate.full_fund().data(), "overlong": generate.overlong_file().data(),
            "nothing": b"", "no line feed": known[first][:-1]}


def cuts_of(size):
    places = {1, 5, size // 3, size // 2, size - 1, 4096, cases.LONGEST - 1, cases.LONGEST, cases.LONGEST + 1}
    return sorted(place for place in places if 0 < place < size)


def printed(program, data, cuts):
    run = subprocess.Popen([program], stdin=subprocess.PIPE, stdout=subprocess.PIPE)
    try:
        for start, end in zip([0, *cuts], [*cuts, len(data)]):
            run.stdin.write(data[start:end])
            run.stdin.flush()
            time.sleep(PAUSE)
        run.stdin.close()
    except BrokenPipeError:
        pass                 # the program has read what it reads
    run.stdin = None
    return run.communicate(timeout=60)[0]


def main():
    subprocess.run([ROOT / "scripts" / "build", "listing"], check=True, stdout=subprocess.DEVNULL, stderr=subprocess.DEVNULL)
    program, count, bad = ROOT / "target" / "bin" / "listing", 0, 0
    for name, data in files().items():
        cuts = cuts_of(len(data))
        for chosen in [[], *([cut] for cut in cuts), cuts]:
            count += 1
            if printed(program, data, chosen) != cases.listing_of(data):
                bad += 1
                print(f"differs: {name}, cut at {chosen}")
    print(f"{count} runs, {bad} differ")
    return 1 if bad else 0


if __name__ == "__main__":
    sys.exit(main())
