"""Checks of ./price, ./compare, ./reprice and scripts/build, and of all of them and ./sheet_bytes through symbolic links.

    python3 tests/test_scripts.py

It needs the programs listing, level, sheets, sheets_level and compare, which `scripts/build NAME` builds, one by one. They and the scripts
are copied to a folder of their own, so nothing of the repository is touched. What they should write comes from the independent
calculation.

A check is a pair (name, holds).  The last line printed counts them.  What this machine cannot do is named as skipped.
"""

import csv
import io
import os
import pty
import random
import re
import resource
import shutil
import signal
import struct
import subprocess
import sys
import tempfile
import time
from pathlib import Path

import comparison
import generate
import pricing
import sheets

ROOT = Path(__file__).resolve().parent.parent
PROGRAMS = [ROOT / "target" / "bin" / name for name in ("listing", "level", "sheets", "sheets_level", "compare")]
EXAMPLES = ROOT / "examples"
NOBODY = 65534
MEMORY = Path("/proc/self/mem")      # a regular file that can be opened, and not be read from its start


class Room:
    """A copy of the scripts, with programs, and a folder for temporary files that must be empty after each run."""

    def __init__(self, folder):
        self.root, self.temporary = folder / "root", folder / "temporary"
        self.temporary.mkdir()
        self.temporary.chmod(0o777)
        (self.root / "target" / "bin").mkdir(parents=True)
        for name in ("price", "compare", "reprice", "sheet_bytes", "crates.txt"):
            shutil.copy(ROOT / name, self.root)
        shutil.copytree(ROOT / "scripts", self.root / "scripts")

    def run(self, *words, given=b"", path=None, **options):
        """Status, standard output, standard error."""
        # Two crates at a time, as scripts/seconds.txt has them: how long is left is the same on each machine.
        environment = {**os.environ, "TMPDIR": str(self.temporary), "PYTHONDONTWRITEBYTECODE": "1", "RT_JOBS": "2"}
        if path:
            environment["PATH"] = f"{path}:{environment['PATH']}"
        command = [os.path.join(os.fsencode(self.root), os.fsencode(words[0])), *words[1:]]
        done = subprocess.run(command, input=given, capture_output=True, env=environment, timeout=300, check=False, **options)
        return done.returncode, done.stdout, done.stderr.decode(errors="replace")

    def is_clean(self):
        return not list(self.temporary.iterdir())

    def put_program(self, name, text):
        """A program of the test's own in the place of a built one."""
        file = self.root / "target" / "bin" / name
        file.unlink(missing_ok=True)
        file.write_text(text)
        file.chmod(0o755)


def add_programs(room):
    for program in PROGRAMS:
        shutil.copy(program, room.root / "target" / "bin")


# Funds

def text(**changes):
    """One member, ten lines."""
    given = {"horizon": 2, "order": 3, "rate_rows": ((40, 100000, 0),), "member_rows": ((40, 1, 1, 0, 1),), **changes}
    return generate.Text(**given)


def fund(**changes):
    return text(**changes).data()


def with_line(data, place, line):
    """With another line in this place, or without it."""
    lines = data.split(b"\n")
    lines[place - 1:place] = [] if line is None else [line]
    return b"\n".join(lines)


GOOD = fund()
CERTAIN = ((40, 1000000, 0),)

# name, file, number, place, the word, the line that is shown, some of what is said
REFUSED = [
    ("a leading zero", with_line(GOOD, 3, b"horizon=020"), 1, 3, "form", "horizon=020", "write horizon=NUMBER here"),
    ("one frequency", with_line(GOOD, 5, b"frequency=1000"), 1, 5, "form", "frequency=1000", "write two numbers"),
    ("no worth", with_line(GOOD, 7, None), 1, 7, "form", "rate=40,100000,0", "write worth=NUMBER here"),
    ("no lives", with_line(GOOD, 9, b"member=40,1,12,8"), 1, 9, "form", "member=40,1,12,8", "takes ,1 behind it"),
    ("nothing at all", b"", 1, 1, "form", None, "the line is missing, the file ends before it"),
    ("the file ends early", b"".join(GOOD.splitlines(True)[:6]), 1, 7, "form", None, "the line that belongs there: worth=NUMBER"),
    ("no end line", b"".join(GOOD.splitlines(True)[:9]), 1, 10, "form", None,
     "compare the member lines with the fund's list, since a file that was cut off ends like this too; if these are all, end=1\n"),
    ("no line feed at the end", GOOD[:-1], 1, 10, "form", "end=1", "the last line has no line feed"),
    ("carriage returns", GOOD.replace(b"\n", b"\r\n"), 1, 1, "form", "rates=2030\\r", "the line ends in a carriage return"),
    ("something behind the end", GOOD + b"end=1\n", 1, 11, "form", "end=1", "something follows end="),
    ("an empty line behind the end", GOOD + b"\n", 1, 11, "form", "(an empty line)", "something follows end="),
    ("a rate behind a member", fund(member_rows=((40, 1, 1, 0, 1),) * 2).replace(b"end=2", b"rate=50,1,1\nend=2"), 1, 11, "form",
     "rate=50,1,1", "in front of the first member line"),
    ("a space behind", with_line(GOOD, 4, b"order=3 "), 1, 4, "form", "order=3\\040", "write order=NUMBER here"),
    ("bytes", b"\x00\x1b[2J\xff\\\t\x7f\n" + GOOD, 1, 1, "form", "\\000\\033[2J\\377\\\\\\t\\177", "write rates=NUMBER here"),
    ("a long line", with_line(GOOD, 4, b"order=" + b"3" * 500), 1, 4, "form", "order=" + "3" * 154 + " .. (cut)", "one to seven digits"),
    ("a line without an end", with_line(GOOD, 4, b"order=" + b"3" * 70000), 1, 4, "form", "order=" + "3" * 154 + " .. (cut)", "one to seven digits"),
    ("an order of 13", with_line(GOOD, 4, b"order=13"), 2, 4, "range", "order=13", "order= takes 1 to 12"),
    ("lives of 0", with_line(GOOD, 9, b"member=40,1,12,8,0"), 2, 9, "range", "member=40,1,12,8,0", "lives 1 to 1,000"),
    ("lives of 999 and 2", fund(member_rows=((40, 2, 1, 0, 999), (40, 2, 1, 0, 2))), 2, 10, "range", "member=40,2,1,0,2",
     "A fund of more lives cannot be priced by this program: its parts are other covers, with other premiums"),
    ("a wrong count", with_line(fund(member_rows=((40, 2, 1, 0, 3),) * 2), 11, b"end=6"), 2, 11, "range", "end=6",
     "above stand 2, whatever their lives. If none is missing or too many, write end=2\n"),
    ("ages that do not rise", fund(rate_rows=((40, 1, 1), (40, 1, 1))), 2, 9, "range", "rate=40,1,1", "the age is not above the one before"),
    ("two editions", fund(members=2031), 3, 0, "edition", "line 2: members=2031", "use member data of the edition of the rates"),
    ("a deductible above", fund(deductible=4), 4, 0, "deductible", "line 6: deductible=4", "raise the horizon to at least 3: "),
    ("a member of 19", fund(rate_rows=((20, 1000, 0),), member_rows=((20, 1, 1, 0), (19, 1, 1, 0))), 5, 10, "unmatched",
     "member=19,1,1,0,1", "below that of the first rate line"),
    ("rates of a half", fund(rate_rows=((40, 250000, 250000),), member_rows=((40, 1, 1, 2, 1),)), 6, 9, "half", "member=40,1,1,2,1",
     "this program cannot price the fund: group 2 is for members who are replaced on leaving, and with others in it another fund is priced\n"),
    ("nine certain claims", fund(rate_rows=CERTAIN, member_rows=((40, 2, 1, 0, 9),)), 7, 0, "load", None,
     "this program cannot price the fund: its parts are other covers, with other premiums"),
    ("twenty of 0.3", fund(rate_rows=((40, 300000, 0),), member_rows=((40, 1, 1, 0, 20),)), 7, 0, "load", None, "the load is above 8"),
    ("an order too low", fund(order=2), 8, 0, "order", "line 4: order=2", "raise the order, up to 12: the exact premium does not depend on it"),
    ("the highest order, too low", fund(order=12, rate_rows=((40, 400000, 0),)), 8, 0, "order", "line 4: order=12",
     "12 is the highest order. If they are right, this program cannot price the fund: group 2 is for members who are replaced"),
    ("eight certain claims", fund(horizon=6, rate_rows=CERTAIN, member_rows=((40, 2, 1, 0, 8),)), 10, 6, "wide", "line 3: horizon=6",
     "total claim 6 is above 250,000 units"),
    ("eight certain claims, a horizon that can be lower", fund(horizon=6, deductible=6, rate_rows=CERTAIN, member_rows=((40, 2, 1, 0, 8),)), 10, 6, "wide",
     "line 6: deductible=6", "lower the horizon to less than 6 (but not below 5): "),
    ("eight certain claims, and no deductible", fund(horizon=6, deductible=0, rate_rows=CERTAIN, member_rows=((40, 2, 1, 0, 8),)), 10, 6, "wide",
     "line 6: deductible=0", "lower the horizon to less than 6 (but not below 0): "),
    ("eight certain claims, a deductible that is too high", fund(horizon=6, deductible=7, rate_rows=CERTAIN, member_rows=((40, 2, 1, 0, 8),)), 10, 6,
     "wide", "line 6: deductible=7", "this program cannot price the fund with this deductible: its premium needs the cell of 6. A lower deductible is another cover"),
    ("a deductible out of range", with_line(GOOD, 6, b"deductible=4097"), 2, 6, "range", "deductible=4097", "a higher deductible cannot be priced in this unit"),
]


def says(answer, program, where, number, word, shown, words):
    """That standard error has the place, the word, the line and what to do, and nothing that garbles a terminal."""
    lines = answer[2].splitlines()
    return (len(lines) >= 2 and lines[0].startswith(f"{program}: {where}: {word} ({number}): ") and lines[-1].startswith("what to do: ")
            and all(each in answer[2] for each in ((words,) if isinstance(words, str) else words)) and (shown is None or "    " + shown in lines)
            and all(mark == "\n" or mark.isprintable() for mark in answer[2]))


def where_of(name, number, place):
    return f"{name}, line {place}" if number in (1, 2, 5, 6) else name


# ./price

def price_checks(room, folder):
    file = folder / "a fund.fund"
    for name, data, number, place, word, shown, words in REFUSED:
        line = b"refused=%d,%d\n" % (number, place)
        yield f"price: {name}: the calculation", pricing.listing(pricing.price(data)).encode() == line
        file.write_bytes(data)
        for way, answer, who in (("file", room.run("price", file), file), ("standard input", room.run("price", given=data), "standard input"),
                                 ("level", room.run("price", "--level", "0.99", file), file)):
            yield f"price: {name}: {way}: listing and status", answer[:2] == (1, line)
            yield f"price: {name}: {way}: words", says(answer, "price", where_of(who, number, place), number, word, shown, words)
            yield f"price: {name}: {way}: nothing left", room.is_clean()


def shown_line(line):
    """A line as the scripts show it."""
    marks = {9: "\\t", 13: "\\r", 92: "\\\\"}
    found = "".join(marks.get(byte) or (chr(byte) if 32 <= byte < 127 else f"\\{byte:03o}") for byte in line[:160])
    found += " .. (cut)" if len(line) > 160 else ""
    return re.sub("^ | $", r"\\040", found) or "(an empty line)"


def damaged_checks(room, folder):
    """Damaged files of every kind: the listing is the calculation's, the words are of its number and place, the line is the part that it hands back."""
    file = folder / "damaged.fund"
    known = [case for case in generate.damaged_files() if case.lengths == generate.ENOUGH]
    for case in random.Random(5).sample(known, 120) + generate.random_damage(5, 120):
        file.write_bytes(case.data)
        answer, priced = room.run("price", file), pricing.price(case.data)
        if priced.number == 0:
            yield f"damaged: {case.name}", answer == (0, pricing.listing(priced).encode(), "")
            continue
        part = case.data[priced.start:priced.start + priced.length]
        lines = answer[2].splitlines()
        where = where_of(file, priced.number, priced.place)
        yield f"damaged: {case.name}: listing", answer[:2] == (1, pricing.listing(priced).encode())
        yield f"damaged: {case.name}: words", lines[0].startswith(f"price: {where}: ") and f" ({priced.number}): " in lines[0]
        if len(case.data) < 65536 and priced.number in (1, 2, 5, 6):
            missing = "the line is missing, the file ends before it" in lines[0]
            at_end = case.data.count(b"\n") < priced.place and not part
            yield f"damaged: {case.name}: the line", missing == at_end and (missing or lines[1] == "    " + shown_line(part))


def accepted_checks(room, folder):
    for path in sorted(EXAMPLES.glob("*.fund")):
        data = path.read_bytes()
        answer = pricing.price(data, level=990000000000)
        if answer.number == 0:
            yield f"price: {path.name}", room.run("price", path) == (0, pricing.listing(answer).encode(), "")
            yield f"price: {path.name}: standard input", room.run("price", given=data) == (0, pricing.listing(answer).encode(), "")
            quantile = b"quantile=%s\n" % (b"none" if answer.quantile is None else b"%d" % answer.quantile)
            yield f"price: {path.name}: level", room.run("price", "--level", "0.99", path) == (0, quantile, "")
    yield "price: accepted: nothing left", room.is_clean()
    yield "price: an endless file", room.run("price", "/dev/zero")[:2] == (1, b"refused=1,1\n")
    pipe = folder / "pipe"
    os.mkfifo(pipe)
    with subprocess.Popen(["sh", "-c", 'exec cat "$1" >"$2"', "sh", EXAMPLES / "half.fund", pipe]):
        answer = room.run("price", pipe)
    yield "price: a pipe", answer[:2] == (1, b"refused=6,9\n") and "    member=40,1,1,0,1\n" in answer[2]


def not_read(answer, words):
    return answer[0] == 2 and answer[1] == b"" and words in answer[2]


def unread_checks(room, folder):
    yield "price: no such file", not_read(room.run("price", folder / "none"), "price: no such file: ")
    yield "price: a folder", not_read(room.run("price", folder), "price: a folder, not a file: ")
    yield "price: a folder as standard input", not_read(room.run("price", stdin=os.open(folder, os.O_RDONLY), given=None), "price: a read that failed")
    yield "price: a read that fails", not_read(room.run("price", MEMORY), "price: a read that failed (Input/output error): /proc/self/mem")
    yield "price: a name that garbles", not_read(room.run("price", "a\x1b[2Jb"), "price: no such file: a?[2Jb\n")
    file = folder / "closed.fund"
    file.write_bytes(GOOD)
    file.chmod(0)
    yield "price: a file that may not be read", not_read(room.run("price", file, user=NOBODY if os.geteuid() == 0 else None), "cannot be read")
    yield "price: a header that is not there", not_read(room.run("price", "--sheets", folder / "none", file, file), "no such file")
    yield "price: members that are not there", not_read(room.run("price", "--sheets", file, file, folder / "none"), "no such file")
    for words in (["--level"], ["--level", "2"], ["--level", "0.x"], ["--other"], ["a", "b"], ["--sheets", "a", "b"]):
        yield f"price: usage: {' '.join(words)}", not_read(room.run("price", *words), "usage: ./price")
    yield "price: help", room.run("price", "--help")[::2] == (0, "") and b"usage: ./price" in room.run("price", "--help")[1]
    yield "price: not read: nothing left", room.is_clean()
    with open("/dev/full", "wb") as full:
        done = subprocess.run([room.root / "price", EXAMPLES / "one-member.fund"], stdout=full, stderr=subprocess.DEVNULL, check=False)
    yield "price: an output that cannot be written", done.returncode == 2
    for name, kill in (("to all", os.killpg), ("to the shell alone", os.kill)):
        for delay in (0, 0.001, 0.003, 0.1):
            yield f"price: a signal {name}, {delay} s after its folder is made", ended_by_signal(room, kill, delay)
    with subprocess.Popen([room.root / "price"], stdin=subprocess.PIPE, stdout=subprocess.PIPE) as run:
        time.sleep(0.1)
        yield "price: input that comes late", run.communicate(GOOD)[0] == pricing.listing(pricing.price(GOOD)).encode()
    done = subprocess.run(["sh", "-c", 'exec "$0" <&-', room.root / "price"], capture_output=True, check=False)
    yield "price: standard input that is closed", done.returncode == 2 and done.stdout == b"" and b"a read that failed" in done.stderr


def until(holds, seconds=20):
    """Waits until it holds; whether it did."""
    end = time.monotonic() + seconds
    while not holds():
        if time.monotonic() > end:
            return False
    return True


def is_unread(pipe):
    """That nobody reads what is written there."""
    try:
        os.write(pipe.fileno(), b"x")
    except BrokenPipeError:
        return True
    time.sleep(0.01)
    return False


def ended_by_signal(room, kill, delay):
    """That price, while it reads, ends soon after a signal, and leaves neither a file nor a reader."""
    run = subprocess.Popen([room.root / "price"], stdin=subprocess.PIPE, stderr=subprocess.DEVNULL, start_new_session=True,
                           env={**os.environ, "TMPDIR": str(room.temporary)})
    made = until(lambda: not room.is_clean())
    time.sleep(delay)
    kill(run.pid, signal.SIGTERM)
    ended = until(lambda: run.poll() is not None)
    unread = ended and until(lambda: is_unread(run.stdin), 5)
    run.stdin.close()
    return made and ended and unread and run.wait(20) != 0 and room.is_clean()


def floats(*rows):
    return b"".join(struct.pack(f"<{len(row)}d", *row) for row in rows)


def sheet_answer(room, folder, header, rates, members, *level):
    files = [folder / name for name in ("header.txt", "rates.sheet", "members.sheet")]
    for file, data in zip(files, (header, rates, members)):
        file.write_bytes(data)
    return room.run("price", *level, "--sheets", *files)


RATE = (40.0, 0.1, 0.0)
MEMBER = (40.0, 1.0, 1.0, 0.0, 1.0)
HEADER = text().header()

# name, header, rate rows, member rows, number, place, file, where in it, the word, what is shown, some of what is said
REFUSED_SHEETS = [
    ("a third rate row", HEADER, floats(RATE, (41.0, 0.1, 0.0), (40.5, 0.1, 0.0)), floats(MEMBER), 11, 3, "rates.sheet", "row 3", "cell",
     "40.5, 0.1, 0", "a cell is not taken"),
    ("a second member row", HEADER, floats(RATE), floats(MEMBER, (40.0, 3.0, 1.0, float("nan"), 1.0)), 11, 3, "members.sheet", "row 2", "cell",
     "40, 3, 1, blank, 1", "a cell is not taken"),
    ("rates cut short", HEADER, floats(RATE, RATE)[:-8], floats(MEMBER), 11, 2, "rates.sheet", "row 2", "cell", None, "16 bytes, where a row has 24"),
    ("members cut short", HEADER, floats(RATE), floats(MEMBER, MEMBER)[:-39], 11, 3, "members.sheet", "row 2", "cell", None,
     "1 bytes, where a row has 40"),
    ("no rates, a member", HEADER, b"", floats((40.5, *MEMBER[1:])), 11, 1, "members.sheet", "row 1", "cell", "40.5, 1, 1, 0, 1", "a cell"),
    ("ages that do not rise", HEADER, floats(RATE, RATE), floats(MEMBER), 2, 9, "rates.sheet", "row 2 (line 9 of the file with these rows)",
     "range", "40, 0.1, 0", "the age is not above"),
    ("999 lives and 2", HEADER, floats(RATE), floats((*MEMBER[:4], 999.0), (*MEMBER[:4], 2.0)), 2, 10, "members.sheet",
     "row 2 (line 10 of the file with these rows)", "range", "40, 1, 1, 0, 2",
     ("more than 1,000 in all", "A fund of more than 1,000 cannot be priced by this program: its parts are other covers, with other premiums")),
    ("unmatched", HEADER, floats(RATE), floats(MEMBER, (39.0, *MEMBER[1:])), 5, 10, "members.sheet",
     "row 2 (line 10 of the file with these rows)", "unmatched", "39, 1, 1, 0, 1", "add a rate line with the edition's own rates for that age"),
    ("half", HEADER, floats((40.0, 0.5, 0.0)), floats(MEMBER), 6, 9, "members.sheet", "row 1 (line 9 of the file with these rows)", "half",
     "40, 1, 1, 0, 1", "group 2 is for members who are replaced on leaving"),
    ("a header out of range", with_line(HEADER, 4, b"order=13"), floats(RATE), floats(MEMBER), 2, 4, "header.txt", "line 4", "range", "order=13",
     "order= takes 1 to 12"),
    ("a header cut", HEADER[:HEADER.index(b"worth")], floats(RATE), floats(MEMBER), 1, 7, "header.txt", "line 7", "form", None, "is missing"),
    ("a header with more", HEADER + b"rate=1,1,1\n", floats(RATE), floats(MEMBER), 1, 8, "header.txt", "line 8", "form", "rate=1,1,1",
     "something follows the seventh line"),
    ("editions", text(members=2031).header(), floats(RATE), floats(MEMBER), 3, 0, "header.txt", "", "edition", "line 2: members=2031", "differ"),
    ("deductible", text(deductible=4).header(), floats(RATE), floats(MEMBER), 4, 0, "header.txt", "", "deductible", "line 3: horizon=2", "horizon"),
    ("load", HEADER, floats((40.0, 1.0, 0.0)), floats((40.0, 2.0, 1.0, 0.0, 9.0)), 7, 0, "header.txt", "", "load", None, "above 8"),
    ("order", text(order=2).header(), floats(RATE), floats(MEMBER), 8, 0, "header.txt", "", "order", "line 4: order=2", "raise the order"),
    ("wide", text(horizon=6).header(), floats((40.0, 1.0, 0.0)), floats((40.0, 2.0, 1.0, 0.0, 8.0)), 10, 6, "header.txt", "", "wide",
     "line 3: horizon=6", "lower the horizon"),
]


def sheet_checks(room, folder):
    for name, header, rates, members, number, place, file, spot, word, shown, words in REFUSED_SHEETS:
        line = b"refused=%d,%d\n" % (number, place)
        yield f"sheets: {name}: the calculation", pricing.listing(sheets.price_sheets(header, rates, members)).encode() == line
        for level in ((), ("--level", "0.5")):
            answer = sheet_answer(room, folder, header, rates, members, *level)
            yield f"sheets: {name}: listing and status {level}", answer[:2] == (1, line)
            where = f"{folder / file}, {spot}" if spot else str(folder / file)
            yield f"sheets: {name}: words {level}", says(answer, "price", where, number, word, shown, words)
    answer = sheet_answer(room, folder, HEADER, floats(RATE), floats(MEMBER))
    yield "sheets: accepted", answer == (0, pricing.listing(pricing.price(GOOD)).encode(), "")
    yield "sheets: nothing left", room.is_clean()


# The comparison, from the calculation

def compared(old_data, new_data):
    """The listing of two files."""
    return comparison.listing(comparison.compare(old_data, new_data))


def expected_row(name, old_data, new_data):
    """The row of two files; a word where there is no file to read."""
    sides = [pricing.price(data) if isinstance(data, bytes) else data for data in (old_data, new_data)]
    numbers, figures, gross = [], [], []
    for side in sides:
        priced = not isinstance(side, str) and not side.number
        numbers += [side, ""] if isinstance(side, str) else [str(side.number), str(side.place)]
        figures += [comparison.units(side.premium), comparison.units(side.bound)] if priced else ["", ""]
        gross.append(comparison.centimes(side.gross) if priced else "")
    moved = ["", "", *gross, ""]
    if all(gross):
        move = comparison.compare(old_data, new_data).move
        other = " ".join(f"{word} {place}" for word, place in (("header", move.header), ("member", move.member)) if place)
        moved = [comparison.units(move.premium), comparison.units(move.arithmetic), *gross, other or "none"]
    return [os.fsencode(name).decode("latin-1"), *numbers, *figures, *moved]


# ./compare

OLD = fund(deductible=1, worth=100000, member_rows=((40, 1, 2, 0, 1), (41, 2, 1, 3, 2)))
NEW_RATES = ((40, 90000, 0), (41, 110000, 500))
NEW = fund(rates=2031, members=2031, deductible=1, worth=100000, rate_rows=NEW_RATES, member_rows=((40, 1, 2, 0, 1), (41, 2, 1, 3, 2)))
REFUSED_OLD = with_line(OLD, 4, b"order=13")
REFUSED_NEW = with_line(NEW, 2, b"members=2030")


def compare_pair(room, folder, old, new):
    for name, data in (("old.fund", old), ("new.fund", new)):
        (folder / name).write_bytes(data)
    return room.run("compare", folder / "old.fund", folder / "new.fund")


def compare_checks(room, folder):
    yield "compare: accepted", compare_pair(room, folder, OLD, NEW) == (0, compared(OLD, NEW), "")
    yield "compare: the other way", compare_pair(room, folder, NEW, OLD) == (0, compared(NEW, OLD), "")
    yield "compare: the two ways differ", compared(OLD, NEW) != compared(NEW, OLD)
    yield "compare: itself", compare_pair(room, folder, OLD, OLD) == (0, compared(OLD, OLD), "")
    for name, old, new, sides in (("old", REFUSED_OLD, NEW, ("old",)), ("new", OLD, REFUSED_NEW, ("new",)),
                                  ("both", REFUSED_OLD, REFUSED_NEW, ("old", "new"))):
        answer = compare_pair(room, folder, old, new)
        yield f"compare: refused {name}: listing and status", answer[:2] == (1, compared(old, new))
        said = {"old": f"compare: old file {folder / 'old.fund'}, line 4: range (2): a number is outside its limits\n    order=13\nwhat to do: correct",
                "new": f"compare: new file {folder / 'new.fund'}: edition (3): the two editions differ\n    line 1: rates=2031\n    line 2: members=2030\n"}
        yield f"compare: refused {name}: words", all((words in answer[2]) == (side in sides) for side, words in said.items())
    others = (("header", NEW.replace(b"deductible=1", b"deductible=2"),
               "header line 6 differs (line 6 of the old file: deductible=1, line 6 of the new file: deductible=2)"),
              ("member", NEW.replace(b"member=41,2,1,3,2", b"member=41,2,1,3,3"),
               "member 2 differs (line 10 of the old file: member=41,2,1,3,2, line 11 of the new file: member=41,2,1,3,3)"),
              ("a member less", NEW.replace(b"member=41,2,1,3,2\n", b"").replace(b"end=2", b"end=1"),
               "member 2 differs (line 10 of the old file: member=41,2,1,3,2, line 11 of the new file: end=1)"))
    for name, new, words in others:
        answer = compare_pair(room, folder, OLD, new)
        yield f"compare: {name}: listing and status", answer[:2] == (0, compared(OLD, new)) and b"exact=" in answer[1]
        yield f"compare: {name}: words", answer[2] == f"compare: the move is not the rates' alone: {words}\n"
    both = NEW.replace(b"deductible=1", b"deductible=2").replace(b"member=40,1,2", b"member=40,1,1")
    answer = compare_pair(room, folder, OLD, both)
    yield "compare: header and member", (answer[:2] == (0, compared(OLD, both)) and answer[2].count("\n") == 1
                                         and "header line 6 differs" in answer[2] and "member 1 differs" in answer[2])
    good = folder / "old.fund"
    for name, words, listing, said in (
            ("no old file", (folder / "none", good), b"unreadable=old\n", "compare: old file: no such file"),
            ("no new file", (good, folder / "none"), b"unreadable=new\n", "compare: new file: no such file"),
            ("a folder", (good, folder), b"unreadable=new\n", "compare: new file: a folder, not a file"),
            ("a read that fails", (MEMORY, good), b"unreadable=old\n", "compare: old file: a read that failed"),
            ("neither", (folder, folder / "none"), b"unreadable=old\nunreadable=new\n", "compare: new file: no such file")):
        answer = room.run("compare", *words)
        yield f"compare: {name}", answer[:2] == (2, listing) and said in answer[2] and len(answer[2].splitlines()) == len(listing.splitlines())
    yield from compare_many_checks(room, folder)
    for words in ((), (good,), (good, good, good), ("--other", good)):
        yield f"compare: usage: {len(words)} words", not_read(room.run("compare", *words), "usage: ./compare OLD NEW")
    yield "compare: help", room.run("compare", "--help")[::2] == (0, "") and b"usage: ./compare" in room.run("compare", "--help")[1]
    yield "compare: nothing left", room.is_clean()


def compare_many_checks(room, folder):
    """Several pairs: the listings with an empty line between, the worst status, the words of each."""
    other = NEW.replace(b"deductible=1", b"deductible=2")
    files = {}
    for name, data in (("one", OLD), ("two", NEW), ("other", other), ("refused", REFUSED_OLD)):
        files[name] = folder / f"many {name}.fund"
        files[name].write_bytes(data)
    one, two = files["one"], files["two"]
    answer = room.run("compare", one, two, two, one)
    yield "compare: two pairs", answer == (0, compared(OLD, NEW) + b"\n" + compared(NEW, OLD), "")
    answer = room.run("compare", files["refused"], two, one, files["other"], one, two)
    yield "compare: three pairs: listings", answer[1] == b"\n".join((compared(REFUSED_OLD, NEW), compared(OLD, other), compared(OLD, NEW)))
    yield "compare: three pairs: status", answer[0] == 1
    yield "compare: three pairs: words", (f"compare: old file {files['refused']}, line 4: range (2): " in answer[2]
                                          and f"compare: {one} and {files['other']}: the move is not the rates' alone: header line 6 " in answer[2])
    answer = room.run("compare", one, folder / "none", files["refused"], two, one, two)
    yield "compare: a pair that cannot be read", answer[:2] == (2, b"\n".join((b"unreadable=new\n", compared(REFUSED_OLD, NEW), compared(OLD, NEW))))


# ./reprice

ODD_NAMES = ["a name", "a,b", 'a"b', "a\nb", "a\r", "-dash", "--names", "--rows", os.fsdecode(b"\xff\xfe"), "Zürich", "$(x)", "a'b", "\\"]


def pool(folder):
    """Two folders, and the rows that they should give, sorted by name."""
    rng = random.Random(2030)
    old, new = folder / "old", folder / "new"
    old.mkdir()
    new.mkdir()
    made = {}

    def add(name, old_data, new_data):
        for side, data in ((old, old_data), (new, new_data)):
            if isinstance(data, bytes):
                (side / name).write_bytes(data)
        made[name] = (old_data, new_data)

    for path in sorted(EXAMPLES.glob("*.fund")):
        data = path.read_bytes()
        rates = re.sub(rb"(?m)^rate=(\d+),(\d+),(\d+)$", lambda m: b"rate=%s,%d,%s" % (m[1], int(m[2]) * 9 // 10, m[3]), data)
        add(path.name, data, rates)
    for k, name in enumerate(ODD_NAMES):
        add(name, OLD, NEW.replace(b"110000", b"%d" % (110000 + rng.randrange(10000) + k)))
    add("header", OLD, NEW.replace(b"worth=100000", b"worth=99"))
    add("member", OLD, NEW.replace(b"member=41,2,1,3,2", b"member=41,2,1,3,1"))
    add("header and member", OLD, NEW.replace(b"worth=100000", b"worth=99").replace(b"member=41,2,1,3,2", b"member=41,2,1,3,1"))
    add("refused old", REFUSED_OLD, NEW)
    add("refused new", OLD, REFUSED_NEW)
    add("refused both", REFUSED_OLD, REFUSED_NEW)
    add("nothing in it", b"", NEW)
    add("overlong", OLD, NEW + b"x" * 100000)
    return old, new, made, add


def add_unread(old, new, made, add):
    add("missing old", "missing", NEW)
    add("missing new", OLD, "missing")
    add("missing new, refused old", REFUSED_OLD, "missing")
    for name, side, data in (("failing read old", old, ("unreadable", NEW)), ("failing read new", new, (OLD, "unreadable"))):
        add(name, *data)
        (side / name).symlink_to(MEMORY)
    add("a link to nowhere", "unreadable", NEW)
    (old / "a link to nowhere").symlink_to("nowhere at all")
    add("a link to itself", "unreadable", NEW)
    (old / "a link to itself").symlink_to("a link to itself")
    add("a folder", OLD, "unreadable")
    (new / "a folder").mkdir()
    add("a pipe", "unreadable", NEW)
    os.mkfifo(old / "a pipe")
    (old / "two folders").mkdir()
    (new / "two folders").mkdir()
    (new / "a link").symlink_to("refused new")
    (old / "a link").symlink_to("refused new")
    made["a link"] = made["refused new"]


def table_of(output):
    return list(csv.reader(io.StringIO(output.decode("latin-1"), newline=""), strict=True))


def table_expected(made):
    return [expected_row(name, *made[name]) for name in sorted(made, key=os.fsencode)]


HEADING = "fund,old_number,old_place,new_number,new_place,old_premium,old_within,new_premium,new_within,move,arithmetic,old_gross,new_gross,other"


# As docs/COMPARING.md has it, on this machine.
BY_PARALLEL = """cd "$0" && ./reprice --heading &&
./reprice --names "$1" "$2" | parallel -q -0 -k -n 20 --workdir "$PWD" --sshlogin : ./reprice --rows "$1" "$2"
"""


def reprice_checks(room, folder):
    old, new, made, add = pool(folder)
    priced = {name: data for name, data in made.items() if not pricing.price(data[0]).number and not pricing.price(data[1]).number}
    good_old, good_new = folder / "good old", folder / "good new"
    for side, where in enumerate((good_old, good_new)):
        where.mkdir()
        for name, data in priced.items():
            (where / name).write_bytes(data[side])
    answer = room.run("reprice", good_old, good_new)
    yield "reprice: priced: status", answer[0] == 0 and answer[2] == ""
    yield "reprice: priced: the table", table_of(answer[1])[1:] == table_expected(priced)
    answer = room.run("reprice", old, new)
    yield "reprice: refused: status", answer[0] == 1 and answer[2] == ""
    yield "reprice: refused: the heading", answer[1].startswith(HEADING.encode() + b"\n")
    yield "reprice: refused: the table", table_of(answer[1])[1:] == table_expected(made)
    swapped = room.run("reprice", new, old)
    yield "reprice: the other way", table_of(swapped[1])[1:] == table_expected({name: data[::-1] for name, data in made.items()})
    yield "reprice: the two ways differ", swapped[1] != answer[1]
    add_unread(old, new, made, add)
    answer = room.run("reprice", old, new)
    yield "reprice: not read: status", answer[0] == 2 and answer[2] == ""
    for found, expected in zip(table_of(answer[1])[1:], table_expected(made)):
        yield f"reprice: row {expected[0]!r}", found == expected
    yield "reprice: so many rows", len(table_of(answer[1])) == len(made) + 1
    yield "reprice: again", room.run("reprice", old, new) == answer
    yield "reprice: folders with a slash", room.run("reprice", f"{old}/", f"{new}/") == answer
    shown = room.run("reprice", "--progress", old, new)
    yield "reprice: progress", shown[:2] == answer[:2] and f"{len(made)} of {len(made)} funds" in shown[2]
    names = room.run("reprice", "--names", old, new)
    yield "reprice: names", names[:2] == (0, b"".join(os.fsencode(name) + b"\0" for name in sorted(made, key=os.fsencode)))
    parts = [room.run("reprice", "--heading")[1]]
    listed = names[1].split(b"\0")[:-1]
    statuses = set()
    for start in range(0, len(listed), 7):
        part = room.run("reprice", "--rows", old, new, *listed[start:start + 7])
        parts.append(part[1])
        statuses.add(part[0])
    yield "reprice: rows in parts", b"".join(parts) == answer[1] and max(statuses) == 2
    if shutil.which("parallel"):
        spaced = folder / "the old ones"
        spaced.symlink_to(old)
        done = subprocess.run(["sh", "-c", BY_PARALLEL, room.root, spaced, new], capture_output=True, check=False,
                              env={**os.environ, "PARALLEL_HOME": str(folder), "PYTHONDONTWRITEBYTECODE": "1"})
        yield "reprice: by GNU parallel", done.stdout == answer[1]
    yield "reprice: rows of a name that is nowhere", room.run("reprice", "--rows", old, new, "none")[:2] == (2, b"none,missing,,missing" + b"," * 10 + b"\n")
    yield "reprice: no rows", room.run("reprice", "--rows", old, new) == (0, b"", "")
    empty = folder / "empty"
    empty.mkdir()
    yield "reprice: empty folders", room.run("reprice", empty, empty) == (0, HEADING.encode() + b"\n", "")
    for words in ((), (old,), (old, folder / "none"), (old, old / "header"), ("--other", old), ("--rows", old), (old, new, new)):
        yield f"reprice: usage: {len(words)} words", not_read(room.run("reprice", *words), "usage: ./reprice")
    yield "reprice: help", room.run("reprice", "--help")[::2] == (0, "") and b"--rows OLD NEW NAME" in room.run("reprice", "--help")[1]
    with open("/dev/full", "wb") as full:
        done = subprocess.run([room.root / "reprice", old, new], stdout=full, stderr=subprocess.DEVNULL, check=False)
    yield "reprice: an output that cannot be written", done.returncode == 2


# The documents

def shown_in(page, output):
    """That the page has this output, indented."""
    return "".join(f"    {line}\n" for line in output.splitlines()) in (ROOT / page).read_text()


def document_checks(room, folder):
    """The examples of the documents are what the scripts print."""
    old, new = ((EXAMPLES / name).read_bytes() for name in ("sixty-members.fund", "sixty-members-2031.fund"))
    files = {"old.fund": old, "new.fund": new, "other.fund": new.replace(b"member=61,1,35,17,1", b"member=61,1,35,12,1"),
             "old/sixty.fund": old, "new/sixty.fund": new, "old/half.fund": (EXAMPLES / "half.fund").read_bytes(), "fund.txt": with_line(GOOD, 4, b"order=13")}
    for side in ("old", "new"):
        (folder / side).mkdir()
    for name, data in files.items():
        (folder / name).write_bytes(data)
    for pair in (("old.fund", "new.fund"), ("new.fund", "other.fund")):
        yield f"documents: {pair}", shown_in("docs/COMPARING.md", room.run("compare", *pair, cwd=folder)[1].decode())
    answer = room.run("compare", "old.fund", "other.fund", cwd=folder)
    yield "documents: another member", shown_in("docs/COMPARING.md", answer[1].decode().split("new-gross=")[1].split("\n", 1)[1])
    yield "documents: another member, in words", shown_in("docs/COMPARING.md", answer[2])
    (folder / "new.fund").write_bytes(new.replace(b"members=2031", b"members=2030"))
    answer = room.run("compare", "old.fund", "new.fund", cwd=folder)
    yield "documents: refused", shown_in("docs/COMPARING.md", answer[1].decode()) and shown_in("docs/COMPARING.md", answer[2])
    yield "documents: the pool", shown_in("docs/COMPARING.md", room.run("reprice", "old", "new", cwd=folder)[1].decode())
    answer = room.run("price", "fund.txt", cwd=folder)
    for page in ("README.md", "docs/FUND-FILE.md"):
        yield f"documents: a refusal in words: {page}", shown_in(page, answer[1].decode() + answer[2])


# Advice

def with_number(data, key, number):
    return re.sub(rb"(?m)^%s=.*$" % key, b"%s=%d" % (key, number), data)


def end_of(room, data):
    """Premium, bound and gross premium, as the listing has them; the line of a refusal where there is none."""
    lines = room.run("price", given=data)[1].split(b"\n")
    return tuple(int(line.split(b"=")[1]) for line in lines[-4:-1]) if len(lines) > 3 else lines[0]


def advice_checks(room, folder):
    """Who follows the advice has the premium of the same fund; what the pages say of another fund is so."""
    sixty = (EXAMPLES / "sixty-members.fund").read_bytes()
    right = end_of(room, sixty)
    yield "advice: the horizon changes no premium", all(end_of(room, with_number(sixty, b"horizon", most)) == right for most in (59, 60, 61, 150, 1000, 4095))
    low = with_number(sixty, b"horizon", 58)
    advised = re.findall(r"raise the horizon to at least (\d+):", room.run("price", given=low)[2])
    yield "advice: deductible (4)", end_of(room, low) == b"refused=4,0" and [
        end_of(room, with_number(low, b"horizon", int(horizon))) for horizon in advised] == [right]
    for order in (1, 2):
        found = end_of(room, with_number(sixty, b"order", order))
        yield f"advice: order (8): from {order}", found == b"refused=8,0" if order == 1 else abs(found[0] - right[0]) <= found[1] + right[1] and found[1] > right[1]
    eight = fund(horizon=6, order=3, rate_rows=CERTAIN, member_rows=((40, 2, 1, 0, 8),))
    for deductible in range(8):
        wide = with_number(eight, b"deductible", deductible)
        said = room.run("price", given=wide)[2]
        advised = re.search(r"lower the horizon to less than (\d+) \(but not below (\d+)\)", said)
        if deductible > 6:
            yield f"advice: wide (10): {deductible}", not advised and "cannot price the fund with this deductible" in said and all(
                isinstance(end_of(room, with_number(wide, b"horizon", horizon)), bytes) for horizon in range(8))
            continue
        most, least = (int(advised[1]) - 1, int(advised[2])) if advised else (-1, 0)
        found = {end_of(room, with_number(wide, b"horizon", horizon)) for horizon in range(least, most + 1)}
        yield f"advice: wide (10): {deductible}", most == 5 and len(found) == 1 and isinstance(found.pop(), tuple)
        yield f"advice: wide (10): {deductible}: no lower horizon", not least or end_of(room, with_number(wide, b"horizon", least - 1)) == b"refused=4,0"
    page = (ROOT / "docs" / "FUND-FILE.md").read_text()
    yield from page_checks(room, sixty, right, " ".join(page.split()))
    for name in ("README.md", "docs/FUND-FILE.md", "docs/COMPARING.md", "scripts/refusals.sh", "price", "compare", "reprice", "sheet_bytes", "include/miguepo.h"):
        found = (ROOT / name).read_text().lower()
        yield f"advice: {name}: neither parts nor another group", not any(
            words in found for words in ("priced in parts", "price the fund in parts", "take the member in group 2", "members to group 2", "rates to group 2"))


def page_checks(room, sixty, right, page):
    """The figures of docs/FUND-FILE.md on what is another fund."""
    def francs(*parts):
        gross = [end_of(room, part)[2] for part in parts]
        words = [f"{centimes // 100:,}.{centimes % 100:02}" for centimes in (*gross, sum(gross))]
        return f"{' + '.join(words[:-1])} = {words[-1]}" if len(parts) > 1 else words[-1]

    lines = sixty.splitlines(True)
    halves = [b"".join(lines[:48] + lines[start:start + 30] + [b"end=30\n"]) for start in (48, 78)]
    yield "advice: the whole", f"| the whole fund, deductible 60 | {francs(sixty)} |" in page
    for deductible in (30, 60):
        found = francs(*(with_number(half, b"deductible", deductible) for half in halves))
        yield f"advice: halves with {deductible}", f"| each half by itself, deductible {deductible} | {found} |" in page
    half = (EXAMPLES / "half.fund").read_bytes()
    premium = end_of(room, half.replace(b"member=40,1,", b"member=40,2,"))[0]
    yield "advice: another group", end_of(room, half) == b"refused=6,9" and f"the premium is {comparison.units(premium)}." in page

    def in_unit(amount, deductible, worth, horizon):
        made = re.sub(rb"(?m)^(member=\d+,\d),(\d+),(\d+)", lambda m: b"%s,%d,%d" % (m[1], amount(int(m[2])), amount(int(m[3]))), sixty)
        for key, number in ((b"deductible", deductible), (b"worth", worth), (b"horizon", horizon)):
            made = with_number(made, key, number)
        return made

    hundreds = in_unit(lambda amount: 10 * amount, 600, 10000, 4095)
    premium, bound, _ = end_of(room, hundreds)
    yield "advice: hundreds of francs", abs(premium - 10 * right[0]) <= bound + 10 * right[1] and f"a gross premium of {francs(hundreds)}." in page
    for words, amount in (("rounded to the nearest, the gross premium is", lambda amount: (amount + 5) // 10), ("all rounded up,", lambda amount: -(-amount // 10))):
        yield f"advice: tens of thousands, {words}", f"{words} {francs(in_unit(amount, 6, 1000000, 60))}" in page


# A program that ends by a signal, writes something else or not all, says something, or ends with a status, where a name says so.
FAULTY = """#!/bin/sh
echo "$#" >>"{log}"
for path; do
    case $path in
        *killed*) kill -9 $$ ;;
        *garbage*) echo garbage ;;
        *status*) exit 3 ;;
        *silent*) exit 0 ;;
        *cut*) "{program}" "$@" | head -c 200; exit 0 ;;
        *feed*) "{program}" "$@" | tr -d '\\n'; exit 0 ;;
        *said*) echo 'standard output: No space left on device' >&2 ;;
    esac
done
exec "{program}" "$@"
"""


def faulty_checks(room, folder):
    old, new = folder / "faulty old", folder / "faulty new"
    made = {f"{k:03}.fund": (OLD, NEW) for k in range(90)}
    faulty = ["010 killed", "020 garbage", "030 status", "040 silent", "050 cut", "060 feed", "070 said"]
    for side, where in enumerate((old, new)):
        where.mkdir()
        for name, data in made.items():
            (where / name).write_bytes(data[side])
        for name in faulty:
            (where / name).write_bytes(GOOD)
    (old / "080 said").write_bytes(OLD)
    (new / "080 said").symlink_to(MEMORY)
    faulty.append("080 said")
    program = room.root / "target" / "bin" / "compare"
    kept = program.rename(folder / "compare program")
    log = folder / "runs"
    room.put_program("compare", FAULTY.format(program=kept, log=log))
    answer = room.run("reprice", old, new)
    failed = {name: [name, "failed", "", "failed"] + [""] * 10 for name in faulty}
    row = expected_row("", OLD, NEW)[1:]
    expected = [failed.get(name) or [name, *row] for name in sorted([*made, *faulty])]
    yield "reprice: a failing program: status", answer[0] == 2
    yield "reprice: a failing program: the table", table_of(answer[1])[1:] == expected
    yield "reprice: a failing program: why", [line.split(": ")[1] for line in answer[2].splitlines()] == faulty and (
        "reprice: 070 said: the program failed: standard output: No space left on device; standard output: " in answer[2])
    yield "reprice: many pairs in a process", max(map(int, log.read_text().split())) >= 10
    room.put_program("compare", "#!/bin/sh\nexit 0\n")
    (folder / "one.fund").write_bytes(OLD)
    answer = room.run("compare", folder / "one.fund", folder / "one.fund")
    yield "compare: a program that writes nothing", not_read(answer, "gave no listing")
    program.unlink()
    answer = room.run("compare", folder / "one.fund", folder / "none")
    yield "compare: a file that is not there, without the program", answer[:2] == (2, b"unreadable=new\n") and answer[2].count("\n") == 1
    yield "reprice: rows without the program", not_read(room.run("reprice", "--rows", old, new, "000.fund"), "scripts/build compare")
    kept.rename(program)


# A listing is printed whole, or not at all

SAYS = "standard output: No space left on device"


def cuts_of(listing):
    """The listing cut in each of its lines, and in front of each line feed, and between two lines."""
    found, at = [], 0
    for line in listing.splitlines(True):
        found += [at, at + len(line) // 2, at + len(line) - 1]
        at += len(line)
    return [listing[:end] for end in sorted(set(found))]


def put_writer(room, folder, name, listing, said=""):
    """A program that writes this and says that, and ends with status 0."""
    (folder / "written").write_bytes(listing)
    room.put_program(name, f"#!/bin/sh\ncat >/dev/null\ncat '{folder / 'written'}'\n" + (f"echo '{said}' >&2\n" if said else ""))


def whole_checks(room, folder):
    """Programs that answer status 0 and write a listing that is cut, or another one, or say something."""
    good, sheet_files = folder / "good.fund", [folder / name for name in ("header.txt", "rates.sheet", "members.sheet")]
    good.write_bytes(GOOD)
    for file, data in zip(sheet_files, (HEADER, floats(RATE), floats(MEMBER))):
        file.write_bytes(data)
    (folder / "new.fund").write_bytes(NEW)
    listing, level, refused = pricing.listing(pricing.price(GOOD)).encode(), b"quantile=1\n", b"refused=2,4\n"
    other = NEW.replace(b"worth=100000", b"worth=99").replace(b"member=41,2,1,3,2", b"member=41,2,1,3,1")
    pair = ("compare", folder / "new.fund", folder / "new.fund")
    ways = [("listing", ("price", good), {}, (listing, refused), (level, refused * 2, b"x=1\n" + refused, b"gross=1\n")),
            ("listing", ("price",), {"given": GOOD}, (listing, refused), (level,)),
            ("level", ("price", "--level", "0.9", good), {}, (level, b"quantile=none\n", refused), (listing, level * 2)),
            ("sheets", ("price", "--sheets", *sheet_files), {}, (listing, refused), (level,)),
            ("sheets_level", ("price", "--level", "0.9", "--sheets", *sheet_files), {}, (level, refused), (listing,)),
            ("compare", pair, {}, (compared(OLD, NEW), compared(REFUSED_OLD, NEW), compared(OLD, REFUSED_NEW), compared(REFUSED_OLD, REFUSED_NEW)),
             (b"unreadable=old\n", b"unreadable=old\nunreadable=new\n", compared(OLD, NEW) * 2, b"other=none\n"))]
    for program, words, options, whole, wrong in ways:
        kept = (room.root / "target" / "bin" / program).rename(folder / "kept")
        what = f"whole: {program} {' '.join(str(word) for word in words[1:] if str(word).startswith('--'))}{options and ' standard input' or ''}"
        for made in whole:
            put_writer(room, folder, program, made)
            answer = room.run(*words, **options)
            yield f"{what}: {made[:8]}.. is printed", answer[0] in (0, 1) and answer[1] == made
            put_writer(room, folder, program, made, SAYS)
            answer = room.run(*words, **options)
            yield f"{what}: {made[:8]}.. with a message", not_read(answer, SAYS + "\n") and "gave no whole listing" in answer[2]
        for made in [cut for text in whole for cut in cuts_of(text)] + list(wrong):
            put_writer(room, folder, program, made)
            yield f"{what}: {made[:8]}.. of {len(made)} bytes", not_read(room.run(*words, **options), f"the program {program} gave no ")
        put_writer(room, folder, program, b"", "a\33[2Jb\nc")
        yield f"{what}: a message that garbles", not_read(room.run(*words, **options), "a?[2Jb\nc\n")
        kept.replace(room.root / "target" / "bin" / program)
    # Cut between its two last lines it could be whole: then the message alone tells.
    kept = (room.root / "target" / "bin" / "compare").rename(folder / "kept")
    both = compared(OLD, other)
    put_writer(room, folder, "compare", both[:both.index(b"other=member")], SAYS)
    yield "whole: compare: without the second line of other", not_read(room.run(*pair), SAYS)
    # The second of three pairs fails: the first is whole, and nothing follows it.
    room.put_program("compare", f'#!/bin/sh\nif grep -q worth=99 "$2"; then "{kept}" "$@" | head -c 300; else exec "{kept}" "$@"; fi\n')
    for name, data in (("old.fund", OLD), ("other.fund", other)):
        (folder / name).write_bytes(data)
    files = [folder / name for name in ("old.fund", "new.fund", "old.fund", "other.fund", "old.fund", "new.fund")]
    answer = room.run("compare", *files)
    yield "whole: compare: the second of three pairs", (answer[:2] == (2, compared(OLD, NEW))
                                                        and f"compare: {files[2]} and {files[3]}: the program compare gave no whole listing" in answer[2])
    kept.replace(room.root / "target" / "bin" / "compare")
    yield "whole: nothing left", room.is_clean()


def into(room, words, output, **options):
    """Status, standard error and whether nothing is left, of a run whose standard output is this one."""
    done = subprocess.run([room.root / words[0], *words[1:]], stdin=subprocess.DEVNULL, stdout=output, stderr=subprocess.PIPE, check=False,
                          env={**os.environ, "TMPDIR": str(room.temporary), "PYTHONDONTWRITEBYTECODE": "1"}, **options)
    return done.returncode, done.stderr.decode(errors="replace"), room.is_clean()


def output_checks(room, folder):
    """A standard output that is full, closed, or read by nobody."""
    old, new = folder / "old", folder / "new"
    for where, data in ((old, OLD), (new, NEW)):
        where.mkdir()
        (where / "a.fund").write_bytes(data)
    one, two, sixty = old / "a.fund", new / "a.fund", EXAMPLES / "sixty-members.fund"
    sheet_files = [EXAMPLES / "sheets" / name for name in ("header.txt", "rates.sheet", "members.sheet")]
    for words in (("price", sixty), ("price", EXAMPLES / "half.fund"), ("price", "--level", "0.99", sixty), ("price", "--sheets", *sheet_files),
                  ("price", "--level", "0.99", "--sheets", *sheet_files), ("price", "--help"), ("compare", one, two), ("compare", one, two, two, one),
                  ("compare", one, folder / "none"), ("compare", "--help"), ("reprice", old, new), ("reprice", "--names", old, new),
                  ("reprice", "--rows", old, new, "a.fund"), ("reprice", "--heading"), ("reprice", "--help")):
        what = "output: " + " ".join(str(word) if not isinstance(word, Path) else word.name for word in words)
        with open("/dev/full", "wb") as full:
            status, said, clean = into(room, words, full)
        yield f"{what}: full", status == 2 and f"{words[0]}: standard output could not be written" in said and clean
        status, said, clean = into(room, words, None, preexec_fn=lambda: os.close(1))
        yield f"{what}: closed", status == 2 and f"{words[0]}: standard output could not be written" in said and clean
        for name, options in (("a pipe that nobody reads", {}), ("the same, with the signal ignored", {"restore_signals": False})):
            reading, writing = os.pipe()
            os.close(reading)
            status, said, clean = into(room, words, writing, **options)
            os.close(writing)
            yield f"{what}: {name}", "Traceback" not in said and clean and (
                status == 2 and f"{words[0]}: standard output could not be written" in said or "--help" in words and status < 0)


def limited(most):
    """No file can get longer than this, as on a disk that is full."""
    return lambda: resource.setrlimit(resource.RLIMIT_FSIZE, (most, most))


# As root of a name space of its own, whose mounts end with it: so many KiB for temporary files, of which so many are taken.
SMALL = """mount -t tmpfs -o "size=$1k" tmpfs "$TMPDIR" || exit 99
[ "$2" -eq 0 ] || head -c "$2k" /dev/zero >"$TMPDIR/taken" || exit 99
shift 2
"$@"
status=$?
rm -f "$TMPDIR/taken"
[ ! "$(ls -A "$TMPDIR")" ] || exit 98
exit "$status"
"""


def temporary_checks(room, folder):
    """Where temporary files cannot get longer than so many bytes, or their folder is full, the answer is the right one or none."""
    old, new, good = folder / "old.fund", folder / "new.fund", folder / "good.fund"
    for file, data in ((old, OLD), (new, NEW), (good, GOOD)):
        file.write_bytes(data)
    sheet_files = [folder / name for name in ("header.txt", "rates.sheet", "members.sheet")]
    for file, data in zip(sheet_files, (text(order=8).header(), floats(RATE), floats(*[MEMBER] * 4))):
        file.write_bytes(data)
    whole = {}
    for words, given in ((("price", good), b""), (("price",), GOOD), (("price", "--level", "0.9", good), b""), (("price", "--sheets", *sheet_files), b""),
                         (("compare", old, new), b""), (("compare", old, new, new, old), b"")):
        what = f"temporary: {' '.join(str(word) if not isinstance(word, Path) else word.name for word in words)}"
        right = whole[words] = room.run(*words, given=given)
        for restored, way in ((True, "ended by the signal"), (False, "told so")):
            found = [room.run(*words, given=given, preexec_fn=limited(most), restore_signals=restored) for most in (*range(0, 240, 20), 300, 1000)]
            none = [answer for answer in found if answer[0] == 2 and answer[1] == b"" and answer[2]]
            yield f"{what}: {way}", right[0] == 0 and all(answer == right or answer in none for answer in found)
            yield f"{what}: {way}: of both kinds", found[0] in none and found[-1] == right
            yield f"{what}: {way}: nothing left", room.is_clean()
    answer = room.run("compare", old, new, preexec_fn=limited(len(OLD)), restore_signals=False)
    yield "temporary: compare: a copy that is cut is not called unreadable", not_read(answer, "new file: a copy that could not be written to ")
    yield from small_folder_checks(room, whole, sheet_files)


def small_folder_checks(room, whole, sheet_files):
    """The same with a folder that is really full."""
    alone = ["unshare", "-m"] if os.geteuid() == 0 else ["unshare", "-rm"]
    environment = {**os.environ, "TMPDIR": str(room.temporary)}

    def run(size, taken, *words):
        done = subprocess.run([*alone, "sh", "-c", SMALL, "sh", str(size), str(taken), room.root / words[0], *words[1:]], stdin=subprocess.DEVNULL,
                              capture_output=True, env=environment, check=False)
        return done.returncode, done.stdout, done.stderr.decode()

    if not shutil.which("unshare") or run(16, 0, "price", "--help")[0]:
        yield "temporary: a folder of 16 KiB", None
        return
    sixty = EXAMPLES / "sixty-members.fund"
    whole = {words: answer for words, answer in whole.items() if len(words) > 1}
    whole["price", sixty] = room.run("price", sixty)
    for words, right in whole.items():
        what = f"temporary: {words[0]} {words[1] if words[1] == '--level' else words[-1].name}"
        found = [run(16, taken, *words) for taken in (16, 12, 8, 4, 0)] + [run(64, 0, *words)]
        yield f"{what}: a folder that is full", all(answer == right or not_read(answer, f"{words[0]}: ") for answer in found)
        yield f"{what}: a folder that is full: of both kinds", found[0] != right and found[-1] == right
    yield "temporary: a listing that does not fit", not_read(run(16, 0, "price", sixty), SAYS + "\nprice: the program listing gave no whole listing")
    yield "temporary: sheets that do not fit", not_read(run(16, 8, "price", "--sheets", *sheet_files), "members.sheet")


# Symbolic links

def link_checks(room, folder):
    """The scripts through links: absolute, relative, a chain, in folders with spaces, found on the path."""
    good, listing = EXAMPLES / "one-member.fund", pricing.listing(pricing.price(GOOD)).encode()
    pool = folder / "pool"
    pool.mkdir()
    (pool / "a.fund").write_bytes(GOOD)
    (folder / "rates.csv").write_text("40,0.1,0\n")
    scripts = {"price": ((good,), lambda out: out == listing), "compare": ((good, good), lambda out: out == compared(GOOD, GOOD)),
               "reprice": ((pool, pool), lambda out: table_of(out)[1:] == [expected_row("a.fund", GOOD, GOOD)]),
               "sheet_bytes": (("--columns", "3", folder / "rates.csv", "/dev/null"), lambda out: out == b"1 rows of 3 cells\n")}
    far = folder / "a folder" / "with 'one'"
    (far / "deep").mkdir(parents=True)
    (folder / "there").symlink_to(far / "deep")
    (folder / "with 'one'").mkdir()              # where a link to ../ would lead if its folder were taken by its name
    for name, (words, holds) in scripts.items():
        (far / f"{name} absolute").symlink_to(room.root / name)
        (folder / f"{name}-relative").symlink_to(Path("..") / room.root.relative_to(folder.parent) / name)
        (far / "deep" / f"{name} chain").symlink_to(Path("..") / f"{name} absolute")
        (folder / f"-{name}").symlink_to(Path("there") / f"{name} chain")
        for link, where in ((far / f"{name} absolute", folder), (folder / f"{name}-relative", folder), (Path(f"./{name}-relative"), folder),
                            (Path("there") / f"{name} chain", folder), (Path(f"{name} chain"), far / "deep"), (Path("/") / far / "deep" / f"{name} chain", "/"),
                            (folder / f"-{name}", "/")):
            command = [f"./{link}" if "/" not in str(link) else link, *words]
            done = subprocess.run(command, capture_output=True, cwd=where, check=False, env={**os.environ, "CDPATH": str(folder.parent)})
            yield f"links: {name}: {link}", done.returncode == 0 and holds(done.stdout) and done.stderr == b""
        done = subprocess.run([f"{name}-relative", *words], capture_output=True, check=False, env={**os.environ, "PATH": f"{folder}:{os.environ['PATH']}"})
        yield f"links: {name}: on the path", done.returncode == 0 and holds(done.stdout)
        if name in ("price", "compare"):
            done = subprocess.run(["sh", f"{name}-relative", *words], capture_output=True, check=False, cwd=folder)
            yield f"links: {name}: by sh", done.returncode == 0 and holds(done.stdout)
    same = [re.findall(r"(?s)# The folder of this script.*?\ndone\n", (ROOT / name).read_text()) for name in ("price", "compare", "scripts/build")]
    yield "links: the same lines in all scripts", len(same[0]) == 1 and same == same[:1] * 3
    program = room.root / "target" / "bin" / "listing"
    kept = program.rename(folder / "listing program")
    built = room.root / "crates" / "listing" / "out" / "listing"
    built.parent.mkdir(parents=True, exist_ok=True)
    (folder / "rt").write_text(f'#!/bin/sh\npwd -P\ncp "{kept}" "{built}"\n')
    (folder / "rt").chmod(0o755)
    (far / "build link").symlink_to(room.root / "scripts" / "build")
    environment = {**os.environ, "PATH": f"{folder}:{os.environ['PATH']}"}
    for link, where in ((far / "build link", "/"), (Path("./build link"), far)):
        program.unlink(missing_ok=True)
        done = subprocess.run([f"./{link}" if where == far else link, "listing"], capture_output=True, cwd=where, check=False, env=environment)
        yield f"links: build: {link}", done.returncode == 0 and program.exists() and b"building the listing program" in done.stderr
    program.unlink(missing_ok=True)
    yield "links: price builds", room.run(folder / "price-relative", good, path=folder)[:2] == (0, listing)
    kept.replace(program)


# scripts/build

PROVER = """#!/bin/sh
[ "$#$1" = 1run ] && [ "${{PWD##*/}}" = listing ] || exit 2
echo 'fn whole::least: proved'
for crate in {crates}; do
    echo "crate $crate: modules loaded=1 checked=1"
    echo "logic=proved functions=1"
done
{end}
"""


def crates_of(name):
    """The crates that a program is made of, each behind those that it names, and the program last."""
    lines = (line.split("#")[0].split(":") for line in (ROOT / "crates.txt").read_text().splitlines())
    named = {line[0].split()[0]: line[1].split() for line in lines if len(line) == 2}
    found = []

    def visit(crate):
        for other in named[crate]:
            if other in named and other not in found:
                visit(other)
        found.append(crate)

    visit(name)
    return found


def build_checks(room, folder):
    crates = crates_of("listing")
    program = room.root / "target" / "bin" / "listing"
    kept = program.rename(folder / "listing program")
    tools = folder / "tools"
    tools.mkdir()
    out = room.root / "crates" / "listing" / "out"
    out.mkdir(parents=True, exist_ok=True)
    built = out / "listing"

    def prover(end, proved=crates):
        built.unlink(missing_ok=True)
        (tools / "rt").write_text(PROVER.format(crates=" ".join(proved), end=end))
        (tools / "rt").chmod(0o755)

    good, listing = EXAMPLES / "one-member.fund", pricing.listing(pricing.price(GOOD)).encode()
    prover("exit 1")
    answer = room.run("price", good, path=tools)
    yield "build: failed: status, no listing", answer[:2] == (2, b"")
    yield "build: failed: what the prover said", f"fn whole::least: proved\ncrate {crates[0]}: modules loaded=1 checked=1\nlogic=proved functions=1\n" in answer[2]
    prover("exit 0")
    yield "build: no program: status", room.run("price", good, path=tools)[:2] == (2, b"")
    prover(f'cp "{kept}" "{built}"')
    answer = room.run("price", good, path=tools)
    yield "build: status and listing", answer[:2] == (0, listing)
    count = len(crates)
    lines = answer[2].splitlines()
    yield "build: a line for each crate", len(lines) == count + 1 and all(
        line.startswith(f"[{k:2} of {count}] {name} proved") for k, (line, name) in enumerate(zip(lines[1:], crates), 1))
    yield "build: how long is left", f"{count} crates, about 4 minutes left" in lines[0] and all(" left" in line for line in lines[1:-1])
    yield "build: what the prover says else is not shown", "whole::least" not in answer[2]
    program.unlink()
    prover(f'cp "{kept}" "{built}"', [])
    yield "build: unchanged crates are not shown", room.run("price", good, path=tools)[2].count("\n") == 1
    for name in crates[:-1]:
        (room.root / "crates" / name / "out" / "rlib").mkdir(parents=True)
    program.unlink()
    answer = room.run("price", good, path=tools)
    yield "build: proved before, all but the program", answer[2].startswith("building the listing program, with its proof: "
                                                                            f"{count} crates, about 20 seconds left (first: listing)\n")
    program.unlink()
    prover(f'cp "{kept}" "{built}"')
    answer = room.run("price", good, path=tools)
    yield "build: proved before, and changed since", answer[:2] == (0, listing) and answer[2].count("\n") == count + 1 and "3 minutes left" in answer[2]
    for name in crates[:-1]:
        shutil.rmtree(room.root / "crates" / name)
    program.unlink()
    shown = on_terminal([room.root / "scripts" / "build", "listing"], tools)
    yield "build: one line on a terminal", shown.count(b"\n") == 1 and shown.count(b"\r\x1b[K[") == count
    program.unlink(missing_ok=True)
    kept.rename(program)
    yield "build: nothing left", room.is_clean()


def on_terminal(command, tools):
    """What a command writes to a terminal."""
    ours, theirs = pty.openpty()
    environment = {**os.environ, "PATH": f"{tools}:{os.environ['PATH']}"}
    with subprocess.Popen(command, stdin=subprocess.DEVNULL, stdout=theirs, stderr=theirs, env=environment):
        os.close(theirs)
        found = b""
        try:
            while part := os.read(ours, 4096):
                found += part
        except OSError:
            pass                 # the other side is closed
    os.close(ours)
    return found


def checks():
    found = []
    with tempfile.TemporaryDirectory() as directory:
        folder = Path(directory).resolve()
        folder.chmod(0o755)
        room = Room(folder)
        add_programs(room)
        for part in (price_checks, damaged_checks, accepted_checks, unread_checks, sheet_checks, compare_checks, reprice_checks, document_checks, advice_checks,
                     faulty_checks, whole_checks, output_checks, temporary_checks, link_checks, build_checks):
            own = folder / part.__name__
            own.mkdir()
            found += part(room, own)
    return found


def main():
    missing = [program.name for program in PROGRAMS if not program.exists()]
    if missing:
        print(f"not built: {' '.join(missing)}; scripts/build NAME builds each", file=sys.stderr)
        return 2
    found = checks()
    skipped = [name for name, holds in found if holds is None]
    bad = [name for name, holds in found if not holds and holds is not None]
    for name in skipped:
        print(f"  skipped {name}: not possible on this machine")
    for name in bad:
        print(f"  FAILED {name}")
    print(f"{len(found) - len(bad) - len(skipped)} passed, {len(bad)} failed")
    return 1 if bad else 0


if __name__ == "__main__":
    sys.exit(main())
