"""The call with sheets in hosts with floating-point environments of their own.

    python3 tests/float_hosts.py [ARCHIVE]

Builds the library (rt), or takes an archive of it, and two hosts over it (cc), one of them
with -ffast-math, in which the processor takes subnormals as 0 and flushes to 0.  Then, by
float_host.c:

  - subnormals in each kind of cell are refused as 11 at their row in both hosts, and
    generated sheets are answered alike, as the independent calculation answers them;
  - no call raises another flag than that of inexact;
  - in each other rounding direction the helper of the header takes all 1,000,001 rates with
    their k, and no neighbour of every sixteenth; without it no rate is taken as another;
  - with every exception unmasked the helper does not trap, where the call itself does;
  - the helper puts the host's environment back, with its flags.
"""

import struct
import subprocess
import sys
from pathlib import Path

import generate_sheets
import library
import sheet_funds
import sheets

ROOT = Path(__file__).resolve().parent.parent
OUT = ROOT / "target" / "float_hosts"
RATES = 1000001
SAMPLE = 62501            # every sixteenth
FTZ_DAZ, UP, DOWN, ZERO = 0x8040, 0x4000, 0x2000, 0x6000
INEXACT = 0x20
DIRECTIONS = (("up", UP), ("down", DOWN), ("zero", ZERO))
SMALLEST, LARGEST = 1, (1 << 52) - 1
SUBNORMALS = [sign | size for size in (SMALLEST, 2, 1 << 51, LARGEST) for sign in (0, 1 << 63)]


def build(name, archive, options):
    host = OUT / name
    subprocess.run(["cc", "-std=c11", *options, "-Wall", "-Wextra", "-Wpedantic", "-I", ROOT / "include", "-o", host,
                    ROOT / "tests" / "float_host.c", archive, "-lm"], check=True)
    return host


def hosts(archive):
    OUT.mkdir(parents=True, exist_ok=True)
    return build("plain", archive, ["-O2", "-frounding-math"]), build("fast", archive, ["-O2", "-ffast-math"])


def run(host, environment, call, work, texts):
    """The status, the lines before the last, and of the last the control bits and those that the calls changed."""
    data = b"".join(struct.pack("<Q", len(part)) + part for case in texts for part in case)
    done = subprocess.run([host, environment, call, work], input=data, capture_output=True)
    lines = done.stdout.decode().split("\n")[:-1]
    if done.returncode:
        return done.returncode, lines, None, None
    control, changed = (int(word.split("=")[1], 16) for word in lines[-1].split())
    return 0, lines[:-1], control, changed


def one_rate():
    """A fund of one rate and one member."""
    header, _, members = sheets.sheets_of(library.ONE_RATE)
    return header, struct.pack("<3d", 0, 0.25, 0), members


def subnormal_cases():
    """Sheets with a subnormal in one cell, and the row that it stands in."""
    header, rates, members = one_rate()
    for pattern in SUBNORMALS:
        cell = struct.pack("<Q", pattern)
        for at in range(0, 24, 8):
            yield (header, rates[:at] + cell + rates[at + 8:], members), 1
        for at in range(0, 40, 8):
            yield (header, rates, members[:at] + cell + members[at + 8:]), 2


class Checks:
    def __init__(self):
        self.passed = self.failed = 0

    def expect(self, holds, text):
        self.passed += bool(holds)
        self.failed += not holds
        print(("ok: " if holds else "FAILED: ") + text)


def check_subnormals(checks, made):
    cases, rows = zip(*subnormal_cases())
    for host in made:
        _, lines, _, changed = run(host, "same", "direct", "cases", cases)
        refused = sum(line.split()[:2] == ["11", str(row)] for line, row in zip(lines, rows))
        checks.expect(refused == len(rows), f"{host.name}: {refused} of {len(rows)} sheets with a subnormal refused as 11 at its row")
        checks.expect(changed & ~INEXACT == 0, f"{host.name}: flags raised {changed:#x}, at most inexact")


def check_sheets(checks, made):
    cases = [case.sheets() for case in sheet_funds.cases() + generate_sheets.random_sheets(5, 300)]
    wanted = [sheets.price_sheets(*case) for case in cases]
    plain, fast = (run(host, "same", "direct", "cases", cases) for host in made)
    checks.expect(plain[2] & FTZ_DAZ == 0 and fast[2] & FTZ_DAZ == FTZ_DAZ, "subnormals are taken as 0 and results flushed in the host built with -ffast-math, and there alone")
    right = sum(line.split()[:2] == [str(answer.number), str(answer.place)] for line, answer in zip(plain[1], wanted))
    checks.expect(right == len(cases), f"{right} of {len(cases)} sheets answered as the calculation answers them")
    same = sum(one == other for one, other in zip(plain[1], fast[1]))
    checks.expect(same == len(cases) == len(fast[1]), f"{same} of {len(cases)} answered alike by both hosts, every figure and cell")
    checks.expect((plain[3] | fast[3]) & ~INEXACT == 0, f"flags raised {plain[3] | fast[3]:#x}, at most inexact")
    for host in made:
        for environment in ("up", "down", "zero", "traps"):
            status, lines, _, changed = run(host, environment, "default", "cases", cases)
            checks.expect(status == 0 and lines == plain[1] and changed == 0,
                          f"{host.name}, {environment}: by the helper all {len(cases)} alike, and the environment as before")
    status = run(made[0], "traps", "direct", "cases", cases)[0]
    checks.expect(status == -8, f"exceptions unmasked, without the helper: status {status}, a trap")


def counts(line):
    return {key: int(number) for key, number in (word.split("=") for word in line.split())}


def check_rates(checks, host):
    one = [one_rate()]
    every, some = ({"right": right, "refused": 0, "wrong": 0, "above": 0, "below": 0} for right in (RATES, SAMPLE))
    _, lines, _, _ = run(host, "same", "direct", "neighbours", one)
    checks.expect(counts(lines[0]) == some, f"to nearest: {lines[0]}")
    for name, bits in DIRECTIONS:
        for work, wanted in (("rates", every), ("neighbours", some)):
            _, lines, control, changed = run(host, name, "default", work, one)
            checks.expect(control & ZERO == bits and counts(lines[0]) == wanted and changed == 0,
                          f"{name}, by the helper: {lines[0]}, and the direction as before")
        _, lines, control, changed = run(host, name, "direct", "neighbours", one)
        checks.expect(control & ZERO == bits and counts(lines[0])["wrong"] == 0 and changed & ~INEXACT == 0, f"{name}, without it: {lines[0]}")


def main(arguments):
    if arguments:
        archive = Path(arguments[0])
    else:
        archive = ROOT / "target" / "staticlib" / "libmiguepo.a"
        subprocess.run([ROOT / "scripts" / "archive", "miguepo"], check=True, stdout=subprocess.DEVNULL)
    checks, made = Checks(), hosts(archive)
    check_subnormals(checks, made)
    check_sheets(checks, made)
    check_rates(checks, made[0])
    print(f"{checks.passed} passed, {checks.failed} failed")
    return 1 if checks.failed else 0


if __name__ == "__main__":
    if len(sys.argv) > 2:
        sys.exit(__doc__)
    sys.exit(main(sys.argv[1:]))
