"""Writes the funds of the comparison, as files and some as sheets too: python3 bench/funds.py DIR

Rates are small, so that each fund is accepted. The files are the same on every run.
"""

import random
import sys
from pathlib import Path

sys.path.insert(0, str(Path(__file__).resolve().parent.parent / "tests"))
import pricing
import sheets


def fund(horizon, order, frequency, deductible, rates, members):
    """Members without a number of lives have one."""
    lines = ["rates=2030", "members=2030", f"horizon={horizon}", f"order={order}",
             f"frequency={frequency},{frequency}", f"deductible={deductible}", "worth=100000"]
    lines += [f"rate={age},{q},{i}" for age, (q, i) in sorted(rates.items())]
    lines += ["member=%d,%d,%d,%d,%d" % (*member, 1)[:5] for member in members]
    lines.append(f"end={len(members)}")
    return "".join(line + "\n" for line in lines)


def rates_by_age(rng, most_q, most_i):
    return {age: (rng.randint(most_q * 3 // 4, most_q), rng.randint(most_i * 3 // 4, most_i))
            for age in range(20, 66)}


def member(rng, group, amounts):
    return rng.randint(20, 65), group, rng.choice(amounts), rng.choice(amounts)


def places(d, e):
    """Where a member of group 1 has terms that do not vanish at these rates: n up to 6."""
    return {d * l + e * (n - l) for n in range(1, 7) for l in range(n + 1)
            if d * l + e * (n - l) <= 4095}


def dense():
    """400 members of group 1, order 8. Each is the one of twenty that adds most new places,
    so that D is not zero at 3,933 of 4,095 places."""
    rng = random.Random(1)
    members, covered = [], set()
    for _ in range(400):
        drawn = [member(rng, 1, range(1, 1001)) for _ in range(20)]
        members.append(max(drawn, key=lambda m: len(places(*m[2:]) - covered)))
        covered |= places(*members[-1][2:])
    return fund(4095, 8, 1000, 3500, rates_by_age(rng, 8000, 8000), members)


def sparse():
    """1,000 members of group 2 with 300 amounts: D stands on 300 places."""
    rng = random.Random(2)
    amounts = rng.sample(range(20, 3000), 300)
    members = [member(rng, 2, amounts) for _ in range(1000)]
    return fund(4095, 4, 800, 3500, rates_by_age(rng, 1500, 1000), members)


def small():
    """30 members of both groups, horizon 200."""
    rng = random.Random(3)
    members = [member(rng, rng.randint(1, 2), range(0, 60)) for _ in range(30)]
    return fund(200, 8, 1000, 60, rates_by_age(rng, 15000, 10000), members)


def reading():
    """1,000 members of group 2 and a horizon of 20: most of the time is reading and matching."""
    rng = random.Random(4)
    members = [member(rng, 2, range(1, 1001)) for _ in range(1000)]
    return fund(20, 4, 800, 10, rates_by_age(rng, 1500, 1000), members)


def lives_members():
    rng = random.Random(5)
    return rates_by_age(rng, 1500, 1000), [(*member(rng, 1, range(1, 41)), 100) for _ in range(10)]


def lives():
    """1,000 lives of group 1 on ten lines, order 12, horizon 300."""
    return fund(300, 12, 1000, 100, *lives_members())


def lives_written_out():
    """The same with a line for each life."""
    rates, members = lives_members()
    return fund(300, 12, 1000, 100, rates, [row[:4] for row in members for _ in range(row[4])])


def as_sheets(text):
    """The header text, the rate sheet and the member sheet of a file."""
    fund = pricing.read_fund(text.encode())
    header = text[:text.index("rate=")]
    members = [(member.age, member.group, member.d, member.e, member.lives) for member in fund.member_rows]
    return header.encode(), sheets.rate_sheet(fund.rate_rows), sheets.member_sheet(members)


def main(directory):
    directory.mkdir(parents=True, exist_ok=True)
    for make in (dense, sparse, small, reading, lives, lives_written_out):
        (directory / f"{make.__name__.replace('_', '-')}.fund").write_text(make())
    for make in (sparse, reading):
        folder = directory / f"{make.__name__}.sheets"
        folder.mkdir(exist_ok=True)
        for name, data in zip(("header", "rates", "members"), as_sheets(make())):
            (folder / name).write_bytes(data)


if __name__ == "__main__":
    main(Path(sys.argv[1]))
