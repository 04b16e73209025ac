"""Writes docs/WRONG-PROGRAMS.md from the edits' own first lines: python3 docs/wrong_programs.py

tests/test_pages.py fails where the page is not what this writes.
"""

import textwrap
from pathlib import Path

ROOT = Path(__file__).resolve().parent.parent
PAGE = ROOT / "docs" / "WRONG-PROGRAMS.md"
HEAD = """# Wrong programs and definitions that are refused

Each entry is an edit of a source or of a definition: what holds in the program as it
is, and the edit that breaks it, which the prover must refuse. The gate tries those of
`must-fail` on every change: each guards a definition's sentence, a wrong program that
somebody may well write, or a promise of a public call, and nothing else in the gate
guards it. `tests/edits` tries those of `edits` on demand. An edit of `crates/fund/specs`
is a wrong definition, and a table of worked funds refuses it.

This page is written by docs/wrong_programs.py from the edits' first lines.
"""
TAIL = """## Ruled out without an edit

What a contract, a theorem or a table of worked funds refuses, and no edit tries:

- a part that is not the caller's own bytes, or that is read where start and end lie
  outside: the contract of `pricing::line`
- a quantile that takes the last x, or counts from the last: the rows of
  `tables/specs/Levels.levels`
- a last rate row that does not hold to 120: the rows of `fund/specs/Starred.some_ages`;
  exact values with another rate: `tables/proofs/ExactRows.every_exact_row`
- a triangle whose two neighbours are exchanged, or whose left one is taken from the row
  that is made: the contract of `next_row` in `transform`
- exact values whose weights take one frequency for both:
  `distance/specs/Transform.transform_close`
- an F that only rises, or ends at 10^12: the row of `fund/specs/Starred.wrong_turns` with
  f(6) = -1, the first row of `fund/specs/Distributions.distributions`
- a start that raises p to a power and rounds once: the contract of `repeated` in `totals`,
  the row of `fund/specs/SeveralLives.several_lives` with q = 55 and four lives
- a term, a load or a truncation figure that is rounded once for all lives of a line: the
  contracts of the steps, the rows of `fund/specs/SeveralLives.several_lives`
- 5 or 6 answered at the copy's place: the contract of `matching::match_points`
- a valuation that answers zeros for every fund, values the first life alone, or leaves the
  cells of a refused fund as they are: the contract of `valuation::value`
- a promise that is dropped from a public call, because nothing above relies on it:
  `crates/claims`, whose functions derive theirs from these contracts. The exports for C
  repeat the clauses of the libraries' calls; `claims` does not name them, their edits do
"""


def crates():
    """In the order of crates.txt."""
    lines = (line.split("#")[0].strip() for line in (ROOT / "crates.txt").read_text(encoding="utf-8").split("\n"))
    return [line.split(":")[0].split()[0] for line in lines if line]


def statement(path):
    """What holds, by the edit's first line."""
    first = path.read_text(encoding="utf-8").split("\n")[0]
    if not first.startswith("# "):
        raise SystemExit(f"{path.relative_to(ROOT)}: the first line must say what holds, behind `# `")
    return first[2:].strip()


def entries(crate):
    for kind in ("must-fail", "edits"):
        for path in sorted((ROOT / "crates" / crate / kind).glob("*.edit")):
            text = f"- {statement(path)}: `{crate}/{kind}/{path.stem}`"
            yield textwrap.fill(text, 88, subsequent_indent="  ", break_long_words=False, break_on_hyphens=False)


def page():
    parts = [HEAD]
    for crate in crates():
        found = list(entries(crate))
        if found:
            parts.append(f"## {crate}\n\n" + "\n".join(found) + "\n")
    return "\n".join([*parts, TAIL])


if __name__ == "__main__":
    PAGE.write_text(page(), encoding="utf-8")
