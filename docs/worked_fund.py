"""Draws docs/worked-fund.svg from listings of examples/sixty-members.fund.

    python3 docs/worked_fund.py

It runs the listing program (built by `scripts/build listing`) once for each
deductible from 0 to the horizon and one.
"""

from diagram import HEIGHT, ROOT, UNIT, Diagram, draw, listing, with_header

FUND = ROOT / "examples" / "sixty-members.fund"
PICTURE = ROOT / "docs" / "worked-fund.svg"


def main():
    data = FUND.read_bytes()
    _, cells = listing(data)
    horizon = len(cells) - 1
    first = Diagram(0, "The year's total claims: probability of each total, and its bound", "total claim", horizon, -12, 0)
    first.bars([(x, f / UNIT) for x, f, bound, total, most in cells], "#7a9cc6", "probability f(x)", 0)
    first.line([(x, bound / UNIT) for x, f, bound, total, most in cells], "#c0392b", "bound on its distance from the exact one", 1)
    second = Diagram(HEIGHT, "Probability of a larger total, and its bound", "total claim", horizon, -12, 0)
    second.line([(x, (UNIT - total) / UNIT) for x, f, bound, total, most in cells], "#1f5f8b", "1 - F(x)", 0)
    second.line([(x, most / UNIT) for x, f, bound, total, most in cells], "#c0392b", "bound on its distance from the exact one", 1)
    premiums = []
    for deductible in range(horizon + 2):
        priced, _ = listing(with_header(data, b"deductible", deductible))
        premiums.append((deductible, int(priced["premium"]) / UNIT, int(priced["within"]) / UNIT, int(priced["gross"])))
    third = Diagram(2 * HEIGHT, "Stop-loss premium by deductible, and its bound", "deductible", horizon + 1, -12, 2)
    third.line([(m, p) for m, p, w, g in premiums], "#1f5f8b", "premium", 0)
    third.line([(m, w) for m, p, w, g in premiums], "#c0392b", "bound on its distance from the exact one", 1)
    draw(PICTURE, first, second, third)
    for m in (0, 30, 60, 90, 120, 180):
        print("deductible {}: premium {:.12f}, within {:.12f}, gross {}".format(*premiums[m]))
    for x in (124, 125, 142, 143):
        print("at most {}: {:.12f}, within {:.12f}".format(x, cells[x][3] / UNIT, cells[x][4] / UNIT))
    print("the bound exceeds the probability from", next(x for x, f, bound, total, most in cells if x > 100 and f < bound), "on")
    print("the bound of F exceeds 1 - F from", next(x for x, f, bound, total, most in cells if UNIT - total < most), "on")
    print("the bound exceeds the premium from", next(m for m, p, w, g in premiums if p < w), "on")


main()
