"""Draws docs/gerber.svg from listings of examples/gerber.fund, and prints the tables of docs/GERBER.md.

    python3 docs/gerber.py

It runs the listing program (built by `scripts/build listing`) once for each order. The exact values, and the
truncation figures of the orders that are refused, are those of the independent calculation in tests/.
"""

import sys

from diagram import HEIGHT, ROOT, UNIT, Diagram, draw, listing, with_header

sys.path.append(str(ROOT / "tests"))
import gerber_portfolio  # noqa: E402

FUND = ROOT / "examples" / "gerber.fund"
PICTURE = ROOT / "docs" / "gerber.svg"
ORDERS = range(1, 13)
COLOURS = {3: "#e08e0b", 4: "#8e44ad", 6: "#27884f", 12: "#c0392b"}       # of the orders drawn beside the probabilities


def main():
    data = FUND.read_bytes()
    listings = {order: listing(with_header(data, b"order", order)) for order in ORDERS}
    accepted = {order: found for order, found in listings.items() if "refused" not in found[0]}
    exact = gerber_portfolio.exact_values(data)
    distance = {order: max(abs(cell[1] - UNIT * value) for cell, value in zip(cells, exact)) for order, (_, cells) in accepted.items()}
    cut = {order: gerber_portfolio.truncation(data, order) for order in ORDERS}

    _, cells = accepted[12]
    first = Diagram(0, "Gerber's 31 policies: probability of each total, and its bound by order", "total claim", len(cells) - 1, -12, 2, range(0, 98, 10))
    first.bars([(x, f / UNIT) for x, f, *_ in cells], "#7a9cc6", "probability f(x)", 0, 4)
    for place, (order, colour) in enumerate(COLOURS.items(), 1):
        first.line([(cell[0], cell[2] / UNIT) for cell in accepted[order][1]], colour, f"bound with order={order}", place)
    second = Diagram(HEIGHT, "What a higher order buys", "order", 12, -14, 2, ORDERS)
    second.line([(order, figure / UNIT) for order, figure in cut.items()], "#555555", "truncation figure", 0)
    second.line([(1, 0.0001), (12, 0.0001)], "#999999", "its limit: refused above (8)", 1)
    second.line([(order, max(cell[2] for cell in cells) / UNIT) for order, (_, cells) in accepted.items()], "#c0392b", "largest bound of a probability", 2)
    second.line([(order, float(most) / UNIT) for order, most in distance.items()], "#1f5f8b", "largest distance from an exact one", 3)
    draw(PICTURE, first, second)

    print(gerber_portfolio.cell_table(exact, cells))
    print()
    print(gerber_portfolio.order_table({order: figures for order, (figures, _) in listings.items()},
                                       {order: cells for order, (_, cells) in accepted.items()}, cut, distance))


main()
