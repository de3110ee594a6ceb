"""Draws docs/asks.svg: a message of relay A on its way to B and C, as a sequence. What A sends C does not come, so C asks B."""

REPORT, MESSAGE, LOST = "#2f6fb3", "#2a8f57", "#cf4457"
WIDTH, TOP_LINE, ROW = 740, 62, 36
# Each relay: the middle of its lane, its name, and what is said of it.
LANES = ((110, "A", "typed message 5"), (370, "B", "a peer of A and C"), (630, "C", "its link to A is stuck"))
# Each row: its arrows (from and to which lane, and what is sent), their colour, and whether they arrive.
ROWS = (
    (((1, 0, "1  report: has all up to 4, room"),), REPORT, True),
    (((2, 0, "2  report: has all up to 4, room"),), REPORT, True),
    (((0, 1, "3  message 5"),), MESSAGE, True),
    (((0, 2, "4  message 5: does not come"),), LOST, False),
    (((1, 0, "5  report: has all up to 5, room"), (1, 2, "5  report: has all up to 5, no room")), REPORT, True),
    (((2, 1, "6  report: has all up to 4, room"),), REPORT, True),
    (((1, 2, "7  message 5"),), MESSAGE, True),
    (((2, 1, "8  report: has all up to 5, room"),), REPORT, True),
)  # fmt: skip
# What stands beside a row: right of which lane, and its lines.
NOTES = {
    0: (1, ["a report with room asks for more:", "B and C ask A"]),
    5: (0, ["nothing came for 30 ms and two round trips:", "C asks B too"]),
    7: (0, ["from now on C asks B alone"]),
}
HEIGHT = TOP_LINE + ROW * len(ROWS) + 14


def arrow(y, start, end, colour, arrives):
    """An arrow from a lane to another. One that does not arrive ends in a cross before it."""
    sign = 1 if end > start else -1
    last = end - 8 * sign if arrives else end - 130 * sign
    dashes = "none" if arrives else "6 4"
    yield f'<path d="M{start} {y}H{last}" stroke="{colour}" stroke-width="2" stroke-dasharray="{dashes}"/>'
    if arrives:
        yield f'<path d="M{end} {y}l{-10 * sign} -5v10z" fill="{colour}"/>'
    else:
        yield f'<path d="M{last} {y - 6}l12 12m0 -12l-12 12" stroke="{colour}" stroke-width="2"/>'


def row(y, arrows, colour, arrives):
    for start, end, text in arrows:
        start, end = LANES[start][0], LANES[end][0]
        yield from arrow(y, start, end, colour, arrives)
        # The text of a long arrow stands beside its start, not across the lane in the middle.
        middle = (start + (end + start) / 2) / 2 if abs(end - start) > 300 else (start + end) / 2
        yield f'<text x="{middle:g}" y="{y - 6}" text-anchor="middle" fill="{colour}">{text}</text>'


def lines():
    yield f'<svg xmlns="http://www.w3.org/2000/svg" viewBox="0 0 {WIDTH} {HEIGHT}" font-family="system-ui,sans-serif" font-size="13" role="img">'
    yield "<title>Relays report what they have, are sent what they lack, and ask another relay for what does not come</title>"
    yield f'<rect width="{WIDTH}" height="{HEIGHT}" rx="6" fill="#fff"/>'
    for x, name, said in LANES:
        yield f'<path d="M{x} 44V{HEIGHT - 8}" stroke="#bbb"/>'
        yield f'<text x="{x}" y="22" text-anchor="middle" fill="#222" font-weight="bold">relay {name}</text>'
        yield f'<text x="{x}" y="38" text-anchor="middle" fill="#666" font-size="11">{said}</text>'
    for place, it in enumerate(ROWS):
        y = TOP_LINE + 14 + ROW * place
        yield from row(y, *it)
        lane, notes = NOTES.get(place, (0, []))
        x = (LANES[lane][0] + LANES[lane + 1][0]) / 2
        for line, said in enumerate(notes):
            yield f'<text x="{x:g}" y="{y - 6 + 14 * line}" text-anchor="middle" fill="#666" font-size="11" font-style="italic">{said}</text>'
    yield "</svg>"


def drawn():
    return "".join(f"{it}\n" for it in lines())
