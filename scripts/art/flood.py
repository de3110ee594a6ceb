"""Draws docs/flood.svg: a message of Alice, then a flood by Mallory, over a shared cache of 20 messages, which drops the oldest,
and over a list of 10 messages for each peer. Each row of messages moves one place to the right at each message; a clip shows the places."""

SHARED, LISTED, FLOOD = 20, 10, 24
STEP, LEFT, SECONDS = 30, 120, 0.4
WIDTH, HEIGHT = 740, 214
TOTAL = SECONDS * (FLOOD + 8)
GREEN, RED = "#2a8f57", "#cf4457"
ALICES, MALLORYS = [("hello", GREEN)], [(f"m{it}", RED) for it in range(1, FLOOD + 1)]
TITLE = "Under a flood, a shared cache loses Alice's message; with a list for each peer it stays"
REPEATS = f'calcMode="discrete" dur="{TOTAL:g}s" repeatCount="indefinite"'


def box(place, text, colour):
    x = place * STEP
    return (
        f'<rect x="{x}" y="0" width="{STEP - 3}" height="22" rx="3" fill="{colour}"/>'
        f'<text class="w" x="{x + (STEP - 3) / 2:g}" y="14">{text}</text>'
    )


def places(y, numbers):
    return "".join(
        f'<rect class="e" x="{LEFT + it * STEP}" y="{y}" width="{STEP - 3}" height="22" rx="3"/>' for it in numbers
    )


def row(y, size, messages, label, starts_empty):
    """Yields a row of `size` places through which the messages move, the newest at the left."""
    count = len(messages)
    shifts = [LEFT - count * STEP] * starts_empty + [LEFT - (count - 1 - it) * STEP for it in range(count)]
    values = ";".join(f"{it} {y}" for it in shifts)
    times = ";".join(f"{it * SECONDS / TOTAL:.3f}" for it in range(len(shifts)))
    yield f'<text x="10" y="{y + 15}">{label}</text>{places(y, range(size))}'
    yield f'<clipPath id="c{y}"><rect x="{LEFT}" y="{y - 2}" width="{size * STEP}" height="26"/></clipPath>'
    yield f'<g clip-path="url(#c{y})"><g transform="translate({LEFT} {y})">'
    yield "".join(box(at, *it) for at, it in enumerate(reversed(messages)))
    yield f'<animateTransform attributeName="transform" type="translate" {REPEATS} values="{values}" keyTimes="{times}"/></g></g>'


def shown(y, text, is_first, at):
    """A text that is shown up to a moment, or from it on. A renderer without animation shows the second."""
    values, times = ("1;0", f"0;{at:.3f}") if is_first else ("0;1", f"0;{at:.3f}")
    change = f'<animate attributeName="opacity" {REPEATS} values="{values}" keyTimes="{times}"/>'
    return f'<text x="10" y="{y}" opacity="{int(not is_first)}">{text}{change}</text>'


def lines():
    lost = SHARED * SECONDS / TOTAL
    yield f'<svg xmlns="http://www.w3.org/2000/svg" viewBox="0 0 {WIDTH} {HEIGHT}" font-family="ui-monospace,Menlo,Consolas,monospace" font-size="11" role="img">'
    yield f"<title>{TITLE}</title>"
    yield f'<rect width="{WIDTH}" height="{HEIGHT}" rx="6" fill="#fff"/>'
    yield "<style>text{fill:#222}.h{font-size:13px;font-weight:bold}.w{fill:#fff;text-anchor:middle;font-size:8px}.e{fill:none;stroke:#ccc}</style>"
    yield f'<text x="{WIDTH - 10}" y="26" text-anchor="end" fill="#666">newest message on the left</text>'
    yield '<text class="h" x="10" y="26">One cache for all peers, 20 messages (an LRU)</text>'
    yield from row(36, SHARED, ALICES + MALLORYS, "all peers", False)
    yield shown(78, 'get(digest of "hello"): found', True, lost)
    none = f'<tspan font-weight="bold" fill="{RED}">none</tspan>'
    yield shown(78, f'get(digest of "hello"): {none}. Mallory\'s messages evicted it.', False, lost)
    yield '<text class="h" x="10" y="114">Walghysek, 10 messages for each peer</text>'
    yield f'<text x="10" y="139">Alice</text><g transform="translate({LEFT} 124)">{box(0, *ALICES[0])}</g>{places(124, range(1, LISTED))}'
    yield from row(154, LISTED, MALLORYS, "Mallory", True)
    found = f'<tspan font-weight="bold" fill="{GREEN}">found</tspan>'
    yield f'<text x="10" y="200">get(digest of "hello"): {found}, however much Mallory sends. She evicts only messages of her own.</text>'
    yield "</svg>"


def drawn():
    return "".join(f"{it}\n" for it in lines())
