"""Draws docs/trust.svg: what is proved, tested and trusted, by layer."""

PROVED, TESTED, TRUSTED, YOURS = "#2a8f57", "#2f6fb3", "#777", "#b58a2b"
WIDTH, HEIGHT = 740, 316
# Each box: left, top, width, height, colour, head, lines below it. `{..}` are counted by `drawn`.
BOXES = (
    (10, 10, 170, 54, TESTED, "broadcast-relay", ["TLS, files, waiting"]),
    (190, 10, 170, 54, TESTED, "broadcast-engine", ["async, mailbox, metrics"]),
    (370, 10, 110, 54, YOURS, "your program", ["in Rust"]),
    (490, 10, 110, 54, YOURS, "your program", ["in C"]),
    (610, 10, 120, 54, PROVED, "Rattle engine", ["threads: tested"]),
    (10, 74, 310, 62, TESTED, "broadcast-node: Cache, Node", ["keeps your messages, reports evictions"]),
    (330, 74, 150, 62, TRUSTED, "unsafe Rust", ["{unsafe} lines"]),
    (490, 74, 110, 62, TRUSTED, "broadcast_c.h", ["its rules"]),
    (10, 146, 590, 74, PROVED, "libbroadcast_c.a: {exports} functions",
     ["what is listed, cached, evicted, served; packets; SHA-256;", "what a relay lacks, sends next, and may send"]),
    (610, 74, 120, 146, PROVED, "broadcast_core", ["the cache,", "codec, worlds", "with a hostile", "network"]),
    (10, 230, 720, 38, TRUSTED, "definitions that contracts cite ({believed} lines for the library); prover and compiler; C library", []),
)  # fmt: skip


def box(x, y, width, height, colour, head, below):
    middle = f"{x + width / 2:g}"
    yield f'<rect x="{x}" y="{y}" width="{width}" height="{height}" rx="5" fill="{colour}"/>'
    yield f'<text x="{middle}" y="{y + (20 if below else height / 2 + 5):g}" text-anchor="middle" fill="#fff" font-weight="bold">{head}</text>'
    for place, line in enumerate(below):
        yield f'<text x="{middle}" y="{y + 38 + 16 * place}" text-anchor="middle" fill="#fff" font-size="11">{line}</text>'


def lines(counts):
    yield f'<svg xmlns="http://www.w3.org/2000/svg" viewBox="0 0 {WIDTH} {HEIGHT}" font-family="system-ui,sans-serif" font-size="13" role="img">'
    yield "<title>What is proved, tested and trusted</title>"
    yield f'<rect width="{WIDTH}" height="{HEIGHT}" rx="6" fill="#fff"/>'
    for x, y, width, height, colour, head, below in BOXES:
        yield from box(x, y, width, height, colour, head.format(**counts), [it.format(**counts) for it in below])
    for place, (colour, name) in enumerate(((PROVED, "proved"), (TESTED, "tested"), (TRUSTED, "trusted"))):
        x = 10 + 110 * place
        yield f'<rect x="{x}" y="290" width="16" height="16" rx="3" fill="{colour}"/><text x="{x + 22}" y="303" fill="#222">{name}</text>'
    yield "</svg>"


def drawn(**counts):
    """The picture, with the counts `unsafe`, `exports` and `believed`."""
    return "".join(f"{it}\n" for it in lines(counts))
