"""Long generated inputs of `replay` and of `world`, the same at each run."""

import random

from models import replay as model
from inputs.words import encoded, stdin_of, with_words

SIZES = (0, 1, 2, 3, 5, model.GREATEST)
# The lists of `replay` of each size; those of `world` whose packets arrive; those for two runs.
LISTS, DELIVERED, TWO_RUNS = 170, 100, 200
# The events of a list of `replay`, and the steps of one of `world`, that are drawn.
EVENTS_DRAWN, STEPS_DRAWN = 200, 100
TICKETS = tuple("01234567")
COMMITMENTS = ("-", "01", "02" * 20)
CONTENTS = ("-", "61", "62", "63", "6162", "616263", "61626364")
# Greatest lengths and budgets of `replay`, and budgets of `world`. An encoding has 8 to 32 bytes.
LIMITS = ("", "3", "3 10", "20 17", "3 20", "20 27", "20 30", "20 48", "20 7")
BUDGETS = ("", "10", "", "30", "48")

# The events of `replay`, each as often as it stands here, and the keys of peers; 0 is the own one.
EVENTS = (
    "peers peers broadcast broadcast broadcast whole whole whole whole whole cut longer get subscribe subscribe cleanup"
).split()
KEYS = tuple("0123")
# A key that is never primary.
STRANGER = "4"

# The wide lists of each size and their events: their keys lie far apart, share their leading byte or follow each other, and
# their contents are many, so that the maps of peers and of digests grow.
WIDE_SIZES, WIDE_LISTS, WIDE_EVENTS_DRAWN = (1, 10, 100), 6, 3_000
FAR_KEYS = (*range(8), *((7 << 56) + it for it in range(16)), *(it << 56 for it in range(8, 24)), *(model.GREATEST - it for it in range(8)))
WIDE_KEYS = tuple(map(str, FAR_KEYS))
WIDE_CONTENTS = tuple(f"{it:04x}" for it in range(800))
WIDE_LIMITS = ("", "20 500")

# The steps of `world`, its nodes, and its hostile keys.
STEPS = (
    "peers peers broadcast broadcast broadcast deliver deliver deliver get get subscribe cleanup "
    "hostile hostile hostile hostile hostile hostile"
).split()
NODES = tuple("123")
HOSTILE = tuple("89")
# The node whose peer sets never hold a hostile key.
WITHOUT_HOSTILE = "3"
# The nodes that steps name: at times one that is not there, or an unknown hostile key.
NAMED = (*NODES * 6, "4")
SENDERS = (*HOSTILE * 7, *["7"] * 2)


def payload(rng, kind, contents=CONTENTS):
    whole = encoded(rng.choice(COMMITMENTS), rng.choice(contents))
    return model.spelled({"whole": whole, "cut": whole[:-1], "longer": whole + b"\0"}[kind])


def told(rng, keys, ways, contents=CONTENTS):
    """What a broadcast says. One of so many goes by the digest of another content."""
    several = rng.choice(([], rng.choices(keys, k=1), rng.choices(keys, k=3)))
    to = f"to:{','.join(several)}" if several else "all"
    other = f"as:{rng.choice(contents)}" if rng.randrange(ways) == 0 else ""
    return with_words(to, rng.choice(COMMITMENTS), rng.choice(contents), other)


def event(rng, keys=KEYS, contents=CONTENTS):
    match rng.choice(EVENTS):
        case "peers":
            return with_words("peers", *rng.choices(keys, k=rng.randrange(4)))
        case "broadcast":
            return with_words("broadcast", told(rng, keys, 2, contents))
        case "cleanup":
            return with_words("cleanup", *rng.choices(TICKETS, k=rng.randrange(3)))
        case "get" | "subscribe" as kind:
            return with_words(kind, rng.choice(TICKETS), rng.choice(contents))
        case kind:
            return with_words("payload", rng.choice(keys), payload(rng, kind, contents))


def peers(rng, node):
    """Keys of a node's peer set: all that it may hold, mostly but one."""
    keys = NODES if node == WITHOUT_HOSTILE else (*NODES, *HOSTILE)
    left_out = rng.randrange(8)
    return [key for place, key in enumerate(keys) if place != left_out]


def step(rng):
    kind, node = rng.choice(STEPS), rng.choice(NAMED)
    match kind:
        case "peers":
            return with_words(kind, node, *peers(rng, node))
        case "broadcast":
            return with_words(kind, node, told(rng, NAMED, 8))
        case "deliver":
            return with_words(kind, str(rng.randrange(20)))
        case "cleanup":
            return with_words(kind, node, *rng.choices(TICKETS, k=2))
        case "hostile":
            cut = "cut" if rng.randrange(8) == 0 else "whole"
            return with_words(kind, rng.choice(SENDERS), node, payload(rng, cut))
    return with_words(kind, node, rng.choice(TICKETS), rng.choice(CONTENTS))


def drawn(seed, count, line_of):
    rng = random.Random(seed)
    return [line_of(rng) for _ in range(count)]


def of_replay():
    """Names, arguments and inputs of `replay`.

    Each list ends with gets that show the cache, and every second one then with messages of a key
    that is not primary, which show the waiters. In one of four the same keys are primary from the
    start to the end. The limits take turns.
    """
    for size in SIZES:
        for seed in range(LISTS):
            lines = drawn(seed, EVENTS_DRAWN, event)
            if seed % 4 == 2:
                later = (line for line in lines if not line.startswith("peers"))
                lines = [with_words("peers", *KEYS), *later]
            lines += [f"get 9 {content}" for content in CONTENTS]
            if seed % 2 == 1:
                whole = (model.spelled(encoded("-", content)) for content in CONTENTS)
                lines += [f"payload {STRANGER} {data}" for data in whole]
            args = f"0 {size} {LIMITS[seed % len(LIMITS)]}".encode().split()
            yield f"list {seed} of size {size}", args, stdin_of(lines)


def wide_of_replay():
    """Names, arguments and inputs of `replay`: wide lists. Peer sets have all keys, and in the middle of every second list half of them."""
    for size in WIDE_SIZES:
        for seed in range(WIDE_LISTS):
            lines = drawn(seed, WIDE_EVENTS_DRAWN, lambda rng: event(rng, WIDE_KEYS, WIDE_CONTENTS))
            lines = [line for line in lines if not line.startswith("peers")]
            if seed % 2 == 1:
                middle = len(lines) // 2
                lines[middle:middle] = [with_words("peers", *WIDE_KEYS[seed % 3 :: 2]), with_words("peers", *WIDE_KEYS)]
            lines = [with_words("peers", *WIDE_KEYS), *lines, *(f"get 9 {content}" for content in WIDE_CONTENTS)]
            args = f"0 {size} {WIDE_LIMITS[seed % 4 // 2]}".encode().split()
            yield f"wide list {seed} of size {size}", args, stdin_of(lines)


def of_world():
    """Names, arguments and inputs of `world`. The sizes and the budgets take turns.

    In the first lists each of the first packets then arrives in turn, gets show the caches, and broadcasts the waiters.
    The others are for two runs: gets show the caches, and cleanups the waiters, which changes no list.
    """
    for seed in range(DELIVERED + TWO_RUNS):
        is_delivered = seed < DELIVERED
        lines = drawn(seed, STEPS_DRAWN, step)
        lines += [f"deliver {number}" for number in range(60 if is_delivered else 0)]
        for node in NODES:
            lines += [f"get {node} 9 {content}" for content in CONTENTS]
            if is_delivered:
                lines += [f"broadcast {node} to:{node} - {content}" for content in CONTENTS]
            else:
                lines += [f"cleanup {node} {ticket}" for ticket in TICKETS]
        args = f"{seed % 4} {','.join(NODES)} {','.join(HOSTILE)} {BUDGETS[seed % len(BUDGETS)]}".encode().split()
        yield f"list {seed}", args, stdin_of(lines)
