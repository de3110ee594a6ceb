#!/usr/bin/env python3
"""Generates files of events for `replay`, and of steps for `world`, from a seed.

A workload is a shape, and the scale multiplies its events.

    workloads.py                          lists the workloads
    workloads.py NAME [--scale S] [--seed N] [--out FILE]     writes a file
    workloads.py NAME --args              prints the arguments of the program
"""

import argparse
import hashlib
import random
import sys

ALL = {}


class Workload:
    def __init__(self, name, words, base, about, make, program, table):
        self.name, self.words, self.base, self.about = name, words, base, about
        self.make, self.program, self.table = make, program, table

    def write(self, scale, seed, out):
        """Writes the file. Returns the number of its lines."""
        key = hashlib.sha256(f"{self.name} {seed}".encode()).digest()
        chance = random.Random(int.from_bytes(key[:8], "big"))
        lines = 0
        held, size = [], 0
        for line in self.make(chance, max(1, int(self.base * scale))):
            held.append(line)
            size += len(line)
            lines += 1
            if size > 1 << 20:
                out.write(("\n".join(held) + "\n").encode())
                held, size = [], 0
        if held:
            out.write(("\n".join(held) + "\n").encode())
        return lines


def workload(name, words, base, about, program="replay", table="replay"):
    def keep(make):
        ALL[name] = Workload(name, words, base, about, make, program, table)
        return make

    return keep


def listed(data):
    return data.hex() if data else "-"


def encoded(commitment, content):
    return (
        len(commitment).to_bytes(4, "big") + commitment + len(content).to_bytes(4, "big") + content
    )


def peers(keys):
    return " ".join(["peers", *map(str, keys)])


# Gossip: each message starts at one peer and comes again from others, a little later and in any
# order; one in ten is a repeat by the same peer.
def gossip(chance, count, peer_count, payload_len, copies):
    yield peers(range(1, peer_count + 1))
    recent = []
    made = 0
    for at in range(count):
        kind = chance.random()
        if kind < 0.04 and recent:
            yield f"get {at} {recent[chance.randrange(len(recent))][1].hex()}"
            continue
        if kind < 0.10 and recent:
            text, _, senders = recent[chance.randrange(len(recent))]
            yield f"payload {senders[chance.randrange(len(senders))]} {text}"
            continue
        if kind < 0.10 + 0.90 / copies or not recent:
            content = chance.randbytes(max(8, payload_len - 40))
            text = encoded(chance.randbytes(32), content).hex()
            senders = [chance.randrange(1, peer_count + 1)]
            recent.append((text, content, senders))
            made += 1
            if len(recent) > 4 * peer_count:
                recent.pop(0)
            yield f"payload {senders[0]} {text}"
            continue
        text, _, senders = recent[chance.randrange(len(recent))]
        sender = chance.randrange(1, peer_count + 1)
        senders.append(sender)
        yield f"payload {sender} {text}"


def add_gossip():
    for peer_count in (8, 100):
        for size in (10, 256):
            for payload_len, label, base in ((100, "100B", 60_000), (10_000, "10k", 1_500)):

                def make(chance, count, p=peer_count, n=payload_len):
                    return gossip(chance, count, p, n, copies=4)

                workload(
                    f"gossip-p{peer_count}-s{size}-{label}",
                    ["1", str(size)],
                    base,
                    f"{peer_count} peers relay {payload_len} bytes, each to about 4 lists",
                )(make)


add_gossip()


# Budgets: messages of many lengths, each to about four lists, whose oldest digests are dropped by
# their bytes. One message in 40 is long: it leaves little of a list, or is itself above the budget.
@workload(
    "budget",
    ["1", "256", "65536", "2048"],
    60_000,
    "16 peers relay 20 to 120 bytes, at times 1 to 3 kB, with budgets of 2 kB",
)
def budget(chance, count):
    yield peers(range(1, 17))
    recent = []
    for _ in range(count):
        if recent and chance.random() < 0.75:
            text = recent[chance.randrange(len(recent))]
        else:
            is_long = chance.randrange(40) == 0
            length = chance.randrange(1_000, 3_000) if is_long else chance.randrange(12, 112)
            text = encoded(b"", chance.randbytes(length)).hex()
            recent.append(text)
            if len(recent) > 64:
                recent.pop(0)
        yield f"payload {chance.randrange(1, 17)} {text}"


# Deep lists: few peers, short payloads, and repeats at any depth of a list.
def deep(chance, count, peer_count, repeats):
    yield peers(range(1, peer_count + 1))
    sent = {peer: [] for peer in range(1, peer_count + 1)}
    for at in range(count):
        peer = chance.randrange(1, peer_count + 1)
        mine = sent[peer]
        if mine and chance.random() < repeats:
            content = mine[chance.randrange(len(mine))]
        else:
            content = at.to_bytes(4, "big") + chance.randbytes(4)
            mine.append(content)
        yield f"payload {peer} {encoded(b'', content).hex()}"


@workload("deep-s10k", ["1", "10000"], 20_000, "2 peers, lists of up to 10,000, half of it repeats")
def deep_10k(chance, count):
    return deep(chance, count, 2, 0.5)


@workload(
    "deep-s100k",
    ["1", "100000"],
    40_000,
    "1 peer, a list of up to 100,000, half of it repeats",
)
def deep_100k(chance, count):
    return deep(chance, count, 1, 0.5)


# Subscribes: the awaited set grows with the file; payloads serve a part of it.
@workload(
    "subscribes",
    ["1", "64"],
    60_000,
    "many waiters, about 3 a digest, some served; few cleanups",
)
def subscribes(chance, count):
    yield peers(range(1, 17))
    awaited = []
    for at in range(count):
        kind = chance.random()
        if kind < 0.70:
            if awaited and chance.random() < 0.66:
                content = awaited[chance.randrange(len(awaited))]
            else:
                content = chance.randbytes(24)
                awaited.append(content)
            yield f"subscribe {at} {content.hex()}"
        elif kind < 0.90 and awaited:
            place = chance.randrange(len(awaited))
            awaited[place], awaited[-1] = awaited[-1], awaited[place]
            content = awaited.pop()
            yield f"payload {chance.randrange(1, 17)} {encoded(b'', content).hex()}"
        elif kind < 0.9995:
            content = awaited[-1] if awaited and chance.random() < 0.5 else chance.randbytes(24)
            yield f"get {at} {content.hex()}"
        else:
            yield "cleanup " + " ".join(str(chance.randrange(at + 1)) for _ in range(200))


# Cleanups: about 3,000 awaited digests at each moment, and a cleanup each 50 events.
@workload(
    "cleanups",
    ["1", "64"],
    30_000,
    "a steady 3,000 awaited digests, a cleanup each 50 events",
)
def cleanups(chance, count):
    yield peers(range(1, 17))
    awaited, tickets = [], []
    for at in range(count):
        if at % 50 == 49:
            gone = []
            for _ in range(min(10, len(tickets))):
                place = chance.randrange(len(tickets))
                tickets[place], tickets[-1] = tickets[-1], tickets[place]
                gone.append(tickets.pop())
            yield "cleanup " + " ".join(map(str, gone)) if gone else "cleanup"
        elif len(awaited) < 3_000 or chance.random() < 0.5:
            content = chance.randbytes(24)
            awaited.append(content)
            tickets.append(at)
            del tickets[:-6_000]
            yield f"subscribe {at} {content.hex()}"
        else:
            place = chance.randrange(len(awaited))
            awaited[place], awaited[-1] = awaited[-1], awaited[place]
            yield f"payload {chance.randrange(1, 17)} {encoded(b'', awaited.pop()).hex()}"


# Churn: peer sets that change often, over lists that are full by then. With `masses` each 20th
# change drops a third of the peers at once.
def churn(chance, count, all_peers, in_set, between, masses):
    inside = list(range(1, in_set + 1))
    outside = list(range(in_set + 1, all_peers + 1))
    yield peers(inside)
    shared = []
    for at in range(count):
        if at % between == between - 1:
            at_once = masses and at // between % 20 == 19
            for _ in range(in_set // 3 if at_once else 1):
                i, o = chance.randrange(len(inside)), chance.randrange(len(outside))
                inside[i], outside[o] = outside[o], inside[i]
            yield peers(inside)
            continue
        if shared and chance.random() < 0.5:
            content = shared[chance.randrange(len(shared))]
        else:
            content = chance.randbytes(24)
            shared.append(content)
            if len(shared) > 256:
                shared.pop(0)
        peer = inside[chance.randrange(len(inside))]
        yield f"payload {peer} {encoded(b'', content).hex()}"


@workload(
    "churn",
    ["1", "32"],
    80_000,
    "100 of 160 peers, each 50 events one leaves, at times a third",
)
def churn_100(chance, count):
    return churn(chance, count, 160, 100, 50, True)


@workload(
    "churn-wide",
    ["1", "4"],
    10_000,
    "sets of 1,000 keys, one leaves and one comes each 10 events",
)
def churn_1000(chance, count):
    return churn(chance, count, 1_200, 1_000, 10, False)


# Broadcasts: the own key sends, to all or to named keys, with some digests handed in.
@workload(
    "broadcasts",
    ["1", "256"],
    40_000,
    "own sends of 32 + 200 bytes, a third to named keys, some as another",
)
def broadcasts(chance, count):
    yield peers(range(1, 33))
    sent = []
    for at in range(count):
        kind = chance.random()
        if kind < 0.1 and sent:
            content = sent[chance.randrange(max(0, len(sent) - 300), len(sent))]
        else:
            content = chance.randbytes(200)
            sent.append(content)
        if chance.random() < 0.67:
            to = "all"
        else:
            count_to = chance.randrange(1, 9)
            to = "to:" + ",".join(str(chance.randrange(1, 33)) for _ in range(count_to))
        line = f"broadcast {to} {chance.randbytes(32).hex()} {content.hex()}"
        if chance.random() < 0.1:
            line += f" as:{chance.randbytes(16).hex()}"
        yield line


# Hostile payloads: cut, too long, left over, random, and whole ones from keys outside the set.
@workload(
    "hostile",
    ["1", "10", "1024"],
    80_000,
    "malformed payloads of each kind, and senders outside the set",
)
def hostile(chance, count):
    yield peers(range(1, 9))
    for at in range(count):
        kind = chance.randrange(8)
        peer = chance.randrange(1, 9)
        whole = encoded(chance.randbytes(8), chance.randbytes(chance.randrange(1, 120)))
        if kind == 0:
            whole = whole[: chance.randrange(1, len(whole))]
        elif kind == 1:
            whole = (1025 + chance.randrange(1 << 30)).to_bytes(4, "big") + whole
        elif kind == 2:
            whole += chance.randbytes(chance.randrange(1, 20))
        elif kind == 3:
            whole = chance.randbytes(chance.randrange(1, 100))
        elif kind == 4:
            whole = chance.randbytes(4 * chance.randrange(1, 4))
        elif kind == 5:
            peer = chance.randrange(100, 1_000_000)
        yield f"payload {peer} {whole.hex()}"


# Requests answered from a full cache: what is copied and printed.
@workload(
    "reads",
    ["1", "256"],
    60_000,
    "gets and subscribes that are answered, of messages of 200 bytes",
)
def reads(chance, count):
    yield peers(range(1, 9))
    kept = []
    for at in range(count):
        if len(kept) < 1_000 or chance.random() < 0.02:
            content = chance.randbytes(200)
            kept.append(content)
            yield f"payload {len(kept) % 8 + 1} {encoded(b'', content).hex()}"
        else:
            content = kept[chance.randrange(max(0, len(kept) - 1_000), len(kept))]
            yield f"{chance.choice(('get', 'subscribe'))} {at} {content.hex()}"


# As many messages of 1 kB as a world delivers, straight to one cache.
@workload(
    "payloads-1k",
    ["1", "16"],
    20_000,
    "100 peers send messages of 1 kB, none twice",
    table="world",
)
def payloads(chance, count):
    yield peers(range(1, 101))
    for at in range(count):
        yield f"payload {at % 100 + 1} {encoded(b'', chance.randbytes(1_000)).hex()}"


# A world in which each broadcast is delivered to all other nodes, in any order.
@workload(
    "world-n100-1k",
    ["16", ",".join(map(str, range(1, 101))), "-"],
    20_000,
    "100 nodes, each broadcast of 1 kB delivered to the 99 others",
    program="world",
    table="world",
)
def world(chance, count):
    nodes = range(1, 101)
    for node in nodes:
        yield " ".join(["peers", str(node), *map(str, nodes)])
    for first in range(0, count, 99):
        packets = list(range(first, min(first + 99, count)))
        chance.shuffle(packets)
        yield f"broadcast {chance.choice(nodes)} all - {chance.randbytes(1_000).hex()}"
        for packet in packets:
            yield f"deliver {packet}"


def main():
    words = argparse.ArgumentParser(
        description=__doc__, formatter_class=argparse.RawTextHelpFormatter
    )
    words.add_argument("name", nargs="?", choices=sorted(ALL))
    words.add_argument("--scale", type=float, default=1)
    words.add_argument("--seed", type=int, default=1)
    words.add_argument("--out")
    words.add_argument("--args", action="store_true")
    given = words.parse_args()
    if not given.name:
        for it in ALL.values():
            words = " ".join(word if len(word) < 12 else "1,2,.." for word in it.words)
            print(f"{it.name:24} {it.program} {words:16} {it.base:7} events: {it.about}")
    elif given.args:
        print(" ".join(ALL[given.name].words))
    else:
        out = open(given.out, "wb") if given.out else sys.stdout.buffer
        with out:
            ALL[given.name].write(given.scale, given.seed, out)


if __name__ == "__main__":
    main()
