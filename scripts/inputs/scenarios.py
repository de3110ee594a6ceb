"""Scenarios for both engines, drawn from seeds, in the language of tests/README.md.

They stay within what both engines do and promise. Left out are:

    polls by hand, their turns, wakes, `applies`, `holds jobs for`    the async engine has no such calls
    `closes`, `drops`           a dropped async engine closes its mailbox, one in Rattle leaves it open
    the drop of a last mailbox  it ends the async engine alone
    the payloads of one peer    the async engine counts those of all peers that are not primary together
    what is on a list           no call of an engine in Rattle returns it; evictions show it, and gets
    refused allocations         the two cannot be refused at the same event
"""

import random

# The kinds of keys: near 0, above 2^56 with few first bytes, anywhere in 64 bits.
KEYS = (
    lambda draw: draw.randrange(1, 12),
    lambda draw: (draw.randrange(1, 4) << 56) + draw.randrange(40),
    lambda draw: (0x7F << 56) + draw.randrange(1 << 56),
    lambda draw: draw.randrange(1 << 64),
)
MAILBOXES, LISTS, BUDGETS = (1, 1, 2, 3, 10, 1_024), (0, 1, 2, 3, 3, 10), (0, 9, 30, 100, 400, 1 << 64)
# The share of the scenarios that have many contents and keys, how many these are, and for how many contents the nodes are asked
# in the end.
WIDE, MANY, MANY_KEYS, ASKED = 0.02, 300, 40, 40


def encoded(name):
    """The encoding of the message of a name."""
    plain = name.removesuffix("'")
    word, _, length = plain.partition(".")
    content = word.encode().ljust(int(length or len(word)), b".")
    parts = (content + name[len(plain) :].encode(), content)
    return b"".join(len(it).to_bytes(4, "big") + it for it in parts)


class Scenario:
    """A scenario that is being written."""

    def __init__(self, seed):
        self.draw = random.Random(seed)
        self.lines, self.futures, self.held = [f"## seed {seed}"], [], set()
        self.next_future = 0
        self.is_wide = self.draw.random() < WIDE
        kind = self.draw.choice(KEYS)
        number = MANY_KEYS if self.is_wide else self.draw.randrange(3, 14)
        self.keys = sorted({kind(self.draw) for _ in range(number)})
        self.draw.shuffle(self.keys)
        self.nodes = self.keys[: self.draw.choice((1, 1, 1, 2, 3))]
        number = MANY if self.is_wide else self.draw.choice((3, 5, 8, 20))
        self.names = [self.name(it) for it in range(number)]

    def name(self, number):
        """The name of a content: short, or of a length near a budget."""
        base = f"m{number}"
        return f"{base}.{self.draw.choice((5, 11, 30, 46, 47, 200))}" if self.draw.random() < 0.2 else base

    def message(self):
        """A message, of which some have a commitment of their own."""
        name = self.draw.choice(self.names)
        return f"{name}'" if self.draw.random() < 0.05 else name

    def some_keys(self):
        return self.draw.sample(self.keys, self.draw.randrange(len(self.keys) + 1))

    def say(self, *sentences):
        self.lines.append(" / ".join(map(str, sentences)))

    def begin(self):
        for key in self.nodes:
            lists = self.draw.choice((10, 100, MANY)) if self.is_wide else self.draw.choice(LISTS)
            budget = 1 << 64 if self.is_wide else self.draw.choice(BUDGETS)
            limit = "" if budget == 1 << 64 else f" bytes {budget}"
            self.say(f"node {key} mailbox {self.draw.choice(MAILBOXES)} lists {lists}{limit}")
        self.say(" ".join(["peers", *map(str, self.keys if self.is_wide else self.some_keys())]))

    def malformed(self):
        """An encoding with bytes that are cut off, added or changed, or any bytes."""
        whole = bytearray(encoded(self.message()))
        match self.draw.randrange(4):
            case 0:
                return whole[: self.draw.randrange(len(whole))]
            case 1:
                return whole + self.draw.randbytes(self.draw.randrange(1, 5))
            case 2:
                whole[self.draw.randrange(8)] ^= 1 << self.draw.randrange(8)
                return whole
        return self.draw.randbytes(self.draw.randrange(12))

    def asks(self, node):
        self.say(f"{node} {self.draw.choice(('subscribes', 'subscribes', 'gets'))} {self.message()} as {self.next_future}")
        self.futures.append(self.next_future)
        self.next_future += 1

    def subscribes_often(self, node):
        last = self.next_future + self.draw.randrange(1, 40)
        self.say(f"{node} subscribes to digests {self.next_future} to {last}")
        self.futures += range(self.next_future, last + 1)
        self.next_future = last + 1

    def broadcasts(self, node):
        other = f" as {self.message()}" if self.draw.random() < 0.05 else ""
        to = self.some_keys() or ["nobody"]
        some = f" to {' '.join(map(str, to))}" if self.draw.random() < 0.4 else ""
        self.say(f"{node} broadcasts {self.message()}{other}{some}")

    def receives(self, node):
        payload = f"bytes {self.malformed().hex()}" if self.draw.random() < 0.1 else self.message()
        if not payload.endswith(" "):
            self.say(f"{node} receives {payload} from {self.draw.choice(self.keys)}")

    def drops(self, _):
        if self.futures:
            first = self.draw.randrange(len(self.futures))
            last = min(first + self.draw.choice((0, 0, 0, 1, 20)), len(self.futures) - 1)
            for it in self.futures[first : last + 1]:
                self.say(f"drop {it}")
            del self.futures[first : last + 1]

    def tracks(self, node):
        self.say(" ".join([str(node), "tracks", *map(str, self.some_keys())]))

    def gates(self, node):
        self.held ^= {node}
        self.say(f"{node} {'holds' if node in self.held else 'releases'} jobs")

    def ends(self, node):
        if self.draw.random() < 0.4:
            self.say(f"{node} {self.draw.choice(('stops', 'ends peers', 'network fails'))}")

    def hears(self, node):
        self.say(f"{node} {self.draw.choice(('subscribes', 'gets'))} {self.message()}")

    def loses(self, _):
        self.say(f"lose {self.draw.randrange(4)}")

    def runs(self, _):
        self.say("run", *(it for node in self.nodes for it in (f"{node} sends", f"{node} counts")))
        looked = self.draw.sample(self.futures, min(len(self.futures), 4))
        if looked:
            self.say(*looked)

    def step(self):
        acts = {
            self.asks: 6, self.broadcasts: 4, self.receives: 8, self.runs: 4, self.drops: 2, self.tracks: 1.5,
            self.hears: 1, self.gates: 0.7, self.ends: 0.7, self.loses: 0.4, self.subscribes_often: 0.3,
        }  # fmt: skip
        act = self.draw.choices(list(acts), list(acts.values()))[0]
        act(self.draw.choice(self.nodes))

    def fill(self):
        """Gives each node many messages, of which each is sent by a few peers."""
        for name in self.names:
            for peer in self.draw.sample(self.keys, self.draw.randrange(1, 4)):
                self.say(f"{self.draw.choice(self.nodes)} receives {name} from {peer}")
        self.runs(None)

    def text(self):
        self.begin()
        if self.is_wide:
            self.fill()
        for _ in range(self.draw.choice((10, 25, 60))):
            self.step()
        for node in self.held:
            self.say(f"{node} releases jobs")
        self.runs(None)
        if self.futures:
            self.say(*self.futures)
        for node in self.nodes:
            asked = self.draw.sample(self.names, min(len(self.names), ASKED))
            self.say(" ".join([str(node), "has", *asked]), f"{node} counts")
        return "\n".join(self.lines) + "\n"


def text(seeds):
    """The scenarios of these seeds."""
    return "\n".join(Scenario(seed).text() for seed in seeds)
