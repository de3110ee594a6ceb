"""What `replay OWN SIZE [MAX [BUDGET]]` must print, computed from crates/replay/README.md alone.

This is written apart from the program, in another language and with other structures: it finds what
is listed by what was taken, drops nothing, keeps no counts and no sums, and finds what is cached by
looking at the lists.
"""

import functools
import hashlib
from dataclasses import dataclass

GREATEST = 2**64 - 1


class Syntax(Exception):
    """A word or a line that is not of the stated form."""


class Fault(Exception):
    """The fault of `runs/faults.txt` with which nothing runs, and the number of its line."""


@dataclass(frozen=True)
class Message:
    commitment: bytes
    content: bytes

    @functools.cached_property
    def encoding(self):
        return b"".join(len(part).to_bytes(4, "big") + part for part in (self.commitment, self.content))


@functools.cache
def digest_of(content):
    return hashlib.sha256(content).digest()


# Words.


def number(word):
    if not word.isascii() or not word.isdigit() or (len(word) > 1 and word[:1] == b"0") or int(word) > GREATEST:
        raise Syntax
    return int(word)


def byte_list(word):
    if word == b"-":
        return b""
    if not word or len(word) % 2 or any(digit not in b"0123456789abcdef" for digit in word):
        raise Syntax
    return bytes.fromhex(word.decode())


def behind(mark, word):
    if not word.startswith(mark):
        raise Syntax
    return word.removeprefix(mark)


def recipients(word):
    return "all" if word == b"all" else ",".join(str(number(key)) for key in behind(b"to:", word).split(b","))


def spelled(data):
    return data.hex() if data else "-"


# Events: a tuple of the kind and what belongs to it.


def event(line):
    match line.split(b" "):
        case b"peers", *keys:
            return "peers", frozenset(map(number, keys))
        case b"cleanup", *tickets:
            return "cleanup", [number(it) for it in tickets]
        case b"broadcast", to, commitment, content, *other if len(other) < 2:
            message = Message(byte_list(commitment), byte_list(content))
            goes_by = byte_list(behind(b"as:", other[0])) if other else message.content
            return "broadcast", recipients(to), message, digest_of(goes_by)
        case b"payload", key, data:
            return "payload", number(key), byte_list(data)
        case (b"subscribe" | b"get") as kind, ticket, content:
            return kind.decode(), number(ticket), digest_of(byte_list(content))
    raise Syntax


def read(line_of, data):
    """What each line says. Raises `Fault` with the first that says nothing."""
    said = []
    for line in data.removesuffix(b"\n").split(b"\n") if data else ():
        try:
            said.append(line_of(line))
        except Syntax:
            raise Fault("syntax", len(said) + 1) from None
    return said


def parse(words, data):
    """The own key, the size, the greatest length and the budget, and the events. Raises `Fault`."""
    try:
        numbers = [number(word) for word in words]
    except Syntax:
        raise Fault("replay-usage") from None
    if len(numbers) not in (2, 3, 4):
        raise Fault("replay-usage")
    return [*numbers, GREATEST, GREATEST][:4], read(event, data)


@functools.cache
def decode(data, greatest):
    """A message, or the text of the first refusal."""
    parts = []
    for _ in range(2):
        length = int.from_bytes(data[:4], "big")
        if len(data) < 4:
            return "EndOfBuffer"
        if length > greatest:
            return f"InvalidLength {length}"
        if len(data) < 4 + length:
            return "EndOfBuffer"
        parts.append(data[4 : 4 + length])
        data = data[4 + length :]
    return f"ExtraData {len(data)}" if data else Message(*parts)


class History:
    """What was taken under a key since it became primary, but what was charged above the budget.

    The company of a digest is the digests taken since it was last taken, itself among them, each
    once, and charged as when it was last taken. A digest is listed where its company has fitted at
    every moment since it was last taken: at most `size` digests, and at most `budget` bytes.
    """

    def __init__(self, size, budget):
        self.size, self.budget = size, budget
        # Each a digest and its charge, oldest first.
        self.takings = []
        # The digests that are listed after these takings with their messages, the last taken first.
        self.listed = {}

    def fits(self, digest):
        """Whether its company fits."""
        charges = {}
        for taken, charge in reversed(self.takings):
            charges.setdefault(taken, charge)
            if taken == digest:
                break
        return len(charges) <= self.size and sum(charges.values()) <= self.budget

    def take(self, digest, message, charge):
        self.takings.append((digest, charge))
        # Those whose company has fitted at every moment before this one since they were last taken.
        before = {digest: message} | {at: it for at, it in self.listed.items() if at != digest}
        self.listed = {at: it for at, it in before.items() if self.fits(at)}


class Run:
    """The histories of the primary keys, waiters as (digest, ticket), oldest first, the answers given so far, and what
    was sent."""

    def __init__(self, own, size, greatest, budget=GREATEST):
        self.own, self.size, self.greatest, self.budget = own, size, greatest, budget
        self.histories, self.waiters, self.answers, self.sent = {}, [], [], []

    def cached(self, digest):
        lists = (history.listed for history in self.histories.values())
        return next((listed[digest] for listed in lists if digest in listed), None)

    def take(self, key, digest, message):
        """The outcome, and the tickets that are served."""
        served = [str(ticket) for at, ticket in self.waiters if at == digest]
        self.waiters = [waiter for waiter in self.waiters if waiter[0] != digest]
        return " ".join([self.outcome(key, digest, message), *served])

    def outcome(self, key, digest, message):
        if key not in self.histories:
            return "ineligible"
        charge, history = len(message.encoding), self.histories[key]
        if charge > self.budget:
            return "oversize"
        outcome = "duplicate" if digest in history.listed else "inserted"
        # A digest that is cached keeps the message that it came with.
        history.take(digest, self.cached(digest) or message, charge)
        return outcome

    def answer(self, given):
        match given:
            case "peers", keys:
                new = {key: History(self.size, self.budget) for key in keys}
                self.histories = {key: self.histories.get(key, new[key]) for key in keys}
                return "ok"
            case "broadcast", to, message, digest:
                self.sent.append(f"sent {to} {spelled(message.encoding)}")
                return self.take(self.own, digest, message)
            case "payload", key, data:
                message = decode(data, self.greatest)
                is_refused = isinstance(message, str)
                return f"invalid {message}" if is_refused else self.take(key, digest_of(message.content), message)
            case "get", _, digest:
                return self.shown("found", digest) or "none"
            case "subscribe", ticket, digest:
                shown = self.shown("answered", digest)
                self.waiters += [] if shown else [(digest, ticket)]
                return shown or "waiting"
            case "cleanup", gone:
                before = len(self.waiters)
                self.waiters = [waiter for waiter in self.waiters if waiter[1] not in gone]
                return f"removed {before - len(self.waiters)}"

    def shown(self, word, digest):
        """The word and the cached message, or none."""
        message = self.cached(digest)
        return message and f"{word} {spelled(message.commitment)} {spelled(message.content)}"

    def step(self, given):
        self.answers.append(self.answer(given))

    def lists(self):
        """A line for each list that is not empty."""
        for key, history in sorted(self.histories.items()):
            if history.listed:
                yield " ".join([f"list {key}", *(spelled(it.content) for it in history.listed.values())])

    def output(self):
        cached = {digest for history in self.histories.values() for digest in history.listed}
        counts = f"cached {len(cached)}", f"awaited {len({digest for digest, _ in self.waiters})}"
        return [*self.answers, *self.lists(), *counts, *self.sent]


def parts(events):
    """The lists of events whose runs are printed, each with the lines before it."""
    return [([], events)]
