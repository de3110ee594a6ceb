"""What `world SIZE NODES HOSTILE [BUDGET]` must print, computed from crates/world/README.md and
crates/replay/README.md alone.

As the model of `replay`, on which it stands, this is written apart from the program.
"""

from models import replay
from models.replay import Fault, Syntax, number

# The steps of a node that are an event of it, with the same words.
EVENTS = (b"peers", b"broadcast", b"subscribe", b"get", b"cleanup")


def keys(word):
    return [number(key) for key in word.split(b",")]


def parse(words, data):
    """The size, the nodes, the hostile keys and the budget, and the steps. Raises `Fault`."""
    if len(words) not in (3, 4):
        raise Fault("world-usage")
    size, nodes, hostile, *budget = words
    try:
        nodes, hostile = keys(nodes), [] if hostile == b"-" else keys(hostile)
        settings = number(size), nodes, hostile, *map(number, budget)
    except Syntax:
        raise Fault("world-usage") from None
    if len(set(nodes)) < len(nodes) or set(nodes) & set(hostile):
        raise Fault("shared-key")
    return settings, replay.read(step, data)


def step(line):
    """The node and its event, the number of a packet, or a hostile key, a node and bytes."""
    match line.split(b" "):
        case b"deliver", packet:
            return "deliver", number(packet)
        case b"hostile", key, node, data:
            return "hostile", number(key), number(node), replay.byte_list(data)
        case kind, node, *words if kind in EVENTS:
            return "at", number(node), replay.event(b" ".join([kind, *words]))
    raise Syntax


def parts(steps):
    """The lists of steps that are taken in a world of their own, with the lines before each."""
    clean = [given for given in steps if given[0] != "hostile"]
    return [(["with"], steps), (["without"], clean)]


class Run:
    """The nodes, each as a run of its own events, the packets, and the answers given so far."""

    def __init__(self, size, nodes, hostile, budget=replay.GREATEST):
        greatest = replay.GREATEST
        self.nodes = {key: replay.Run(key, size, greatest, budget) for key in sorted(nodes)}
        self.hostile = hostile
        # Each with its sender, its addressee and its bytes.
        self.packets = []
        self.answers = []

    def event_of(self, given):
        """The node and the event of the step, or `None` if it names what does not exist."""
        match given:
            case "deliver", number if number < len(self.packets):
                sender, to, data = self.packets[number]
                return to, ("payload", sender, data)
            case "hostile", sender, to, data if sender in self.hostile and to in self.nodes:
                return to, ("payload", sender, data)
            case "at", node, event if node in self.nodes:
                return node, event
        return None

    def step(self, given):
        found = self.event_of(given)
        if found is None:
            self.answers.append("nosuch")
            return
        node, event = found
        self.answers.append(self.nodes[node].answer(event))
        if event[0] == "broadcast":
            self.packets += self.packets_of(node, *event[1:3])

    def packets_of(self, sender, to, message):
        named = self.nodes if to == "all" else dict.fromkeys(map(int, to.split(",")))
        return [(sender, key, message.encoding) for key in named if key in self.nodes and key != sender]

    def output(self):
        return self.answers + [f"node {node} {line}" for node, run in self.nodes.items() for line in run.lists()]
