"""Inputs beyond what a program reads, keeps or writes at once, and beyond the length of any number."""

from inputs.words import encoded, stdin_of
from models import replay, world
from models.replay import spelled
from models.rows import row_of

# The bytes that a program reads or writes at once.
BUFFER = 64 * 1024
LINES, EVENTS, BROADCASTS, TICKETS, LISTS = 70_000, 10_000, 400, 200, 100
# The bytes of a content whose line is of 2 MiB.
LONG = 1024 * 1024
# A number of 30 digits, and one that begins as a number of 64 bits does.
NUMBERS = "1" + "0" * 29, f"{replay.GREATEST}{'0' * 10}"
ODD = "0" * (2 * BUFFER + 1)


def answers(at):
    """Events whose answers are written in several turns, among them broadcasts."""
    turns = ("broadcast", "all - 61"), ("get", "7 61"), ("get", "7 62")
    for turn in range(EVENTS):
        kind, rest = turns[turn % len(turns)]
        yield f"{kind}{at} {rest}"


def refused(at):
    """Lines that are none, for a number that is too long, an odd byte list or an unknown word."""
    for long in NUMBERS:
        yield f"peers{at} 1 {long}"
        yield f"cleanup{at} 1 2 {long}"
        yield f"subscribe{at} {long} 61"
        yield f"get{at} {long} 61"
        yield f"broadcast{at} to:{long} - 61"
        yield f"broadcast{at} to:1,{long} - 61"
    yield f"get{at} 7 {ODD}"
    yield f"broadcast{at} all {ODD} 61"
    yield f"broadcast{at} all - {ODD}"
    yield f"broadcast{at} all - 61 as:{ODD}"
    yield f"{ODD}{at} 1"


def inputs(at, send, senders):
    """Names and lines of the inputs: of events at a node, of what is sent to it, and of senders."""

    def sent(sender):
        return f"{send(sender)} {spelled(encoded('-', '61'))}"

    yield "a last line that is none", [*[f"get{at} 7 -"] * (LINES - 1), f"get{at}"]
    whole = spelled(encoded("-", "61" * LONG))
    yield "a line of 2 MiB", [f"peers{at} 1 9", f"{send('9')} {whole}", f"get{at} 7 {'61' * LONG}"]
    yield "many answers", [f"peers{at} 1 9", *answers(at)]
    yield "many broadcasts", [f"peers{at} 1", *(f"broadcast{at} all - {it:04x}" for it in range(BROADCASTS))]
    waiting = [f"subscribe{at} {ticket} 61" for ticket in range(TICKETS)]
    yield "many tickets", [*waiting, f"broadcast{at} all - 61"]
    yield "many lists", [f"peers{at} {' '.join(senders)}", *map(sent, senders)]
    for line in [*refused(at), f"{send('9')} {ODD}"]:
        yield f"{line[:40]} ..", [f"get{at} 7 61", line]


def of_replay():
    senders = [str(key) for key in range(1, LISTS + 1)]
    for name, lines in inputs("", lambda sender: f"payload {sender}", senders):
        yield name, [b"1", b"1"], stdin_of(lines)
    for long in NUMBERS:
        yield from long_arguments([b"1"] * 4, long)
        yield f"a payload under {long}", [b"1", b"1"], stdin_of([f"payload {long} 00"])


def of_world():
    hostile = [str(key) for key in range(9, 9 + LISTS)]
    keys = ",".join(hostile).encode()
    for name, lines in inputs(" 1", lambda sender: f"hostile {sender} 1", hostile):
        yield name, [b"1", b"1,2", keys], stdin_of(lines)
    nodes = [str(key) for key in range(1, LISTS + 1)]
    lines = [line for node in nodes for line in (f"peers {node} {node}", f"broadcast {node} all - 61")]
    yield "many nodes", [b"1", ",".join(nodes).encode(), b"-"], stdin_of(lines)
    for long in NUMBERS:
        yield from long_arguments([b"1", b"1,2", b"9", b"1"], long)
        yield f"packet {long}", [b"1", b"1", b"-"], stdin_of([f"deliver {long}"])


def long_arguments(args, long):
    """Runs in which each of the arguments in turn is too long."""
    for place in range(len(args)):
        given = [*args[:place], long.encode(), *args[place + 1 :]]
        yield f"argument {place + 1} is {long}", given, b""


PROGRAMS = {"replay": (replay, of_replay), "world": (world, of_world)}


def rows(program):
    """The runs of a program, which must end as those of its model."""
    model, inputs_of = PROGRAMS[program]
    return (row_of(model, *given) for given in inputs_of())


def long_outputs(program):
    """Those whose output is written in several parts, and whose lines are short."""
    if program not in PROGRAMS:
        return []
    return [row for row in rows(program) if len(row.stdout) > BUFFER > len(row.stdin) / 4]
