"""Generated files of events and of steps, most of which have lines that are none, the same at each run."""

import random

from inputs.words import encoded, with_words
from models import replay as model
from models import world
from models.rows import row_of

# The files of each program, and the lines of each.
FILES, LINES = 1_000, 50
# In one file of so many each line is one, so that what it says is compared too.
WHOLE = 50
# Numbers at the ends of their range, and words that are no number.
NUMBERS = ("0", "1", "2", "3", "9", "10", str(2**63), str(model.GREATEST - 1), str(model.GREATEST))
NO_NUMBERS = ("", "00", "01", "+1", "-1", "1.0", "1e3", "0x1", "a", "1a", "٣", str(2**64), f"{2**64}0", "1" * 40)
# The bytes of a list, also where a list is read and written in pieces.
LENGTHS = (0, 1, 2, 3, 7, 8, 15, 16, 17, 31, 32, 33, 63, 64, 65, 100)
NO_BYTES = ("", "0", "000", "--", "-0", "0-", "AB", "aB", "0x00", "g0", "0g", "/0", ":0", "`0", "00 00", "6é")
NO_RECIPIENTS = (
    *("", "ALL", "al", "alll", "all,1", "to", "to:", "to:,", "to:1,", "to:,1", "to:1,,2", "to:01", "To:1", "to:all"),
    *("to:1;2", "1"),
)
NO_NAMES = ("as:", "as", "AS:61", "as:6", "as:g0", "as:-0", "61", "as:61as:61", "to:1")
UNKNOWN = ("", "peer", "peerss", "Peers", "payloads", "hostil", "delivers", "gets", "put", "#", "peers\t1", "get\r")
# What may stand in a line in place of a byte, or beside it.
BYTES = b" \t\r\0-,:+0189afgAFG/`\x7f\x80\xc3\xff"


def number(rng, is_right=True):
    return rng.choice(NUMBERS if is_right else NO_NUMBERS)


def byte_list(rng, is_right=True):
    return model.spelled(rng.randbytes(rng.choice(LENGTHS))) if is_right else rng.choice(NO_BYTES)


def content(rng, is_right=True):
    """A byte list that comes again in other lines."""
    if is_right and rng.random() < 0.8:
        return rng.choice(("-", "61", "62", "00112233445566778899aabbccddeeff01"))
    return byte_list(rng, is_right)


def recipients(rng, is_right=True):
    keys = [number(rng) for _ in range(rng.randrange(4))]
    right = f"to:{','.join(keys)}" if keys else "all"
    return right if is_right else rng.choice(NO_RECIPIENTS)


def name(rng, is_right=True):
    return f"as:{content(rng)}" if is_right else rng.choice(NO_NAMES)


def payload(rng, is_right=True):
    """A message, or any bytes."""
    if not is_right or rng.random() < 0.3:
        return byte_list(rng, is_right)
    return model.spelled(encoded(content(rng), content(rng)))


def forms(rng, at, send):
    """The first word of a line, and what makes each word behind it."""
    node = [number] * at
    several = [number] * rng.randrange(5)
    return rng.choice((
        ("peers", [*node, *several]),
        ("cleanup", [*node, *several]),
        ("broadcast", [*node, recipients, content, content]),
        ("broadcast", [*node, recipients, content, content, name]),
        (send, [number, *node, payload]),
        ("subscribe", [*node, number, content]),
        ("get", [*node, number, content]),
        *([("deliver", [number])] if at else []),
    ))  # fmt: skip


def right(rng, at, send):
    word, rest = forms(rng, at, send)
    return with_words(word, *(make(rng) for make in rest)).encode()


def changed_word(rng, at, send):
    """A line with a word that may be wrong, is gone, comes twice or stands elsewhere."""
    word, rest = forms(rng, at, send)
    words = [word, *(make(rng) for make in rest)]
    place = rng.randrange(len(words))
    match rng.randrange(6):
        case 0:
            words[place] = rest[place - 1](rng, False) if place else rng.choice(UNKNOWN)
        case 1:
            del words[place]
        case 2:
            words.insert(place, words[place])
        case 3:
            words.append(rng.choice((number, byte_list, name))(rng))
        case 4:
            rng.shuffle(words)
        case 5:
            words[place] = words[place].upper()
    return " ".join(words).encode()


def changed_byte(rng, at, send):
    """A line with a byte more, less or in place of another."""
    line = bytearray(right(rng, at, send))
    place = rng.randrange(len(line) + 1)
    end = place + rng.randrange(2)
    line[place:end] = bytes([rng.choice(BYTES)]) if rng.randrange(4) else b""
    return bytes(line)


def inputs(seed, at, send):
    """The names and the inputs of the files."""
    for file in range(FILES):
        rng = random.Random(f"{seed} {file}")
        lines = [right(rng, at, send) for _ in range(LINES)]
        if file % WHOLE:
            # The first of several that may be none.
            for place in rng.sample(range(LINES), 1 + file % 3):
                lines[place] = rng.choice((changed_word, changed_byte))(rng, at, send)
        end = b"" if file % 5 == 0 else b"\n"
        yield f"lines {file}", b"\n".join(lines) + end


def of_replay():
    for name_of, stdin in inputs("replay", 0, "payload"):
        yield name_of, [b"1", b"2", b"64", b"200"], stdin


def of_world():
    for name_of, stdin in inputs("world", 1, "hostile"):
        yield name_of, [b"2", b"0,1,2,3", b"9,10", b"200"], stdin


PROGRAMS = {"replay": (model, of_replay), "world": (world, of_world)}


def rows(program):
    """The runs of a program, which must end as those of its model."""
    of, inputs_of = PROGRAMS[program]
    return [row_of(of, *given) for given in inputs_of()]
