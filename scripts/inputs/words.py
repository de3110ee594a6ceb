"""How inputs are written."""

from models import replay


def encoded(*words):
    """The encoding of a commitment and a content."""
    return replay.Message(*(replay.byte_list(word.encode()) for word in words)).encoding


def with_words(*words):
    return " ".join(word for word in words if word)


def stdin_of(lines):
    return "".join(f"{line}\n" for line in lines).encode()
