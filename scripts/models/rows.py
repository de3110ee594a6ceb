"""Runs that must end as those of a model."""

from harness.stored import Row, ending
from models.replay import Fault


def row_of(model, name, args, stdin):
    """The run of a program over this input, and what its model makes of it."""
    try:
        settings, given = model.parse(args, stdin)
    except Fault as fault:
        return Row(name, args, stdin, b"", *ending(*fault.args))
    lines = []
    for heading, part in model.parts(given):
        run = model.Run(*settings)
        for it in part:
            run.step(it)
        lines += [*heading, *run.output()]
    return Row(name, args, stdin, "".join(f"{line}\n" for line in lines).encode(), b"", 0)
