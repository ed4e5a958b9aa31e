"""Why a member isn't opened, and why an input is refused; then nothing has changed."""
from __future__ import annotations

CAUSES = ("", "too large", "token", "unexpected", "unknown", "twice", "limit", "kind", "arity", "direction", "header", "initial", "cycle", "too many", "joins")
STRAYS = ("short", "form", "group", "stamp", "view", "sender", "dest", "plan", "chain", "body")


class Unfit(Exception):
    """What all of these are."""


class Refused(Unfit):
    """The layer file is refused: its first fault, in a word (`unknown`), where it is (line and column; of a `cycle` its place in the stack, of
    `too many` how many tasks), and as `stackc check` says it (`file: unknown 2:25`)."""

    def __init__(self, cause: int, a: int, b: int, sentence: str):
        super().__init__(sentence)
        self.cause, self.sentence = CAUSES[cause], sentence
        self.line, self.column = (a, b) if b else (None, None)
        self.number = a if self.cause in ("cycle", "too many") else None


class NoMember(Unfit, ValueError):
    """A group has 1 to 32 members, and this one is none of them."""


class TooManyRows(Unfit):
    """A member of this group might keep over 8,192 rows with messages."""


class Closed(Unfit):
    """The member is closed."""


class Gone(Unfit):
    """The member is in no view any more."""


class TooBig(Unfit, ValueError):
    """The body has over 8,192 bytes."""


class Stray(Unfit):
    """A datagram is no packet for this member, for a cause such as `view`: it was sent in another one."""

    def __init__(self, cause: str):
        super().__init__(cause)
        self.cause = cause


def of_step(status: int) -> Unfit:
    """Why a step was refused, by its status."""
    if status >= 32:
        return Stray(STRAYS[status - 32])
    return {16: Closed, 17: Gone, 18: TooBig}[status]()
