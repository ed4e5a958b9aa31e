"""What comes out of a step, in order."""
from __future__ import annotations

from dataclasses import dataclass


def members_of(mask: int) -> list[int]:
    """The members whose bits a mask has, the lowest first."""
    return [bit for bit in range(32) if mask >> bit & 1]


@dataclass(slots=True)
class Cast:
    """A cast of the member of this rank is to be delivered."""

    peer: int
    body: bytes


@dataclass(slots=True)
class Send:
    """A send of the member of this rank is to be delivered."""

    peer: int
    body: bytes


@dataclass(slots=True)
class Block:
    """The stack asks for silence before a view."""

    number: int


@dataclass(slots=True)
class Announce:
    """A next view is announced: a bit for each rank of this view that will be in it."""

    ranks: int


@dataclass(slots=True)
class Timer:
    """A tick is asked for at this moment."""

    moment: int


@dataclass(slots=True)
class Datagram:
    """These bytes are to be sent to each member whose id has its bit in `to`. They are short under a plan, or in full."""

    to: int
    bytes: bytes
    plan: int | None = None

    @property
    def ids(self) -> list[int]:
        return members_of(self.to)


@dataclass(slots=True)
class Nowhere:
    """A send had no other member to go to."""


@dataclass(slots=True)
class Quiet:
    """An event left the stack that means nothing outside of it."""


@dataclass(slots=True)
class View:
    """The member is in this view: how many came before it, and a bit for each id that is in it."""

    number: int
    mask: int

    @property
    def ids(self) -> list[int]:
        """The ids of its members: the member of rank k is the k-th."""
        return members_of(self.mask)

    def rank(self, me: int) -> int:
        """The rank of a member that is in it: how many smaller ids are."""
        return (self.mask & ((1 << me) - 1)).bit_count()


@dataclass(slots=True)
class Out:
    """The member is in no view any more."""


Output = Cast | Send | Block | Announce | Timer | Datagram | Nowhere | Quiet | View | Out
