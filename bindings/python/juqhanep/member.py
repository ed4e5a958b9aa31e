"""One member."""
from __future__ import annotations

import ctypes
import threading
from collections.abc import Callable
from ctypes import byref

from juqhanep.library import LONGEST_DATAGRAM, LONGEST_SENTENCE, Event, Fault, Handle, calls
from juqhanep.outputs import Announce, Block, Cast, Datagram, Nowhere, Out, Output, Quiet, Send, Timer, View
from juqhanep.refusals import NoMember, Refused, TooManyRows, of_step

_TOLD = 1
_READ: dict[int, Callable[[Event, memoryview], Output]] = {
    1: lambda e, room: Cast(e.peer, room[: e.length].tobytes()),
    2: lambda e, room: Send(e.peer, room[: e.length].tobytes()),
    3: lambda e, _: Block(e.number),
    4: lambda e, _: Announce(e.to),
    5: lambda e, _: Timer(e.number),
    6: lambda e, room: Datagram(e.to, room[: e.length].tobytes(), e.plan - 1 if e.plan else None),
    7: lambda _, __: Nowhere(),
    8: lambda _, __: Quiet(),
    9: lambda e, _: View(e.number, e.to),
    10: lambda _, __: Out(),
}


class Member:
    """A member of a group. Each call is one step and gives the list of what came out of it; or it raises why it was refused, and then nothing
    has changed. It is used by the thread that opened it, and closed when it is done with, best by `with`."""

    def __init__(self, layers: bytes, members: int, me: int, group: int, stamp: int, bypass: bool):
        """As `Member.open`."""
        if not (1 <= members <= 32 and 0 <= me < members):
            raise NoMember(f"member {me} of {members}")
        self.members, self.me, self.group, self.stamp, self.bypass = members, me, group, stamp, bypass
        self.common = False
        """Whether the last step was common, so that the stack's bypass makes it."""
        self.view: View | None = View(0, (1 << members) - 1)
        """The view that the member is in."""
        self._thread = threading.get_ident()
        self._handle, self._event = Handle(), Event()
        self._room = ctypes.create_string_buffer(LONGEST_DATAGRAM)
        self._bytes = memoryview(self._room).cast("B")
        self._at, self._told = byref(self._handle), byref(self._event)
        self._begin(layers)

    @classmethod
    def open(cls, layers: bytes | str, *, members: int, me: int, group: int = 1, stamp: int = 1, bypass: bool = True) -> Member:
        """Opens the member `me` of a group of the members 0 to `members` - 1, in the group's first view, over the stack that a layer file means.
        All members are opened with the same layers, group and stamp. It runs by the stack's bypasses or layer by layer."""
        return cls(layers.encode() if isinstance(layers, str) else bytes(layers), members, me, group, stamp, bypass)

    def _begin(self, layers: bytes) -> None:
        fault, sentence = Fault(), ctypes.create_string_buffer(LONGEST_SENTENCE)
        status = calls.juq_open(
            self._at, layers, len(layers), self.bypass, self.group, self.stamp, self.members, self.me, byref(fault), sentence, len(sentence)
        )
        if status == 3:
            raise Refused(fault.cause, fault.a, fault.b, sentence.raw[: fault.length].decode())
        if status:
            raise {2: NoMember, 4: TooManyRows, 7: MemoryError}[status]()

    def _take(self, status: int) -> list[Output]:
        """The outputs of the step that answered this."""
        if status > 1:
            raise of_step(status)
        self.common = status == 1
        outputs: list[Output] = []
        event, room = self._event, self._room
        while calls.juq_next(self._at, self._told, room, LONGEST_DATAGRAM) == _TOLD:
            outputs.append(_READ[event.kind](event, self._bytes))
        if outputs and isinstance(outputs[-1], (View, Out)):
            self.view = outputs[-1] if isinstance(outputs[-1], View) else None
        return outputs

    def cast(self, body: bytes) -> list[Output]:
        """The application casts a body to the whole view."""
        self._here()
        return self._take(calls.juq_cast(self._at, body, len(body)))

    def send(self, rank: int, body: bytes) -> list[Output]:
        """It sends a body to the member of this rank of the view."""
        self._here()
        return self._take(calls.juq_send(self._at, rank, body, len(body)))

    def leave(self) -> list[Output]:
        """It asks to leave the group."""
        self._here()
        return self._take(calls.juq_leave(self._at))

    def tick(self, moment: int) -> list[Output]:
        """The member's clock shows a moment, modulo 2^32. The unit is yours: docs/LIBRARY-API.md says what the library's layers want of it."""
        self._here()
        return self._take(calls.juq_tick(self._at, moment))

    def receive(self, datagram: bytes) -> list[Output]:
        """A datagram came."""
        self._here()
        return self._take(calls.juq_receive(self._at, datagram, len(datagram)))

    def _here(self) -> None:
        if threading.get_ident() != self._thread:
            raise RuntimeError("a member stays on the thread that opened it")

    def close(self) -> None:
        """Ends the member, and gives back its memory."""
        self._here()
        calls.juq_close(self._at)

    def __enter__(self) -> Member:
        return self

    def __exit__(self, *_: object) -> None:
        self.close()

    def __del__(self) -> None:
        if hasattr(self, "_at") and threading.get_ident() == self._thread:
            calls.juq_close(self._at)
