"""A member over UDP: what every application around a member does, with sockets and a clock, by calls that wait or by asyncio.

    with udp.Group(member, ADDRESSES) as group:
        group.cast(b"hi")
        for output in group.wait(1.0):
            ...

    async with udp.AsyncGroup(member, ADDRESSES) as group:
        await group.cast(b"hi")
        async for output in group:
            ...

Datagrams are sent as they come out, and received until none waits; the member gets a tick at regular moments, and at those that it asks for. What
is left is given to the application: casts, sends, blocks, announced views, views, and that the member is out.
"""
from __future__ import annotations

import asyncio
import collections
import select
import socket
import time
from collections.abc import AsyncIterator, Callable, Sequence

from juqhanep.member import Member
from juqhanep.outputs import Announce, Block, Cast, Datagram, Out, Output, Send, Timer, View
from juqhanep.refusals import Gone, Stray

Address = tuple[str, int]
Told = Cast | Send | Block | Announce | View | Out
MOST_AT_ONCE = 64
"""Datagrams that are received before the clock is looked at again."""


class Clock:
    """The moments of a member: units of time since it began, and when the next tick is due."""

    def __init__(self, unit: float, every: float):
        self.unit, self.every, self.began = unit, every, time.monotonic()
        self.next = self.began
        self.asked: set[int] = set()

    def moment(self) -> int:
        return int((time.monotonic() - self.began) / self.unit)

    def ask(self, moment: int) -> None:
        """A tick is asked for at a moment, if that is yet to come."""
        if moment > self.moment():
            self.asked.add(moment)
            self.next = min(self.next, self.began + moment * self.unit)

    def tick(self) -> int:
        """A tick is given now: its moment."""
        moment = self.moment()
        self.asked = {asked for asked in self.asked if asked > moment}
        soonest = self.began + min(self.asked, default=2**32) * self.unit
        self.next = min(time.monotonic() + self.every, soonest)
        return moment

    def left(self) -> float:
        """How many seconds are left to the next tick."""
        return max(0.0, self.next - time.monotonic())


class _Seat:
    """A member among the addresses of its group: the part that both drivers share."""

    def __init__(self, member: Member, addresses: Sequence[Address], unit: float, every: float):
        self.member, self.addresses = member, list(addresses)
        self.clock = Clock(unit, every)
        self.strays: collections.Counter[str] = collections.Counter()
        """Datagrams that were refused, by cause: those of another view, of another group, or no packets at all."""
        self.lost = 0
        """Datagrams that the system didn't take."""

    def do(self, send: Callable[[bytes, Address], object], call: Callable[..., list[Output]], *given: object) -> list[Told]:
        """One step of the member: its datagrams are sent, and what is for the application is given back."""
        told: list[Told] = []
        for output in call(*given):
            match output:
                case Datagram():
                    for to in output.ids:
                        try:
                            send(output.bytes, self.addresses[to])
                        except OSError:
                            self.lost += 1
                case Timer(moment):
                    self.clock.ask(moment)
                case Cast() | Send() | Block() | Announce() | View() | Out():
                    told.append(output)
        return told

    def heard(self, send: Callable[[bytes, Address], object], datagram: bytes) -> list[Told]:
        """A datagram came; strays are counted."""
        try:
            return self.do(send, self.member.receive, datagram)
        except Stray as stray:
            self.strays[stray.cause] += 1
        except Gone:
            self.strays["out"] += 1
        return []

    def tick(self, send: Callable[[bytes, Address], object]) -> list[Told]:
        """The clock's moment, for a member that is in a view."""
        moment = self.clock.tick()
        return self.do(send, self.member.tick, moment) if self.member.view else []


def bound(address: Address) -> socket.socket:
    """A socket that listens on an address, with room for a burst."""
    made = socket.socket(socket.AF_INET, socket.SOCK_DGRAM)
    made.setsockopt(socket.SOL_SOCKET, socket.SO_RCVBUF, 1 << 21)
    made.bind(address)
    made.setblocking(False)
    return made


class Group(_Seat):
    """A member over UDP, by calls that wait. `addresses` has one for each member, in the order of ids. `unit` is the length of a unit of its clock in
    seconds, `every` the time between two ticks."""

    def __init__(self, member: Member, addresses: Sequence[Address], *, unit: float = 0.001, every: float = 0.01):
        super().__init__(member, addresses, unit, every)
        self.socket = bound(self.addresses[member.me])
        self._told: collections.deque[Told] = collections.deque()

    def cast(self, body: bytes) -> None:
        """Casts a body to the view. What comes of it at once is given by the next `wait`."""
        self._told += self.do(self.socket.sendto, self.member.cast, body)

    def send(self, rank: int, body: bytes) -> None:
        """Sends a body to the member of a rank."""
        self._told += self.do(self.socket.sendto, self.member.send, rank, body)

    def leave(self) -> None:
        """Asks to leave."""
        self._told += self.do(self.socket.sendto, self.member.leave)

    def wait(self, seconds: float) -> list[Told]:
        """Ticks and receives until there is something for the application, or this time is over; gives all that there is then."""
        until = time.monotonic() + seconds
        while True:
            self._turn()
            left = until - time.monotonic()
            if self._told or left <= 0:
                break
            select.select([self.socket], [], [], min(left, self.clock.left()))
        told = list(self._told)
        self._told.clear()
        return told

    def _turn(self) -> None:
        """A tick if it is due, and the datagrams that wait."""
        if self.clock.left() == 0:
            self._told += self.tick(self.socket.sendto)
        for _ in range(MOST_AT_ONCE):
            try:
                datagram = self.socket.recv(65_536)
            except BlockingIOError:
                return
            except OSError:
                continue    # (what the system says of a datagram that was sent before)
            self._told += self.heard(self.socket.sendto, datagram)

    def close(self) -> None:
        """Closes the socket. The member is its opener's."""
        self.socket.close()

    def __enter__(self) -> Group:
        return self

    def __exit__(self, *_: object) -> None:
        self.close()


class AsyncGroup(_Seat, asyncio.DatagramProtocol):
    """A member over UDP, by asyncio, in the loop of the thread that opened it. It is an asynchronous iterator over what is for the application, which
    ends where the member is out or the group is closed."""

    def __init__(self, member: Member, addresses: Sequence[Address], *, unit: float = 0.001, every: float = 0.01):
        super().__init__(member, addresses, unit, every)
        self._told: asyncio.Queue[Told | None] = asyncio.Queue()
        self._transport: asyncio.DatagramTransport | None = None
        self._timer: asyncio.TimerHandle | None = None
        self._armed = 0.0

    async def open(self) -> None:
        """Listens."""
        loop = asyncio.get_running_loop()
        self._transport, _ = await loop.create_datagram_endpoint(lambda: self, sock=bound(self.addresses[self.member.me]))
        self._tick()

    async def cast(self, body: bytes) -> None:
        """Casts a body to the view."""
        self._put(self.do(self._send, self.member.cast, body))

    async def send(self, rank: int, body: bytes) -> None:
        """Sends a body to the member of a rank."""
        self._put(self.do(self._send, self.member.send, rank, body))

    async def leave(self) -> None:
        """Asks to leave."""
        self._put(self.do(self._send, self.member.leave))

    def _send(self, datagram: bytes, address: Address) -> None:
        assert self._transport, "the group isn't open"
        self._transport.sendto(datagram, address)

    def _put(self, told: list[Told]) -> None:
        for output in told:
            self._told.put_nowait(output)
        if self._timer and self.clock.next < self._armed:
            self._arm()

    def datagram_received(self, data: bytes, addr: object) -> None:
        """A datagram came."""
        self._put(self.heard(self._send, data))

    def error_received(self, exc: Exception) -> None:
        """The system says that a datagram was lost."""
        self.lost += 1

    def _tick(self) -> None:
        self._put(self.tick(self._send))
        self._arm()

    def _arm(self) -> None:
        """The next tick comes when the clock wants it."""
        if self._timer:
            self._timer.cancel()
        self._armed = self.clock.next
        self._timer = asyncio.get_running_loop().call_later(self.clock.left(), self._tick)

    def close(self) -> None:
        """Listens no more. The member is its opener's."""
        if self._timer:
            self._timer.cancel()
            self._timer = None
        if self._transport:
            self._transport.close()
        self._told.put_nowait(None)

    def __aiter__(self) -> AsyncIterator[Told]:
        return self

    async def __anext__(self) -> Told:
        output = await self._told.get()
        if output is None:
            raise StopAsyncIteration
        if isinstance(output, Out):
            self._told.put_nowait(None)
        return output

    async def __aenter__(self) -> AsyncGroup:
        await self.open()
        return self

    async def __aexit__(self, *_: object) -> None:
        self.close()
