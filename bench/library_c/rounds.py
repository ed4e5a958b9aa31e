#!/usr/bin/env python3
"""rounds.py LAYERS|- ROUNDS PORT: three processes of Python over UDP. Member 0 casts 64 bytes, member 1 answers each by a cast, and member 0 times the way
there and back; with - the same by bare datagrams. Run by measure.py."""
import os
import select
import signal
import sys
import time

from juqhanep import Cast, Member, udp

name, rounds, port = sys.argv[1], int(sys.argv[2]), int(sys.argv[3])
ADDRESSES = [("127.0.0.1", port + id) for id in range(3)]


class Bare:
    """Datagrams to all others, whose first byte is the sender."""

    def __init__(self, me):
        self.me, self.socket = me, udp.bound(ADDRESSES[me])

    def cast(self, body):
        for to in range(3):
            if to != self.me:
                self.socket.sendto(bytes([self.me]) + body, ADDRESSES[to])

    def wait(self, seconds):
        if not select.select([self.socket], [], [], seconds)[0]:
            return []
        datagram = self.socket.recv(65536)
        return [Cast(datagram[0], datagram[1:])]


def opened(me):
    if name == "-":
        return Bare(me)
    with open(name, "rb") as file:
        return udp.Group(Member.open(file.read(), members=3, me=me), ADDRESSES)


def serve(me):
    group = opened(me)
    while True:
        for output in group.wait(1.0):
            if me == 1 and isinstance(output, Cast) and output.peer == 0:
                group.cast(output.body)


def time_round(group):
    began = time.perf_counter_ns()
    group.cast(b"a" * 64)
    while time.perf_counter_ns() - began < 300_000_000:
        if any(isinstance(output, Cast) and output.peer == 1 for output in group.wait(0.3)):
            return (time.perf_counter_ns() - began) / 1e3
    return None


group, others = opened(0), []    # (it listens before the others begin, so that nothing of theirs is lost)
for me in (1, 2):
    if (child := os.fork()) == 0:
        serve(me)
    others.append(child)
for _ in range(10):
    group.wait(0.1)
times = [time_round(group) for _ in range(rounds)]
for child in others:
    os.kill(child, signal.SIGKILL)
known = sorted(it for it in times if it)
print(f"rounds {len(known)} lost {rounds - len(known)} p50_us {known[len(known) // 2]:.1f} p99_us {known[len(known) * 99 // 100]:.1f}")
