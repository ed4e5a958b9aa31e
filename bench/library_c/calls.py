#!/usr/bin/env python3
"""calls.py LAYERS: three members in one process of Python, over a network that loses nothing: calls a second of the
processor's time, and the times of casts and receives. Run by measure.py."""
import sys
import time

from juqhanep import Datagram, Member

with open(sys.argv[1], "rb") as file:
    layers = file.read()
members = [Member.open(layers, members=3, me=me) for me in range(3)]
times = ([], [])


def timed(what, call, given):
    began = time.perf_counter_ns()
    outputs = call(given)
    times[what].append(time.perf_counter_ns() - began)
    return [(to, output.bytes) for output in outputs if isinstance(output, Datagram) for to in output.ids]


began = time.process_time()
for cast in range(3000):
    under_way = timed(0, members[0].cast, b"a" * 64)
    while under_way:
        to, datagram = under_way.pop(0)
        under_way += timed(1, members[to].receive, datagram)
    if cast % 100 == 99:
        for member in members:
            for output in member.tick(cast // 10):
                if isinstance(output, Datagram):
                    under_way += [(to, output.bytes) for to in output.ids]
spent = time.process_time() - began
casts, receives = (sorted(some) for some in times)
at = lambda some, part: some[len(some) * part // 100] / 1e3
print(f"calls_s {sum(map(len, times)) / spent:.0f} cast_p50_us {at(casts, 50):.1f} cast_p99_us {at(casts, 99):.1f} "
      f"receive_p50_us {at(receives, 50):.1f} receive_p99_us {at(receives, 99):.1f}")
