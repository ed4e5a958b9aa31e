#!/usr/bin/env python3
"""A counter that processes keep together: counter.py ME SECONDS PORT.. adds one each 50 ms, and ends when nothing was delivered for two seconds."""
import json
import os
import sys
import time

sys.path.insert(0, os.path.join(os.path.dirname(os.path.realpath(__file__)), "..", "bindings", "python"))
from juqhanep import Cast, Member, View, udp

LAYERS = "stack { bottom; mnak(gap = 20); pt2pt(gap = 10); pt2ptw; local; total; suspect(every = 200, after = 2000); elect; sync; intra; top; }"
me, seconds, ports = int(sys.argv[1]), float(sys.argv[2]), [int(port) for port in sys.argv[3:]]
asked = 0                       # how often this process wants to add
counted = [0] * len(ports)      # how many additions of each process are in the counter


def say(group, **words):
    group.cast(json.dumps(words).encode())


def take(group, output):
    """What is delivered, in one order everywhere: an addition counts in its turn, once. In a new view the first member says what it has, and all take that."""
    global counted
    match output:
        case View(number, _):
            print(f"view {number} of {output.ids}: {sum(counted)}", flush=True)
            if output.rank(me) == 0:
                say(group, has=counted)
        case Cast(_, body):
            said = json.loads(body)
            if "has" in said:
                counted = said["has"]
            elif said["adds"][1] == counted[said["adds"][0]]:
                counted[said["adds"][0]] += 1


with Member.open(LAYERS, members=len(ports), me=me) as member, udp.Group(member, [("127.0.0.1", port) for port in ports]) as group:
    due = last = time.monotonic()
    end, said, again = due + seconds, -1, 0
    while (now := time.monotonic()) < max(end, last) + 2:
        if now >= due:
            asked, due = asked + (now < end), now + 0.05
        if counted[me] < asked and (counted[me] != said or now > again):
            said, again = counted[me], now + 1
            say(group, adds=[me, said])      # (one at a time, and again if it isn't counted within a second)
        for output in group.wait(0.02):
            take(group, output)
            last = now
    print(f"counter {sum(counted)}, of which {counted[me]} of {asked} are mine", flush=True)
