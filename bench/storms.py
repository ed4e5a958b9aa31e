#!/usr/bin/env python3
"""Storms: groups in a network of their own with clocks, over the library for applications. They judge what no law of `audit` says.

    bench/storms.py FILE MEMBERS KIND RUNS [--seed S] [--nervous]     KIND is calm, burst, loss, crash, part, leave or mix
    bench/storms.py changed [RUNS]                                    storms over the layers with one line changed of tools/tests/layers.py

A storm lasts three seconds of its own time, and then there is calm for nine: ticks each 1 to 20 ms, delays of 1 to 15 ms and for a part up to 150, up to a
fifth lost, some repeated; floods of casts; a minority crashes, groups are parted up to three times, members leave. In the end each member casts once more.
Of each storm it is asked that

- lost: each cast of a member that isn't out was delivered at home or handed back;   both: and not both
- twice, order, other: nobody delivers a cast twice, a member's casts in another order than theirs, or what nobody cast
- total, same: members of a view deliver one list, and those that go on together all of it
- back: what is handed back is delivered by nobody who goes on
- chain, split: one mask for each count of views, and one view in the end
- last: the last casts are delivered by all who are left;   dead: there is someone left, but where members crash and are parted

With `--nervous` pings come each 20 ms, and who was silent for 50 is suspected: views change all the time.
"""
import collections
import heapq
import os
import random
import sys

TOP = os.path.dirname(os.path.dirname(os.path.abspath(__file__)))
sys.path[:0] = [os.path.join(TOP, "bindings", "python"), os.path.join(TOP, "tools", "tests")]

from juqhanep import Cast, Datagram, Gone, Member, Out, Send, Stray, View  # pylint: disable=wrong-import-position

STORM, CALM, LAST, END = 3_000, 7_000, 9_000, 12_000  # milliseconds


class Network:
    """What a storm does to datagrams."""

    def __init__(self, draw, kind):
        rough = kind not in ("calm", "burst")
        self.loss = draw.choice([0.05, 0.1, 0.2]) if kind == "loss" else draw.choice([0, 0.02, 0.05, 0.15]) if rough else 0
        self.twice = draw.choice([0, 0.05]) if rough else 0
        self.slow = draw.choice([0, 0.1]) if rough else 0
        self.delay, self.draw, self.side, self.is_calm = draw.randint(1, 15), draw, 0, False

    def arrivals(self, source, target):
        """After how many milliseconds a datagram arrives, each time that it does."""
        draw = self.draw
        if (self.side >> source ^ self.side >> target) & 1 or not self.is_calm and draw.random() < self.loss:
            return []
        slow = draw.randint(0, 150) if not self.is_calm and draw.random() < self.slow else 0
        again = [draw.randint(1, 100)] if not self.is_calm and draw.random() < self.twice else []
        return [draw.randint(1, self.delay) + slow, *again]


class Storm:
    def __init__(self, layers, members, kind, seed):
        self.draw = random.Random(seed)
        self.count, self.kind = members, kind
        self.all = [Member.open(layers, members=members, me=me) for me in range(members)]
        self.network = Network(self.draw, kind)
        self.tick = self.draw.choice([1, 5, 10, 20])
        self.crashed, self.events, self.serial = set(), [], 0
        self.made = [{} for _ in range(members)]  # of each cast: how often it was delivered at home, and handed back
        self.seen = [[] for _ in range(members)]  # casts that were delivered in this view
        self.stays = collections.defaultdict(list)  # of each view: who was in it, what it delivered, and which view it went to
        self.chain, self.wrong, self.last = {}, set(), []
        self.delivered = collections.Counter()

    def at(self, moment, *event):
        self.serial += 1
        heapq.heappush(self.events, (moment, self.serial, event))

    def plan(self):
        """All that a storm does, but for what comes of it."""
        draw, kind = self.draw, self.kind
        for me in range(self.count):
            self.at(draw.randint(0, self.tick), "tick", me)
            rate, moment = draw.choice([1, 5, 20, 100]), draw.randint(0, 50)
            while moment < STORM and draw.random() < 0.999:
                for _ in range(40 if kind == "burst" else 1):
                    self.at(moment, "cast", me)
                moment += draw.randint(200, 400) if kind == "burst" else draw.randint(1, 2 * rate)
        for _ in range(draw.randint(1, max(1, (self.count - 1) // 2)) if kind == "crash" or kind == "mix" and draw.random() < 0.6 else 0):
            self.at(draw.randint(200, STORM), "crash", draw.randrange(self.count))
        moment = draw.randint(200, 1_700)
        for _ in range(draw.randint(1, 3) if kind == "part" or kind == "mix" and draw.random() < 0.6 else 0):
            self.at(moment, "part", draw.randrange(1 << self.count))
            moment += draw.randint(50, 1_550)
            self.at(moment, "part", 0)
            moment += draw.randint(0, 500)
        if kind == "leave" or kind == "mix" and draw.random() < 0.3:
            self.at(draw.randint(200, 2_200), "leave", draw.randrange(self.count))
        self.at(CALM, "calm", 0)
        self.at(LAST, "last", 0)

    def is_on(self, me):
        return me not in self.crashed and self.all[me].view is not None

    def cast(self, me, moment):
        body = bytes([me]) + len(self.made[me]).to_bytes(3, "big")
        self.made[me][body] = [0, 0]
        self.step(me, moment, self.all[me].cast, body)
        return body

    def run(self):
        """The storm, and what was wrong in it."""
        self.plan()
        while self.events and self.events[0][0] <= END:
            moment, _, (what, where, *more) = heapq.heappop(self.events)
            if what in ("tick", "cast", "leave", "datagram") and not self.is_on(where):
                continue
            if what == "tick":
                self.at(moment + self.tick, "tick", where)
                self.step(where, moment, self.all[where].tick, moment)
            elif what == "datagram":
                self.step(where, moment, self.all[where].receive, more[0])
            elif what == "cast":
                self.cast(where, moment)
            elif what == "leave":
                self.step(where, moment, self.all[where].leave)
            elif what == "crash":
                self.crashed.add(where)
            elif what == "part":
                self.network.side = where
            elif what == "calm":
                self.network.is_calm, self.network.side = True, 0
            else:
                self.last = [(me, self.cast(me, moment)) for me in range(self.count) if self.is_on(me)]
        self.judge()
        for member in self.all:
            member.close()
        return self.wrong

    def step(self, me, moment, call, *given):
        member, view = self.all[me], self.all[me].view
        try:
            outputs = call(*given)
        except (Stray, Gone):
            return
        for output in outputs:
            match output:
                case Datagram():
                    for to in output.ids:
                        for after in self.network.arrivals(me, to):
                            self.at(moment + after, "datagram", to, output.bytes)
                case Cast(peer, body):
                    self.deliver(me, peer, body, view)
                case Send(peer, body) if peer == view.rank(me) and body in self.made[me]:
                    self.made[me][body][1] += 1
                case View(number, mask):
                    self.stays[view.number, view.mask].append((me, self.seen[me], (number, mask)))
                    self.seen[me] = []
                    if self.chain.setdefault(number, mask) != mask:
                        self.wrong.add("chain")
                case Out():
                    self.stays[view.number, view.mask].append((me, self.seen[me], None))
                    self.seen[me] = []

    def deliver(self, me, peer, body, view):
        if len(body) != 4 or body not in self.made[body[0]]:
            self.wrong.add("other")
            return
        if body in self.seen[me]:
            self.wrong.add("twice")
        earlier = next((other for other in reversed(self.seen[me]) if other[0] == body[0]), None)
        if earlier and earlier >= body:
            self.wrong.add("order")
        self.seen[me].append(body)
        self.delivered[body] += 1
        if peer == view.rank(me):
            self.made[me][body][0] += 1

    def judge(self):
        on = [me for me in range(self.count) if self.is_on(me)]
        for me in on:
            self.stays[self.all[me].view.number, self.all[me].view.mask].append((me, self.seen[me], None))
        for stays in self.stays.values():
            for k, (_, some, to) in enumerate(stays):
                for _, others, other in stays[:k]:
                    size = min(len(some), len(others))
                    self.wrong |= {"total"} if some[:size] != others[:size] else set()
                    self.wrong |= {"same"} if to and to == other and len(some) != len(others) else set()
        for me in range(self.count):
            for home, back in self.made[me].values():
                self.wrong |= {"both"} if home + back > 1 else {"lost"} if home + back == 0 and me in on else set()
        for stays in self.stays.values():
            for me, some, to in stays:
                if (to or me in on) and any(self.made[body[0]][body][1] for body in some):
                    self.wrong.add("back")
        self.wrong |= {"split"} if len({self.all[me].view.mask for me in on}) > 1 else set()
        self.wrong |= set() if on or self.kind in ("mix", "part") else {"dead"}
        for me, body in self.last:
            if me in on and self.delivered[body] != len(on):
                self.wrong.add("last")


def storms(layers, members, kind, seeds):
    """Over some seeds: how many casts, and in how many storms each thing was wrong, and where first."""
    casts, wrong = 0, {}
    for seed in seeds:
        storm = Storm(layers, members, kind, seed)
        for what in storm.run():
            count, first = wrong.get(what, (0, seed))
            wrong[what] = (count + 1, first)
        casts += sum(map(len, storm.made))
    return casts, wrong


def told(wrong):
    return ", ".join(f"{what} {count} (first {first})" for what, (count, first) in sorted(wrong.items())) or "nothing"


def try_changed(runs):
    """What storms find of each layer with one line changed."""
    os.environ.setdefault("STACKC", "none")
    import layers  # pylint: disable=import-outside-toplevel

    print("| Changed | mix, 3 members | burst, 3 | nervous mix, 3 | nervous crash, 5 |\n|---|---|---|---|---|")
    for what, layer, line, place, other, _ in layers.CHANGED:
        text = layers.changed(layer, line, place, other)
        found = [storms(text, 3, "mix", range(runs)), storms(text, 3, "burst", range(runs // 4)), storms(layers.nervous(text), 3, "mix", range(runs)),
                 storms(layers.nervous(text), 5, "crash", range(runs // 2))]
        print(f"| {what} | " + " | ".join(told(wrong) for _, wrong in found) + " |", flush=True)


def main():
    words = sys.argv[1:]
    if words[:1] == ["changed"]:
        try_changed(int(words[1]) if len(words) > 1 else 40)
        return 0
    is_nervous = "--nervous" in words
    seed = int(words[words.index("--seed") + 1]) if "--seed" in words else 1
    with open(words[0], encoding="ascii") as file:
        text = file.read()
    if is_nervous:
        os.environ.setdefault("STACKC", "none")
        import layers  # pylint: disable=import-outside-toplevel

        text = layers.nervous(text)
    casts, wrong = storms(text, int(words[1]), words[2], range(seed, seed + int(words[3])))
    print(f"{words[0]}, {words[1]} members, {words[2]}{', nervous' if is_nervous else ''}: {words[3]} storms, {casts} casts, wrong: {told(wrong)}", flush=True)
    return 1 if wrong else 0


if __name__ == "__main__":
    sys.exit(main())
