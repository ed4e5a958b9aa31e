#!/usr/bin/env python3
"""The torture without processes and sockets: five of the store in this one, on a clock of its own, so that a minute of troubles takes seconds, and each
rehearsal follows from its seed.

    rehearse.py [--seconds S] [--seed N] [--runs R] [--layers FILE] [--after MS]

A process that is killed forgets all; one that is stopped finds its datagrams and its clients' calls when it goes on. What clients saw is judged as by torture.py.
"""
import argparse
import asyncio
import json
import os
import random
import selectors
import sys
import types

import store
import torture

MEMBERS = torture.MEMBERS


class Waits(selectors.SelectSelector):
    """Nothing ever comes from outside: to wait is to let the clock go on."""

    loop = None

    def select(self, timeout=None):
        if timeout is None:
            raise RuntimeError("nothing is left to happen")
        self.loop.now += timeout
        return []


class Loop(asyncio.SelectorEventLoop):
    """A loop on a clock of its own."""

    def __init__(self):
        self.now = 1_000.0
        waits = Waits()
        waits.loop = self
        super().__init__(waits)

    def time(self):
        return self.now


class Link:
    """The socket of one life of a process."""

    def __init__(self, five, me):
        self.five, self.me, self.is_open = five, me, True

    def sendto(self, data, address):
        network, other = self.five.network, address[1]
        if not self.is_open or len({self.me, other} & network.apart) == 1 or network.draw.random() < network.loss:
            return
        self.five.loop.call_later(0.0005 + network.draw.random() * network.delay, self.five.receive, other, data)
        if network.draw.random() < network.loss / 4:
            self.five.loop.call_later(0.05, self.five.receive, other, data)


class Five(torture.Processes):
    """The five, in this process."""

    def __init__(self, network, layers):
        self.network, self.layers, self.loop = network, layers, asyncio.get_running_loop()
        self.running, self.tasks, self.ends = [None] * MEMBERS, [()] * MEMBERS, [None] * MEMBERS
        self.held = [None] * MEMBERS  # of one that is stopped: the datagrams that wait
        self.goes = [asyncio.Event() for _ in range(MEMBERS)]

    def start(self, me, *first):
        process = store.Process(me, [(("group", k), ("clients", k)) for k in range(MEMBERS)], self.layers, None)
        process.link = Link(self, me)
        self.running[me], self.ends[me] = process, self.loop.create_future()
        self.held[me] = []
        if first:
            process.begin(*first)
        self.resume(me)

    def kill(self, me):
        self.stop(me)
        self.running[me].link.is_open = False
        self.running[me] = None
        self.ends[me].set_result(None)

    def stop(self, me):
        self.goes[me].clear()
        for task in self.tasks[me]:
            task.cancel()

    def resume(self, me):
        self.goes[me].set()
        self.tasks[me] = [asyncio.create_task(self.running[me].ticks()), asyncio.create_task(self.running[me].joins())]
        held, self.held[me] = self.held[me], []
        for data in held:
            self.running[me].received(data)

    def receive(self, me, data):
        if self.running[me] and self.goes[me].is_set():
            self.running[me].received(data)
        elif self.running[me]:
            self.held[me].append(data)

    async def ask(self, me, op):
        """An operation of a process, whose connection breaks where that is killed."""
        process, end = self.running[me], self.ends[me]
        if not process:
            raise ConnectionRefusedError
        asked = asyncio.create_task(self.answer(process, me, op))
        await asyncio.wait([asked, end], return_when=asyncio.FIRST_COMPLETED)
        if end.done():
            asked.cancel()
            raise ConnectionResetError
        return asked.result()

    async def answer(self, process, me, op):
        await asyncio.sleep(0.001)
        await self.goes[me].wait()
        answer = json.dumps(await process.answer(json.dumps(op).encode()))
        await self.goes[me].wait()
        return json.loads(answer)


async def rehearse(args, seed):
    draw = random.Random(seed)
    clock = types.SimpleNamespace(monotonic=asyncio.get_running_loop().time)
    store.time = torture.time = clock
    store.secrets = types.SimpleNamespace(token_hex=lambda size: f"{draw.getrandbits(8 * size):x}", choice=draw.choice)
    network = torture.Network(draw)
    five = Five(network, store.stack_of(args.layers, args.after))
    store.ask = lambda address, op: five.ask(address[1], op)
    for me in range(MEMBERS):
        five.start(me, 1)
    clients, troubles = await torture.suffer(network, five, args.seconds, draw)
    torture.told(clients, troubles)
    return torture.judged(clients, troubles)


def main():
    words = argparse.ArgumentParser(description="Rehearses the torture of the store on a clock of its own.")
    words.add_argument("--seconds", type=float, default=60)
    words.add_argument("--seed", type=int, default=1)
    words.add_argument("--runs", type=int, default=1)
    words.add_argument("--layers", default=os.path.join(store.TOP, "layers", "safe.layers"))
    words.add_argument("--after", type=int, default=500)
    args = words.parse_args()
    wrong = []
    for seed in range(args.seed, args.seed + args.runs):
        loop = Loop()
        asyncio.set_event_loop(loop)
        found = loop.run_until_complete(rehearse(args, seed))
        for task in asyncio.all_tasks(loop):
            task.cancel()
        wrong += [f"seed {seed}: {line}" for line in found]
    for line in wrong:
        print(line)
    return 1 if wrong else 0


if __name__ == "__main__":
    sys.exit(main())
