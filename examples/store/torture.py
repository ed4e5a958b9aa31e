#!/usr/bin/env python3
"""Five processes of the store over a network that loses, delays and parts; processes are killed, stopped and flooded; and what clients saw is judged.

    STACKC=PROGRAM torture.py [--seconds S] [--seed N] [--layers FILE] [--after MS] [--keep FOLDER]

All runs on the loopback: each process sends to ports of this one, which hands datagrams on. At most two processes suffer at once, and the next trouble
waits until all five are in the group again. Then the network is calm, all keys are read at each process, and it is judged that

- each key's calls are linearizable (linear.py), these last reads among them; so no acknowledged write is lost,
- each log of a member is what `stackc replay` makes of its calls, and the laws sender, total and same hold of each group's logs by `stackc audit`.

It prints what was done, how soon writes were taken again, and ends with 1 where something isn't so.
"""
import argparse
import asyncio
import collections
import glob
import os
import random
import signal
import subprocess
import sys
import tempfile
import time

from linear import Call, broken_keys
from store import TOP, ask, stack_of

MEMBERS = 5
GROUP, CLIENTS, WAYS = 48_000, 48_100, 48_200  # ports
EPOCH = 10  # seconds for which clients use the same keys
LINES, BYTES = 99_000, 4_000_000  # of a script, as far as the program takes it
STACKC = os.environ.get("STACKC", os.path.join(TOP, "stackc"))


class Way(asyncio.DatagramProtocol):
    """The way from one process to another."""

    def __init__(self, network, source, target):
        self.network, self.ends, self.target = network, {source, target}, ("127.0.0.1", GROUP + target)

    def connection_made(self, transport):
        self.transport = transport

    def datagram_received(self, data, addr):
        network = self.network
        if len(self.ends & network.apart) == 1 or network.draw.random() < network.loss:
            return
        asyncio.get_running_loop().call_later(network.draw.random() * network.delay, self.transport.sendto, data, self.target)
        if network.draw.random() < network.loss / 4:
            asyncio.get_running_loop().call_later(0.05, self.transport.sendto, data, self.target)


class Network:
    """What becomes of datagrams: which part is lost, for how many seconds they are held back at most, and who is apart from the others."""

    def __init__(self, draw):
        self.draw = draw
        self.calm()

    def calm(self):
        self.loss, self.delay, self.apart = 0.0, 0.002, set()

    async def begin(self):
        for source in range(MEMBERS):
            for target in range(MEMBERS):
                port = WAYS + MEMBERS * source + target
                await asyncio.get_running_loop().create_datagram_endpoint(lambda s=source, t=target: Way(self, s, t), local_addr=("127.0.0.1", port))


class Processes:
    """The five."""

    def __init__(self, folder, args):
        self.folder, self.running = folder, [None] * MEMBERS
        self.layers = os.path.join(folder, "stack.layers")
        with open(self.layers, "w", encoding="ascii") as file:
            file.write(stack_of(args.layers, args.after))
        for me in range(MEMBERS):
            with open(os.path.join(folder, f"{me}.txt"), "w", encoding="ascii") as file:
                for other in range(MEMBERS):
                    port = GROUP + me if other == me else WAYS + MEMBERS * me + other
                    file.write(f"{other} 127.0.0.1:{port} 127.0.0.1:{CLIENTS + other}\n")

    def start(self, me, *more):
        words = [sys.executable, os.path.join(TOP, "examples", "store", "store.py"), str(me), os.path.join(self.folder, f"{me}.txt"), "--log", self.folder]
        words += ["--layers", self.layers, *more]
        with open(os.path.join(self.folder, f"{me}.said"), "ab") as said:
            self.running[me] = subprocess.Popen(words, stdout=said, stderr=said)

    def kill(self, me):
        self.running[me].kill()
        self.running[me].wait()

    def stop(self, me):
        self.running[me].send_signal(signal.SIGSTOP)

    def resume(self, me):
        self.running[me].send_signal(signal.SIGCONT)

    def end(self):
        for process in self.running:
            process.send_signal(signal.SIGINT)
        for process in self.running:
            process.wait(30)

    async def ask(self, me, op):
        """One operation of a process."""
        return await ask(("127.0.0.1", CLIENTS + me), op)

    async def state(self, me):
        try:
            return await asyncio.wait_for(self.ask(me, {"op": "state"}), 1)
        except (OSError, ValueError, asyncio.TimeoutError):
            return {}

    async def all_in(self, seconds):
        """Whether all are in one view, within some time."""
        until = time.monotonic() + seconds
        while time.monotonic() < until:
            found = await asyncio.gather(*(self.state(me) for me in range(MEMBERS)))
            if all(one.get("state") == "in" and one == found[0] and len(one["view"]) == MEMBERS for one in found):
                return True
            await asyncio.sleep(0.1)
        return False


class Clients:
    """Clients that ask one after the other, and the history of what they saw."""

    def __init__(self, draw, processes):
        self.draw, self.processes = draw, processes
        self.history, self.keys = {}, set()  # calls by their number
        self.numbers = self.values = 0
        self.began, self.answers = time.monotonic(), collections.Counter()
        self.writes = []  # when an acknowledged write was called and answered, and by which process

    def operation(self):
        """An operation with a value of its own, on one of the keys of this time."""
        self.values += 1
        key = f"{int(time.monotonic() - self.began) // EPOCH}-{self.draw.randrange(6)}"
        if key.endswith(("4", "5")):
            op = self.draw.choice([{"op": "add", "key": key, "value": 1 << self.draw.randrange(20)}, {"op": "get", "key": key}])
        else:
            old = self.draw.choice([None, *(call.op["value"] for call in list(self.history.values())[-20:] if call.op["op"] == "put" and call.op["key"] == key)])
            op = self.draw.choice([{"op": "get", "key": key}, {"op": "put", "key": key, "value": self.values}, {"op": "cas", "key": key, "old": old, "new": -self.values}])
        return op

    async def call(self, me, op, seconds=8.0):
        """One operation, whose outcome is noted. Nothing is noted where it surely wasn't done."""
        self.numbers += 1
        call, number = Call(op, time.monotonic()), self.numbers
        self.keys.add(op["key"])
        self.history[number] = call
        try:
            answer = await asyncio.wait_for(self.processes.ask(me, op), seconds)
        except ConnectionRefusedError:
            answer = {"error": "unavailable"}
        except (OSError, ValueError, asyncio.TimeoutError):
            answer = {"error": "unknown"}
        self.answers[answer.get("error", op["op"])] += 1
        if answer.get("error") == "unavailable":
            del self.history[number]
            return False
        if "error" not in answer:
            call.answered, call.answer = time.monotonic(), answer
            if op["op"] != "get":
                self.writes.append((call.called, call.answered, me))
        return call.answer is not None

    async def client(self, me):
        while True:
            if not await self.call(me, self.operation()):
                await asyncio.sleep(0.1)
            await asyncio.sleep(self.draw.random() * 0.1)

    async def flood(self, me, many):
        await asyncio.gather(*(self.call(me, self.operation()) for _ in range(many)))

    async def last_reads(self):
        for key in sorted(self.keys):
            for me in range(MEMBERS):
                while not await self.call(me, {"op": "get", "key": key}):
                    await asyncio.sleep(0.1)


class Troubles:
    """What is done to the five, one kind after the other."""

    KINDS = ("kill", "stop", "part", "loss", "delay", "flood", "leader", "two")

    def __init__(self, network, processes, clients, draw):
        self.network, self.processes, self.clients, self.draw = network, processes, clients, draw
        self.done, self.again, self.joined, self.never = collections.Counter(), [], [], 0

    async def once(self, kind):
        draw, network = self.draw, self.network
        victims = draw.sample(range(MEMBERS), 2 if kind in ("two", "part") and draw.random() < 0.7 else 1)
        began = time.monotonic()
        self.done[kind] += 1
        if kind in ("kill", "leader", "two"):
            await self.killed([0] if kind == "leader" else victims)
        elif kind == "stop":
            await self.stopped(victims)
        elif kind == "part":
            network.apart = set(victims)
            await asyncio.sleep(1 + 4 * draw.random())
        elif kind == "loss":
            network.loss = draw.choice([0.05, 0.1, 0.2])
            await asyncio.sleep(3)
        elif kind == "delay":
            network.delay = draw.choice([0.03, 0.1, 0.3])
            await asyncio.sleep(3)
        else:
            victims = []
            await self.clients.flood(draw.randrange(MEMBERS), 200)
        network.calm()
        calm = time.monotonic()
        if not await self.processes.all_in(60):
            self.never += 1
        self.joined.append(time.monotonic() - calm)
        self.again.append(self.taken_again(began, [0] if kind == "leader" else victims))

    def taken_again(self, began, victims):
        """How long after a moment a write was answered by a process that didn't suffer, that was called after it."""
        return min((answered - began for called, answered, me in self.clients.writes if called > began and me not in victims), default=float("inf"))

    async def killed(self, victims):
        for me in victims:
            self.processes.kill(me)
        await asyncio.sleep(0.5 + 3 * self.draw.random())
        for me in victims:
            self.processes.start(me)

    async def stopped(self, victims):
        for me in victims:
            self.processes.stop(me)
        await asyncio.sleep(0.3 + 4 * self.draw.random())
        for me in victims:
            self.processes.resume(me)

    async def run(self, seconds):
        until, kinds = time.monotonic() + seconds, []
        while time.monotonic() < until:
            kinds = kinds or self.draw.sample(self.KINDS, len(self.KINDS))
            await self.once(kinds.pop())
            await asyncio.sleep(0.5)


def replayed(script, report, layers):
    """What is wrong with a log beside the replay of its calls, as far as the program takes them; and the lines of it that a law speaks of."""
    from juqhanep import log  # pylint: disable=import-outside-toplevel

    lines, size = log.whole_lines(script), 0
    kept = []
    for line in lines[:LINES]:
        size += len(line) + 1
        if size > BYTES:
            break
        kept.append(line)
    due = list(log.due(log.replay(STACKC, layers, "".join(line + "\n" for line in kept)), MEMBERS))[:-1]
    have = [line for line in log.whole_lines(report) if not line.startswith("end ")]
    count = min(len(due), len(have))
    # (a member that was killed may have written more of one file than of the other)
    wrong = "" if due[:count] == have[:count] else next(f"{due[at]!r} is due, not {have[at]!r}" for at in range(count) if due[at] != have[at])
    return wrong, [line for line in due if line.startswith(("deliver ", "view ", "out "))]


def audited(folder, layers):
    """What is wrong with the logs: a list."""
    groups, wrong = collections.defaultdict(list), []
    for script in sorted(glob.glob(os.path.join(folder, "*.script"))):
        fault, lines = replayed(script, script[:-7] + ".report", layers)
        if fault:
            wrong.append(f"{os.path.basename(script)}: {fault}")
        groups[os.path.basename(script).split("-")[0]] += lines
    for stamp, lines in groups.items():
        path = os.path.join(folder, f"{stamp}.joined")
        with open(path, "w", encoding="ascii") as file:
            file.write("".join(line + "\n" for line in [*lines, "end 0"]))
        for law in ("sender", "total", "same"):
            found = subprocess.run([STACKC, "audit", path, "--law", law], stdout=subprocess.PIPE, stderr=subprocess.PIPE, check=False)
            if found.stdout != b"holds\n":
                wrong.append(f"group {stamp}, law {law}: {found.stdout.decode().strip()} {found.stderr.decode().strip()}")
    print(f"logs: {sum(1 for _ in glob.glob(os.path.join(folder, '*.script')))} lives in {len(groups)} groups, {len(wrong)} things wrong")
    return wrong


def told(clients, troubles):
    """What was done and seen."""
    print("troubles:", ", ".join(f"{kind} {count}" for kind, count in sorted(troubles.done.items())))
    print("answers:", ", ".join(f"{kind} {count}" for kind, count in sorted(clients.answers.items())))
    again, joined = sorted(troubles.again), sorted(troubles.joined)
    if again:
        print(f"a write is taken after trouble began: median {again[len(again) // 2]:.2f} s, longest {again[-1]:.2f} s")
        print(f"all five are in again after it ended: median {joined[len(joined) // 2]:.2f} s, longest {joined[-1]:.2f} s; never: {troubles.never}")


async def suffer(network, processes, seconds, draw):
    """Clients ask while processes suffer; then all keys are read. Gives the clients and the troubles."""
    clients = Clients(draw, processes)
    troubles = Troubles(network, processes, clients, draw)
    if not await processes.all_in(60):
        sys.exit("torture.py: the five didn't come together")
    asking = [asyncio.create_task(clients.client(k % MEMBERS)) for k in range(2 * MEMBERS)]
    await troubles.run(seconds)
    for task in asking:
        task.cancel()
    await asyncio.gather(*asking, return_exceptions=True)
    await clients.last_reads()
    return clients, troubles


def judged(clients, troubles):
    """What is wrong with what clients saw: a list."""
    broken = broken_keys(clients.history.values())
    print(f"history: {len(clients.history)} calls of {len(clients.keys)} keys, {len(broken)} not linearizable", flush=True)
    return [*(f"key {key} isn't linearizable" for key in broken), *(["not all came back"] if troubles.never else [])]


async def torture(args, folder):
    draw = random.Random(args.seed)
    network = Network(draw)
    await network.begin()
    processes = Processes(folder, args)
    for me in range(MEMBERS):
        processes.start(me, "--first", str(1 + args.seed * 10_000))
    try:
        clients, troubles = await suffer(network, processes, args.seconds, draw)
    finally:
        processes.end()
    told(clients, troubles)
    return [*judged(clients, troubles), *audited(folder, processes.layers)]


def main():
    words = argparse.ArgumentParser(description="Tortures the store, and judges what clients saw.")
    words.add_argument("--seconds", type=float, default=60)
    words.add_argument("--seed", type=int, default=1)
    words.add_argument("--layers", default=os.path.join(TOP, "layers", "safe.layers"))
    words.add_argument("--after", type=int, default=1000)
    words.add_argument("--keep", metavar="FOLDER", help="leaves the logs there")
    args = words.parse_args()
    with tempfile.TemporaryDirectory(prefix="store-") as room:
        folder = args.keep or room
        os.makedirs(folder, exist_ok=True)
        wrong = asyncio.run(torture(args, folder))
    for line in wrong:
        print(line)
    return 1 if wrong else 0


if __name__ == "__main__":
    sys.exit(main())
