#!/usr/bin/env python3
"""Runs nodes of the program in $STACKC over the loopback: all members of a group in one node, whose journal replays to the rest of it; one whose packets come here;
one whose place is taken, and what a terminal says of that; one that is stopped and goes on, whose lines are seen while it runs; and one of 32 members, of which one
alone is sent to."""
import contextlib
import os
import signal
import socket
import subprocess
import sys
import time

from journals import free_ports
from program import PROGRAM, runs
from tree import TOP

LAYERS = """layer cnt {
  state int k;
  state int e[n];
  header num(seq) passes;
  down Cast(p, m) { down Cast(p, m) with num(k); set k = (k + 1); }
  up Cast(o, m) with num(seq) common (seq == e[o]) { set e[o] = (seq + 1); up Cast(o, m); }
}
stack { cnt; }
"""
GROUP = "group 1 stamp 7 members 3\n"
ALL = ["node", "a.layers", "a.plan", "--turns", "200", "--me", "0,1,2"]
# What each member delivers, in whatever order.
DELIVERED = {"0": ["cast 2 -"], "1": ["cast 0 6869", "cast 2 -"], "2": ["cast 0 6869"]}
SEND = bytes.fromhex("e500000001000000070000000000000003000100")
CAST = bytes.fromhex("e50000000100000007000000000000000300ff01000000006869")


def whole_group(made, mode):
    """A node of three members through two hundred turns, in the fourth and the sixth of which one casts."""
    ports = free_ports(3)
    made.put("a.plan", peers(ports) + "turn 3 cast 0 6869\nturn 5 cast 2 -\n")
    status, journal, said = made.run([*ALL, "--run", mode])
    lines = journal.splitlines()
    delivered = {me: sorted(line[10:] for line in lines if line.startswith(f"deliver {me} ")) for me in DELIVERED}
    made.compare(f"a node, {mode}", (status, said, delivered, lines[-1]), (0, "", DELIVERED, "end 606"))
    made.put("a.script", GROUP + "".join(line[2:] + "\n" for line in lines if line.startswith("> ")))
    report = "".join(line + "\n" for line in lines if not line.startswith("> "))
    for again in ("layered", "bypass"):
        made.compare(f"its journal, {mode}, replayed {again}", made.run(["replay", "a.layers", "a.script", "--run", again]), (0, report, ""))


def to_a_stranger(made):
    """A node of one member, whose send and cast go to the other's address and port, here."""
    port, = free_ports(1)
    with socket.socket(socket.AF_INET, socket.SOCK_DGRAM) as other:
        other.bind(("127.2.3.255", 0))
        other.settimeout(10)
        plan = f"group 1 stamp 7 members 2\npeer 0 127.0.0.1:{port}\npeer 1 127.2.3.255:{other.getsockname()[1]}\nturn 3 send 0 1 -\nturn 4 cast 0 6869\n"
        made.put("a.plan", plan)
        words = ["node", "a.layers", "a.plan", "--turns=9", "--me", "0", "--patience=4", "--run=layered"]
        status, journal, said = made.run(words)
        others = [line for line in journal.splitlines() if not line.startswith("> tick ")]
        made.compare("a node of one", (status, others, said), (0, ["> send 0 1 -", "packet 1 0 1 cnt.none() -", "> cast 0 6869", "packet 2 0 all cnt.num(0) 6869", "end 11"], ""))
        made.compare("what it sent", [other.recv(65536), other.recv(65536)], [SEND, CAST])


def peers(ports):
    """The first lines of a plan."""
    return f"group 1 stamp 7 members {len(ports)}\n" + "".join(f"peer {k} 127.0.0.1:{port}\n" for k, port in enumerate(ports))


def taken_place(made):
    """A node of members 0 and 2, of which the place of 2 is taken; and what is said of that at a terminal, and once the place is free again."""
    ports = free_ports(3)
    made.put("a.plan", peers(ports))
    words = ["node", "a.layers", "a.plan", "--turns=9", "--me", "0,2"]
    with socket.socket(socket.AF_INET, socket.SOCK_DGRAM) as other:
        other.bind(("127.0.0.1", ports[2]))
        made.compare("a place that is taken", made.run(words), (6, "", "link fault\n"))
        made.compare("what is said of it", told(made, words), f"stackc: member 2 can't listen at 127.0.0.1:{ports[2]}: Address already in use\n")
    made.compare("what is said of a free one", told(made, words), "stackc: a member of `--me 0,2` couldn't listen at its address, or more than 0 receives failed (`--patience`)\n")


def told(made, words):
    """What a terminal is told after `link fault`."""
    made.put("said", "link fault\n")
    refusal = [sys.executable, "-B", os.path.join(TOP, "tools", "refusal.py"), "tell", "6", "said", *words]
    return subprocess.run(refusal, cwd=made.folder, stderr=subprocess.PIPE, check=True).stderr.decode()


@contextlib.contextmanager
def running(made, turns, me):
    """A node without patience that is begun, whose first line is seen."""
    words = [PROGRAM, "node", "a.layers", "a.plan", "--turns", str(turns), "--me", me]
    with subprocess.Popen(words, cwd=made.folder, stdin=subprocess.DEVNULL, stdout=subprocess.PIPE, stderr=subprocess.PIPE, bufsize=0) as node:
        try:
            yield node, node.stdout.readline()
        finally:
            node.kill()


def sent(port, count):
    """Sends datagrams that no member takes for a packet."""
    with socket.socket(socket.AF_INET, socket.SOCK_DGRAM) as other:
        for _ in range(count):
            other.sendto(b"?", ("127.0.0.1", port))


def stop(node):
    """Stops a node, and returns once it stands."""
    node.send_signal(signal.SIGSTOP)
    os.waitid(os.P_PID, node.pid, os.WSTOPPED | os.WEXITED | os.WNOWAIT)


def rest_of(node):
    """The lines of a node from here on, once it has ended, and its status."""
    lines = node.stdout.read().decode().splitlines()
    return lines, node.wait(60)


def deaf_in(lines):
    """The lines of receives that failed."""
    return [line for line in lines if line.startswith("deaf")]


def seen(made):
    """A node whose first line is seen though it runs for minutes."""
    made.put("a.plan", peers(free_ports(1)))
    with running(made, 1_000_000, "0") as (_, first):
        made.compare("the first line of an idle node", first, b"> tick 0 0\n")


def stopped(made):
    """Nodes without patience that are stopped and go on: one again and again, and one to which forty datagrams come meanwhile. No receive fails, and sixteen are
    taken a turn."""
    port, = free_ports(1)
    made.put("a.plan", peers([port]))
    with running(made, 400, "0") as (node, _):
        for _ in range(20):
            stop(node)
            time.sleep(0.01)
            node.send_signal(signal.SIGCONT)
            time.sleep(0.01)
        lines, status = rest_of(node)
        made.compare("a node that is stopped and goes on", (status, deaf_in(lines), lines[-1:]), (0, [], ["end 400"]))
    with running(made, 1000, "0") as (node, _):
        stop(node)
        sent(port, 40)
        node.send_signal(signal.SIGCONT)
        lines, status = rest_of(node)
        turns = "".join("t" if line.startswith("> tick") else "r" for line in lines if line.startswith(("> tick", "> raw"))).split("t")
        heard = [len(turn) for turn in turns if turn]
        made.compare("a node that was stopped while datagrams came", (status, deaf_in(lines), sum(heard), max(heard)), (0, [], 40, 16))


def one_of_many(made):
    """A node of all 32 members, of which one alone is sent to: it takes all that is sent in as few turns as it can."""
    ports = free_ports(32)
    made.put("a.plan", peers(ports))
    with running(made, 400, ",".join(map(str, range(32)))) as (node, _):
        stop(node)
        sent(ports[31], 200)
        node.send_signal(signal.SIGCONT)
        lines, status = rest_of(node)
        ticks = [line for line in lines if line.startswith(("> tick 31 ", "> raw 31 "))]
        first, last = (pick(k for k, line in enumerate(ticks) if line.startswith("> raw")) for pick in (min, max))
        turns = sum(line.startswith("> tick") for line in ticks[first:last])
        made.compare("one busy member of 32", (status, len(ticks), turns <= 13, lines[-1]), (0, 400 + 200, True, f"end {400 * 32 + 200}"))


def main():
    with runs("nodes") as made:
        made.put("a.layers", LAYERS)
        for mode in ("layered", "bypass"):
            whole_group(made, mode)
        made.compare("a member of none", made.run(["node", "a.layers", "a.plan", "--turns=2", "--me=1,3", "--run=layered", "--patience=0"]), (3, "", "script: member 1\n"))
        to_a_stranger(made)
        taken_place(made)
        seen(made)
        stopped(made)
        one_of_many(made)


if __name__ == "__main__":
    main()
