#!/usr/bin/env python3
"""Runs nodes of the program in $STACKC over the loopback: a group of 32 members at one port, each at an address of its own, where each gets its own; sends of one
turn, in their order; a peer that can't be sent to; and datagrams of all sizes from one that is no peer, while a clock goes on."""
import os
import socket
import subprocess
import time

from journals import free_ports
from program import PROGRAM, runs

LAYERS = "layer plain { }\nstack { plain; }\n"
# A process has addresses of its own, so that runs side by side don't meet.
HOSTS = f"127.{os.getpid() >> 8 & 255}.{os.getpid() & 255}"
LONGEST = bytes(place % 251 for place in range(65_507))
SIZES = [b"", b"nineteen bytes long", LONGEST]


def plan(peers, *lines):
    """A plan of these peers, with lines of turns."""
    heads = [f"group 1 stamp 7 members {len(peers)}", *(f"peer {k} {host}:{port}" for k, (host, port) in enumerate(peers))]
    return "".join(f"{line}\n" for line in [*heads, *lines])


def journal_of(made, turns, me):
    """The status, the lines that aren't ticks, and what is said by a node of these members."""
    status, journal, said = made.run(["node", "a.layers", "a.plan", "--turns", str(turns), "--me", ",".join(map(str, me))])
    return status, [line for line in journal.splitlines() if not line.startswith("> tick ")], said


def each_its_own(made):
    """32 members of which each sends its number to the one as far from the other end."""
    port, = free_ports(1)
    made.put("a.plan", plan([(f"{HOSTS}.{k + 1}", port) for k in range(32)], *(f"turn 0 send {k} {31 - k} {k:02x}" for k in range(32))))
    status, lines, said = journal_of(made, 6, range(32))
    delivered = sorted(line for line in lines if line.startswith(("deliver ", "lost ", "deaf ")))
    made.compare("32 members", (status, delivered, said), (0, sorted(f"deliver {31 - k} send {k} {k:02x}" for k in range(32)), ""))


def in_order(made):
    """Three sends of one turn, the first of which is long, and one to port 0, where nobody can be."""
    ports = free_ports(2)
    bodies = ["61" * 8192, "-", "62"]
    made.put("a.plan", plan([*(("127.0.0.1", port) for port in ports), ("127.0.0.1", 0)], *(f"turn 0 send 0 1 {body}" for body in bodies), "turn 1 send 1 2 63"))
    status, lines, said = journal_of(made, 20, (0, 1))
    told = [line for line in lines if line.startswith(("deliver ", "lost ", "deaf "))]
    made.compare("one after the other", (status, sorted(told), said), (0, sorted([*(f"deliver 1 send 0 {body}" for body in bodies), "lost 4"]), ""))
    made.compare("in their order", [line.split()[-1] for line in told if line.startswith("deliver ")], bodies)


def is_bound(port):
    """Whether a socket of this system listens at a port of 127.0.0.1."""
    with open("/proc/net/udp", encoding="ascii") as file:
        return f" 0100007F:{port:04X} " in file.read()


def of_all_sizes(made):
    """A node that is sent datagrams of no byte, of some and of the most, by one that is no peer."""
    port, = free_ports(1)
    made.put("a.plan", plan([("127.0.0.1", port)]))
    words = [PROGRAM, "node", "a.layers", "a.plan", "--turns", "800", "--me", "0"]
    begun = time.monotonic()
    with subprocess.Popen(words, cwd=made.folder, stdin=subprocess.DEVNULL, stdout=subprocess.PIPE, stderr=subprocess.PIPE) as node:
        while node.poll() is None and not is_bound(port):
            time.sleep(0.001)
        with socket.socket(socket.AF_INET, socket.SOCK_DGRAM) as other:
            for datagram in SIZES:
                other.sendto(datagram, ("127.0.0.1", port))
        journal, said = node.communicate(timeout=60)
    lasted = 1000 * (time.monotonic() - begun)
    lines = journal.decode().splitlines()
    raw = [line for line in lines if line.startswith("> raw ")]
    made.compare("datagrams of all sizes", (node.returncode, raw, said), (0, [f"> raw 0 {datagram.hex() or '-'}" for datagram in SIZES], b""))
    ticks = [int(line.split()[-1]) for line in lines if line.startswith("> tick ")]
    made.compare("a clock that goes on", ticks == sorted(ticks) and 0 <= ticks[0] < ticks[-1] <= lasted, True)


def main():
    with runs("sockets") as made:
        made.put("a.layers", LAYERS)
        each_its_own(made)
        in_order(made)
        of_all_sizes(made)


if __name__ == "__main__":
    main()
