#!/usr/bin/env python3
"""Runs two nodes of one group over the loopback, and puts their journals together by the two lines of docs/LANGUAGE.md.

The script replays to what both wrote but for the numbers of packets, `lost` and `deaf`; both laws hold of the report, and each delivers the other's cast.
"""
import os
import random
import re
import socket
import subprocess
import sys
import tempfile

from tree import TOP

PROGRAM = os.environ["STACKC"]
LAYERS = os.path.join(TOP, "examples", "counter.layers")
FAILED = []


def wants(what, is_so):
    if not is_so:
        FAILED.append(what)
        print(f"not so: {what}")


def is_free(port):
    """Whether nothing listens on a port, over UDP and TCP."""
    with socket.socket(socket.AF_INET, socket.SOCK_DGRAM) as datagrams, socket.socket(socket.AF_INET, socket.SOCK_STREAM) as streams:
        try:
            datagrams.bind(("127.0.0.1", port))
            streams.bind(("127.0.0.1", port))
        except OSError:
            return False
    return True


def free_ports(count):
    """Ports on which nothing listens, lower than those that the system gives to sockets that ask for none."""
    ports = []
    while len(ports) < count:
        port = random.randrange(20_000, 32_000)
        if port not in ports and is_free(port):
            ports.append(port)
    return ports


def node(folder, me, turns, *more):
    with open(os.path.join(folder, f"{me}.journal"), "wb") as out:
        words = [PROGRAM, "node", LAYERS, "pair.plan", "--turns", str(turns), "--me", str(me), *more]
        return subprocess.Popen(words, cwd=folder, stdin=subprocess.DEVNULL, stdout=out, stderr=subprocess.DEVNULL)


def joining_lines():
    """The two lines of the page."""
    with open(os.path.join(TOP, "docs", "LANGUAGE.md"), encoding="utf-8") as file:
        found = re.findall(r"^    (.* >pair\.(?:script|report))$", file.read(), re.M)
    wants("docs/LANGUAGE.md has the two lines", len(found) == 2)
    return found


def plain(text, skipped):
    """Lines without the numbers of packets, and without those that one side alone has."""
    kept = [line for line in text.splitlines() if not line.startswith(skipped)]
    return [re.sub(r"^packet \d+ ", "packet ", line) for line in kept]


def read(folder, name):
    with open(os.path.join(folder, name), encoding="ascii") as file:
        return file.read()


def joined(folder):
    """Two nodes, and what becomes of their journals."""
    runs = [node(folder, me, 600, "--patience", "1000") for me in (0, 1)]
    wants("both nodes end with 0", [run.wait(120) for run in runs] == [0, 0])
    for line in joining_lines():
        subprocess.run(["bash", "-c", line], cwd=folder, check=True)
    both = read(folder, "0.journal") + read(folder, "1.journal")
    wants("each delivers the other's cast", {"deliver 0 cast 1 796f", "deliver 1 cast 0 6869"} <= set(both.splitlines()))
    for mode in ("bypass", "layered"):
        report = subprocess.run([PROGRAM, "replay", LAYERS, "pair.script", "--run", mode], cwd=folder, stdout=subprocess.PIPE, check=False)
        wants(f"the script replays by {mode} to what both wrote", plain(report.stdout.decode(), ("end ",)) == plain(both, ("end ", "> ", "lost ", "deaf ")))
    for law in ("sender", "same"):
        ran = subprocess.run([PROGRAM, "audit", "pair.report", "--law", law], cwd=folder, stdout=subprocess.PIPE, check=False)
        wants(f"the law {law} holds", (ran.returncode, ran.stdout) == (0, b"holds\n"))


def main():
    with tempfile.TemporaryDirectory(prefix="stackc-") as folder:
        one, two = free_ports(2)
        with open(os.path.join(folder, "pair.plan"), "w", encoding="ascii") as file:
            file.write(f"# Two members.\ngroup 7 stamp 1 members 2\npeer 0 127.0.0.1:{one}\npeer 1 127.0.0.1:{two}\nturn 200 cast 0 6869\nturn 300 cast 1 796f\n")
        joined(folder)
    print(f"journals: {len(FAILED)} not so")
    sys.exit(bool(FAILED))


if __name__ == "__main__":
    main()
