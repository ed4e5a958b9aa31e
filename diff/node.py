#!/usr/bin/env python3
"""Runs nodes over UDP on this machine, and replays their journals.

Run it from any folder: diff/node.py [FILES] [COUNT] [SEED]. FILES is as in diff/replay.py. Of each file a random plan of one to six members is run,
all of them in one process or parted between two, each in either mode. Of what each process wrote, the lines after `> ` are its journal; with the plan's first
line in front they are replayed, by the program in both modes and by the independent reading. All must write what the node wrote besides, but for its lines
`lost` and `deaf`. With two processes each delivers what the other cast, now and then: how many deliveries there were is printed.
"""
import os
import random
import socket
import subprocess
import sys
import tempfile

sys.path.insert(0, os.path.dirname(os.path.abspath(__file__)))
import replay
import running


def free_ports(count):
    sockets = [socket.socket(socket.AF_INET, socket.SOCK_DGRAM) for _ in range(count)]
    for one in sockets:
        one.bind(("127.0.0.1", 0))
    ports = [one.getsockname()[1] for one in sockets]
    for one in sockets:
        one.close()
    return ports


def plan_of(r, members, turns):
    group = f"group {r.randrange(9)} stamp {r.randrange(9)} members {members}\n"
    peers = "".join(f"peer {m} 127.0.0.1:{port}\n" for m, port in enumerate(free_ports(members)))
    lines = []
    for turn in sorted(r.randrange(turns) for _ in range(r.randint(0, 12))):
        member = r.randrange(members)
        body = running.hexed(bytes(r.randrange(256) for _ in range(r.choice((0, 1, 2, 8)))))
        lines.append(f"turn {turn} " + r.choice((f"cast {member} {body}", f"cast {member} {body}", f"send {member} {r.randrange(members)} {body}", f"leave {member}")))
    return group, group + peers + "".join(line + "\n" for line in lines)


def parts_of(r, members):
    ids = list(range(members))
    if members == 1 or r.random() < 0.5:
        return [ids]
    mine = sorted(r.sample(ids, r.randint(1, members - 1)))
    return [mine, [m for m in ids if m not in mine]]


def journal(written):
    """The events of a journal, as a script has them, and the lines of its report."""
    lines = written.decode().splitlines()
    events = [line[2:] for line in lines if line.startswith("> ")]
    report = [line for line in lines if not line.startswith(("> ", "lost ", "deaf "))]
    return events, report


def node(r, room, file, name):
    members, turns = r.randint(1, 6), r.randint(5, 60)
    group, plan = plan_of(r, members, turns)
    with open(f"{room}/plan", "w", encoding="utf-8") as out:
        out.write(plan)
    words = [[replay.PROGRAM, "node", name, f"{room}/plan", "--turns", str(turns), "--me", ",".join(map(str, me)), "--patience", "1000", "--run", r.choice(replay.MODES)]
             for me in parts_of(r, members)]
    running_ones = [subprocess.Popen(one, stdout=subprocess.PIPE, stderr=subprocess.PIPE) for one in words]
    wrong = delivered = 0
    for one, ran in zip(words, running_ones):
        written, said = ran.communicate()
        if ran.returncode != 0:
            print(f"{one}: status {ran.returncode}, {said!r}\n{plan}")
            wrong += 1
            continue
        events, report = journal(written)
        delivered += sum(line.startswith("deliver ") for line in report)
        script = (group + "".join(event + "\n" for event in events)).encode()
        with open(f"{room}/script", "wb") as out:
            out.write(script)
        again = [subprocess.run([replay.PROGRAM, "replay", name, f"{room}/script", "--run", mode], stdout=subprocess.PIPE, check=False).stdout.decode()
                 for mode in replay.MODES]
        read = running.replay(file, script)[0]
        for other, what in (*zip(again, ("layered replay", "replay by bypasses")), (read, "reading")):
            if other.splitlines() != report:
                print(f"{one}: the {what} of its journal differs\n{plan}")
                wrong += 1
    return wrong, delivered


def main():
    files = sys.argv[1] if len(sys.argv) > 1 else "library"
    count = int(sys.argv[2]) if len(sys.argv) > 2 else 100
    r = random.Random(int(sys.argv[3]) if len(sys.argv) > 3 else 0)
    wrong = delivered = 0
    with tempfile.TemporaryDirectory() as room:
        for _ in range(count):
            file = replay.file_of(r, files)
            with open(f"{room}/file", "wb") as out:
                out.write(file)
            w, d = node(r, room, file, f"{room}/file")
            wrong += w
            delivered += d
    print(f"{count} nodes, {delivered} deliveries, {wrong} differences")
    sys.exit(1 if wrong else 0)


if __name__ == "__main__":
    main()
