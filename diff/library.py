#!/usr/bin/env python3
"""Compares the library for applications with the program's `replay` and with the independent reading, on random files and scripts.

Run it from any folder: diff/library.py [FILES] [COUNT] [SEED]. FILES is as for diff/replay.py. Of each file the events of a random script are given to members
of the library in this process, in one mode: a packet that the script gives is the datagram that came out of the library. What comes out must be the lines of the
replay's report with its wires, but for headers of packets and for cells, which the library doesn't tell; whom a datagram is for is compared, too. Then each member
by itself writes a log, which the program and the reading judge. It prints each difference. The library is that of the package in bindings/python.
"""
import os
import random
import re
import sys
import tempfile

sys.path.insert(0, os.path.dirname(os.path.abspath(__file__)))
import reading
import replay
import running

sys.path.insert(0, os.path.join(replay.TOP, "bindings", "python"))
from juqhanep import Datagram, Member, Refused, TooManyRows, Unfit, log

SKIPPED = ("state ", "cell ")


class Group:
    """The members of a script, which the library runs."""

    def __init__(self, members):
        self.members, self.datagrams, self.lines = members, [], []

    def close(self):
        for member in self.members:
            member.close()

    def call(self, event):
        """The call of an event."""
        what, me, *rest = event
        member = self.members[me]
        if what == "give":
            return member.receive, [self.datagrams[rest[0] - 1]]
        return {"cast": member.cast, "send": member.send, "leave": member.leave, "tick": member.tick, "raw": member.receive}[what], rest

    def play(self, event):
        """The lines of an event, as a report has them."""
        what, me, *rest = event
        if what == "give" and not 1 <= rest[0] <= len(self.datagrams):
            self.lines.append(f"absent {me} {rest[0]}")
            return
        if what == "state":
            return
        call, given = self.call(event)
        try:
            outputs = call(*given)
        except Unfit as refusal:
            self.lines.append(f"refused {me} {log.refused(refusal)}")
            return
        for output in outputs:
            if isinstance(output, Datagram):
                self.datagrams.append(output.bytes)
            self.lines += log.lines_of(output, me, len(self.datagrams))


def opened(text, script, mode, names=None):
    """The members of a script, which write logs of these names, if there are any; and the script's events."""
    Member.open(text, members=1, me=0).close()    # (a file's fault goes before a script's)
    (group, stamp, members), events = running.script_of(script)
    how = {"members": members, "group": group, "stamp": stamp, "bypass": mode == "bypass"}
    made = [log.open(names % me, text, me=me, **how) if names else Member.open(text, me=me, **how) for me in range(members)]
    return Group(made), events


def library_says(text, script, mode, names=None):
    """The lines of a script's events by the library, or why the file or the script is refused."""
    try:
        group, events = opened(text, script, mode, names)
    except Refused as refused:
        return None, refused.sentence
    except reading.Refused as refused:
        return None, str(refused)
    except TooManyRows:
        return None, "script: rows"
    for event in events:
        group.play(event)
    group.close()
    return [*group.lines, f"end {len(events)}"], ""


def wanted(answer, members):
    """The lines of a replay that the library has, too, with whom packets go to; and what was said."""
    report, said, *_ = answer
    return None if said else [line for line in log.due(report.splitlines(), members) if not line.startswith(SKIPPED)], said


def misjudged(texts, paths, mode):
    """Of the logs of the members of a script, what isn't their replay by the program or by the reading."""
    names = os.path.join(os.path.dirname(paths[0]), "%d")
    library_says(*texts, mode, names)
    judges = {
        "program": lambda layers, script: log.replay(replay.PROGRAM, layers, script, mode),
        "reading": lambda _, script: running.replay(texts[0], script.encode(), mode, True)[0].splitlines(),
    }
    verdicts = [(judge, me, log.judge(paths[0], names % me, judges[judge])) for me in range(members_of(texts[1])) for judge in judges]
    return [f"by the {judge} the log of member {me} {verdict}" for judge, me, verdict in verdicts if not verdict.agrees]


def members_of(script):
    """How many members the group of a script has."""
    return int(re.search(rb"^group \S+ stamp \S+ members (\d+)$", script, re.M)[1])


def compared(texts, paths, mode):
    """What the library answers, and how the program and the reading differ from it."""
    got = library_says(*texts, mode)
    answers = {"program": replay.answer(["replay", *paths, "--run", mode, "--wire"]), "reading": running.replay(*texts, mode, True)}
    others = {name: wanted(answer, members_of(texts[1])) for name, answer in answers.items()}
    return got, [f"the library answers {got}, the {name} {other}" for name, other in others.items() if got != other]


def main():
    files = sys.argv[1] if len(sys.argv) > 1 else "library"
    count = int(sys.argv[2]) if len(sys.argv) > 2 else 500
    seed = int(sys.argv[3]) if len(sys.argv) > 3 else 1
    r, differences, logs = random.Random(seed), 0, 0
    with tempfile.TemporaryDirectory() as folder:
        paths = [os.path.join(folder, name) for name in ("random.layers", "random.script")]
        for number in range(count):
            texts = [replay.file_of(r, files), replay.script_of(r)]
            for path, text in zip(paths, texts):
                with open(path, "wb") as file:
                    file.write(text)
            mode = r.choice(replay.MODES)
            got, found = compared(texts, paths, mode)
            if got[0]:
                logs += members_of(texts[1])
                found += misjudged(texts, paths, mode)
            for difference in found:
                differences += 1
                print(f"{replay.kept(f'library-differs-{seed}-{number}', texts)}, {mode}: {difference}"[:2000])
    print(f"{count} scripts, {logs} logs, {differences} differences")
    sys.exit(differences != 0)


if __name__ == "__main__":
    main()
