#!/usr/bin/env python3
"""Compares the bounded checks of `stackcheck` with an independent count of the scripts of small families.

Run it from any folder: diff/families.py [COUNT] [SEED], or diff/families.py count FILE ACTS LAW EVENTS REPEATS for the counts of one family alone.
Of random families, over example files and random stacks of the library's layers, the reading plays each script from its start, asks of each event that is due
whether its member takes it, and judges each report as bench/audit_oracle.py does. Where all keep the law the program's line, with its number of scripts, must be
the reading's; else what the program writes must be a script that breaks it by the reading, of as few events as the shortest one. It prints each difference.
"""
import os
import random
import subprocess
import sys
import tempfile

TOP = os.path.dirname(os.path.dirname(os.path.abspath(__file__)))
sys.path[:0] = [os.path.dirname(os.path.abspath(__file__)), os.path.join(TOP, "bench")]
import audit_oracle
import reading
import replay
import running

PROGRAM = os.environ.get("STACKCHECK", f"{TOP}/crates/stackcheck/out/stackcheck")
LAWS = ("sender", "total", "same")
FILES = ("counter.layers", "order.layers")
KINDS = ("cast", "send", "leave", "tick")
# Families with more scripts aren't played to their end.
MOST_SCRIPTS = 1500


class TooMany(Exception):
    """A family has more scripts than are played."""


def played(file_text, first, events):
    """The lines of each event of a script, and how many packets were sent."""
    line = "group %d stamp %d members %d" % first
    world, _ = running.world_of(file_text, line.encode())
    return [world.event(event) for event in events], len(world.packets)


def is_taken(lines):
    return not any(line.startswith(("refused ", "absent ")) for line in lines)


def keeps(lines_of_events, law):
    lines = [line for lines in lines_of_events for line in lines]
    return audit_oracle.judged("\n".join([*lines, f"end {len(lines_of_events)}"]) + "\n")[LAWS.index(law)] == "holds"


def due(first, acts, repeats, past, sent):
    """The events that are due: of each kind of each member the next of its acts, and each packet that a member didn't get too often."""
    for member in range(first[2]):
        for kind in KINDS:
            own = [act for act in acts if act[:2] == (kind, member)]
            done = sum(event[:2] == (kind, member) for event in past)
            yield from own[done:done + 1]
        for packet in range(1, sent + 1):
            if past.count(("give", member, packet)) <= repeats:
                yield ("give", member, packet)


def counts(file_text, first, acts, law, events, repeats):
    """How many scripts of each length the family has, up to the shortest that breaks the law, and whether one does."""
    scripts, found = [[]], []
    for length in range(events + 1):
        found.append(len(scripts))
        longer = []
        for past in scripts:
            lines, sent = played(file_text, first, past)
            if not keeps(lines, law):
                return found, True
            if length < events:
                for event in due(first, acts, repeats, past, sent):
                    if is_taken(played(file_text, first, [*past, event])[0][-1]):
                        longer.append([*past, event])
                if sum(found) + len(longer) > MOST_SCRIPTS:
                    raise TooMany
        scripts = longer
    return found, False


def random_acts(r, members):
    acts = [("cast", r.randrange(members), r.choice((b"a", b"b", b"abc"))) for _ in range(r.randint(1, 3))]
    acts += [("tick", r.randrange(members), r.randint(0, 3000)) for _ in range(r.randint(0, 1))]
    acts += [("send", r.randrange(members), r.randrange(members), b"s") for _ in range(r.randint(0, 1))]
    acts += [("leave", r.randrange(members)) for _ in range(r.choice((0, 0, 1)))]
    r.shuffle(acts)
    return acts


def random_family(r):
    """A stack file, a first line, acts, a law, a bound and repeats."""
    if r.random() < 0.5:
        with open(os.path.join(TOP, "examples", r.choice(FILES)), "rb") as file:
            text = file.read()
    else:
        text = replay.file_of(r, "library")
    members = r.randint(2, 3)
    return text, (r.randint(0, 9), r.randint(0, 9), members), random_acts(r, members), r.choice(LAWS), r.randint(1, 5), r.choice((0, 0, 1))


def checked(folder, family):
    """What the program says of a family."""
    text, first, acts, law, events, repeats = family
    paths = [os.path.join(folder, name) for name in ("a.layers", "an.acts")]
    lines = ["group %d stamp %d members %d" % first, *map(running.line_of, acts)]
    for path, content in zip(paths, (text, "".join(line + "\n" for line in lines).encode())):
        with open(path, "wb") as file:
            file.write(content)
    words = [PROGRAM, *paths, "--law", law, "--events", str(events), "--repeats", str(repeats)]
    ran = subprocess.run(words, stdout=subprocess.PIPE, stderr=subprocess.PIPE, check=False)
    return ran.stdout.decode(), ran.stderr.decode().strip(), ran.returncode


def is_breach(family, length, script):
    """Whether a script is of this many events and breaks the law of a family, by the reading."""
    text, first, _acts, law, _events, _repeats = family
    try:
        its_first, events = running.script_of(script.encode())
    except reading.Refused:
        return False
    lines, _sent = played(text, first, events)
    return its_first == first and len(events) == length and all(map(is_taken, lines)) and not keeps(lines, law)


def agree(family, got):
    """Whether the program's answer is the reading's, and what the reading has."""
    _text, first, _acts, law, events, repeats = family
    found, breaks = counts(*family)
    wanted = f"holds {law} events {events} repeats {repeats} members {first[2]} scripts {sum(found)}\n"
    if breaks:
        out, said, status = got
        return (said, status) == ("breach", 8) and is_breach(family, len(found) - 1, out), f"a breach of {len(found) - 1} events"
    return got == (wanted, "", 0), wanted


def count_one(path, acts_path, law, events, repeats):
    with open(path, "rb") as file, open(acts_path, "rb") as acts_file:
        text, acts_text = file.read(), acts_file.read()
    first, acts = running.script_of(acts_text)
    found, breaks = counts(text, first, acts, law, int(events), int(repeats))
    print(f"{sum(found)} scripts by length {found}, {'breaks' if breaks else 'holds'}")


def main():
    if sys.argv[1:2] == ["count"]:
        count_one(*sys.argv[2:])
        return
    count = int(sys.argv[1]) if len(sys.argv) > 1 else 30
    r = random.Random(int(sys.argv[2]) if len(sys.argv) > 2 else 1)
    compared = passed_over = breaches = differences = 0
    with tempfile.TemporaryDirectory(prefix="families-") as folder:
        while compared < count:
            family = random_family(r)
            try:
                running.world_of(family[0], ("group %d stamp %d members %d" % family[1]).encode())
                same, wanted = agree(family, got := checked(folder, family))
            except (TooMany, reading.Refused):
                passed_over += 1
                continue
            compared += 1
            breaches += wanted.startswith("a breach")
            if not same:
                differences += 1
                print(f"{family}: the program answers {got}, the reading {wanted}"[:3000])
    print(f"{compared} families, {breaches} with a breach, {differences} differences ({passed_over} too large were passed over)")
    sys.exit(1 if differences else 0)


if __name__ == "__main__":
    main()
