#!/usr/bin/env python3
"""Judges random small reports by the three laws, straight from their words, and compares with what `stackc audit` says.

Run it from any folder: bench/audit_oracle.py [COUNT] [SEED]. It builds the program by ./stackc where that is needed, and prints how many
reports were compared, and the first that differ.
"""
import itertools
import os
import random
import subprocess
import sys
import tempfile


def random_report(chance):
    """Lines of a report with few members, peers, bodies and views, so that many pairs of lines have something in common."""
    members = chance.randint(1, 4)
    peers = chance.randint(1, 2)
    bodies = chance.sample(["-", "61", "62", "6161"], chance.randint(1, 3))
    views = [f"{chance.randint(1, 2)} {chance.choice([3, 7])}" for _ in range(chance.randint(1, 3))]
    style = chance.choice(["any", "alike", "alike", "rounds"])
    if style == "rounds":
        stream = [part for _ in range(chance.randint(1, 4)) for part in random_round(chance, peers, bodies, views)]
        streams = [stream] * members
    elif style == "alike":
        stream = [random_part(chance, peers, bodies, views) for _ in range(chance.randint(1, 8))]
        streams = [stream] * members
    else:
        streams = [[random_part(chance, peers, bodies, views) for _ in range(chance.randint(0, 8))] for _ in range(members)]
    lines = merged(chance, streams)
    texts = [said(chance, member, part) for member, part in lines]
    for _ in range(chance.choice([0, 0, 1, 2])):
        change(chance, texts)
    return "\n".join(texts + [f"end {len(texts)}"]) + "\n"


def change(chance, texts):
    """Drops a line, says another twice, or adds one at which no law looks."""
    if not texts:
        return
    at, way = chance.randrange(len(texts)), chance.randrange(3)
    if way == 0:
        texts.pop(at)
    else:
        texts.insert(at, chance.choice(texts) if way == 1 else "timer 0 1")


def random_round(chance, peers, bodies, views):
    casts = [["deliver", chance.randrange(peers), chance.choice(bodies)] for _ in range(chance.randint(0, 4))]
    return casts + [["view", chance.choice(views)]]


def random_part(chance, peers, bodies, views):
    kind = chance.choice(["deliver"] * 6 + ["view"] * 3 + ["out"])
    if kind == "deliver":
        return [kind, chance.randrange(peers), chance.choice(bodies)]
    if kind == "view":
        return [kind, chance.choice(views)]
    return [kind]


def merged(chance, streams):
    left = [(member, list(stream)) for member, stream in enumerate(streams)]
    lines = []
    while any(stream for _, stream in left):
        member, stream = chance.choice([one for one in left if one[1]])
        lines.append((member, stream.pop(0)))
    return lines


def said(chance, member, part):
    if part[0] == "deliver":
        kind = "send" if chance.random() < 0.05 else "cast"
        return f"deliver {member} {kind} {part[1]} {part[2]}"
    return " ".join([part[0], str(member)] + part[1:])


def segments(text):
    """Each segment: the member, its name, its casts (line, peer, body) in order, and the line and the view that ended it."""
    now, all_segments = {}, []

    def of(member):
        if member not in now:
            now[member] = {"member": member, "name": "start", "casts": [], "ended": None, "next": None}
            all_segments.append(now[member])
        return now[member]

    for number, line in enumerate(text.splitlines(), 1):
        words = line.split(" ")
        if words[0] == "deliver" and words[2] == "cast":
            if of(int(words[1])) is not None:
                of(int(words[1]))["casts"].append((number, words[3], words[4]))
        elif words[0] == "view":
            member, name = int(words[1]), (words[2], words[3])
            if of(member) is not None:
                of(member)["ended"], of(member)["next"] = number, name
            now[member] = {"member": member, "name": name, "casts": [], "ended": None, "next": None}
            all_segments.append(now[member])
        elif words[0] == "out":
            of(int(words[1]))
            now[int(words[1])] = None
    return all_segments


def order_breaches(text, by_peer):
    for one, other in itertools.combinations(segments(text), 2):
        if one["member"] == other["member"] or one["name"] != other["name"]:
            continue
        peers = {cast[1] for cast in one["casts"] + other["casts"]} if by_peer else [None]
        for peer in peers:
            mine = [cast for cast in one["casts"] if peer in (None, cast[1])]
            its = [cast for cast in other["casts"] if peer in (None, cast[1])]
            for a, b in zip(mine, its):
                if a[1:] != b[1:]:
                    yield tuple(sorted((a[0], b[0])))


def same_breaches(text):
    for one, other in itertools.permutations(segments(text), 2):
        if one["ended"] is None or other["ended"] is None or one["member"] == other["member"]:
            continue
        if (one["name"], one["next"]) != (other["name"], other["next"]):
            continue
        for content in {cast[1:] for cast in other["casts"]}:
            mine = [cast for cast in one["casts"] if cast[1:] == content]
            its = [cast for cast in other["casts"] if cast[1:] == content]
            if len(its) > len(mine):
                yield (its[len(mine)][0], one["ended"])


def found(breaches):
    least = min(breaches, key=lambda breach: (breach[1], breach[0]), default=None)
    return "holds" if least is None else f"breach {least[0]} {least[1]}"


def judged(text):
    return [found(order_breaches(text, True)), found(order_breaches(text, False)), found(same_breaches(text))]


def answered_by(program, path):
    """What the program says of a report by each law."""
    answers = []
    for law in ("sender", "total", "same"):
        ran = subprocess.run([program, "audit", path, "--law", law], stdout=subprocess.PIPE, stderr=subprocess.PIPE, check=False)
        answers.append(ran.stdout.decode().strip())
        assert ran.returncode == (0 if answers[-1] == "holds" else 8), ran
    return answers


def main():
    count = int(sys.argv[1]) if len(sys.argv) > 1 else 500
    chance = random.Random(int(sys.argv[2]) if len(sys.argv) > 2 else 1)
    top = os.path.dirname(os.path.dirname(os.path.abspath(__file__)))
    subprocess.run([f"{top}/stackc"], stderr=subprocess.DEVNULL, check=False)
    kept, differ = [0, 0, 0], 0
    with tempfile.TemporaryDirectory() as folder:
        path = os.path.join(folder, "report")
        for _ in range(count):
            report = random_report(chance)
            with open(path, "w", encoding="ascii") as file:
                file.write(report)
            expected, answered = judged(report), answered_by(f"{top}/crates/stackc/out/stackc", path)
            kept = [k + (e == "holds") for k, e in zip(kept, expected)]
            if expected != answered:
                differ += 1
                if differ <= 3:
                    print(f"expected {expected}, answered {answered}:\n{report}")
    print(f"{count} reports compared, {differ} differ; {kept[0]}, {kept[1]} and {kept[2]} keep the laws sender, total and same")
    sys.exit(differ != 0)


if __name__ == "__main__":
    main()
