#!/usr/bin/env python3
"""Hunts for breaches in layers of the library and the tutorial with one line changed, and in the stacks as they are.

usage: STACKHUNT=PROGRAM STACKC=PROGRAM bench/hunts.py [NAME..]
       STACKHUNT=PROGRAM bench/hunts.py --seeds N

For each it prints the law, the seed, the run that broke it, how many events the run had and how many are left, the time, and whether the script that was written holds: its
report, by the other program, breaks the law, and none of its events can be taken out, be packets numbered anew or not. With `--seeds` it prints how many events are left of
the finds of N seeds, of these layers and of the wrong Paxos of examples/: the median, the least and the most, and the mean time.
"""
import os
import re
import statistics
import subprocess
import sys
import tempfile
import time

TOP = os.path.dirname(os.path.dirname(os.path.abspath(__file__)))
STACKHUNT = os.environ["STACKHUNT"]
STACKC = os.environ.get("STACKC", "")
RUNS = 1000000


def library():
    """The text of each library layer, by name."""
    folder = os.path.join(TOP, "crates", "file_library", "src")
    texts = {}
    for name in ("reliable", "flow", "order", "membership"):
        with open(os.path.join(folder, name + ".rt"), encoding="utf-8") as file:
            for text in re.findall(r'b"(layer .*?\n\}\n)"', file.read(), re.S):
                texts[text.split()[1]] = text
    return texts


def tutorial(name):
    """A file of the tutorial."""
    with open(os.path.join(TOP, "docs", "TUTORIAL.md"), encoding="utf-8") as file:
        return re.search(r"```layers " + re.escape(name) + r"\n(.*?)```", file.read(), re.S).group(1)


LIBRARY = library()
HOME = "layer home {\n  down Cast(p, m) { down Cast(p, m); up Cast(p, m); }\n}\n"

# A layer that puts the next view among the casts, in the one order that `total` gives them: so all that install it have delivered the same before. (Nothing in
# the library's layers holds a view back until casts have come, so each of their stacks that has both breaks the law `same`.)
TURN = """layer turn {
  state int over;
  header view(ranks) ends;
  down Leave(x) { down Cast(me, nothing) with view(((bit(n) - 1) ^ bit(me))); }
  up Cast(o, m) { if (over == 0) { up Cast(o, m); } }
  up Cast(o, m) with view(ranks) { if (over == 0) { set over = 1; up View(ranks); } }
}
"""
OWN = {"turn": TURN}

# What is changed: the layer, which line of those with this text (from 0), the line as it is, as it becomes; the stack, the law, the members and the
# events of a run.
CHANGED = [
    ("early casts aren't put off", "mnak", 0, "if (seq == next[o]) {", "if (seq >= next[o]) {", "bottom; mnak; local;", "sender", 3, 200),
    ("an old cast isn't dropped", "mnak", 0, "if (seq == next[o]) {", "if (seq <= next[o]) {", "bottom; mnak; local;", "sender", 3, 200),
    ("a cast that is sent again isn't dropped where it is old", "mnak", 1, "if (seq == next[o]) {", "if (seq <= next[o]) {", "bottom; mnak; local;", "sender", 3, 200),
    ("an early cast is delivered whether it is due or not", "mnak", 0, "if ((len(early[o]) > 0) and (at(early[o], 0).seq == next[o])) {", "if (len(early[o]) > 0) {",
     "bottom; mnak; local;", "sender", 3, 200),
    ("a cast that isn't kept any more isn't counted", "mnak", 0, "set base = (base + 1);", "", "bottom; mnak(keep = 1); local;", "sender", 3, 200),
    ("the sequence isn't looked at", "total", 0, "if (seq == next) {", "if (seq >= next) {", "bottom; local; total;", "total", 3, 200),
    ("an old cast isn't dropped", "total", 0, "if (seq == next) {", "if (seq <= next) {", "bottom; local; total;", "total", 3, 200),
    ("a cast that was asked for takes no number", "total", 1, "set out = (out + 1);", "", "bottom; local; total;", "total", 3, 200),
    ("pieces are joined in the wrong order", "frag", 0, "((len(parts[o]) - 1) - i)", "i", "bottom; mnak; frag(piece = 1); local;", "sender", 3, 200),
    ("pieces aren't let go", "frag", 0, "each i below 8 max 8 { take parts[o] (q) { } else { } }", "", "bottom; mnak; frag(piece = 1); local;", "sender", 3, 200),
    ("old casts aren't dropped", "fifo.layers", 0, "if (seq == e[o]) {", "if (seq <= e[o]) {", None, "sender", 3, 200),
    ("early casts are delivered", "fifo.layers", 0, "if (s == e[o]) {", "if (s >= e[o]) {", None, "sender", 3, 200),
    ("the number isn't looked at", "home.layers", 0, "if (seq == e[o]) {", "if (seq >= e[o]) {", None, "sender", 3, 200),
    ("an acknowledgement counts twice", "mnak", 0, "take kept (old) { set base = (base + 1); }", "take kept (old) { set base = (base + 2); }",
     "bottom; mnak; collect; stable; local;", "sender", 3, 1000),
    ("the next view is installed before its casts", "total", 0, "if (seq == next) {", "if (seq >= next) {", "bottom; local; total; turn;", "same", 3, 200),
]


def one_changed(text, place, line, other):
    """A text with one of the lines changed that have this in them."""
    parts = text.split(line)
    if len(parts) < place + 2:
        sys.exit(f"no line {place} with {line}")
    return line.join(parts[:place + 1]) + other + line.join(parts[place + 1:])


def with_stack(texts, layer, stack):
    """A file with these texts, the layers of our own that the stack names, but for the one layer, and the stack."""
    own = [text for name, text in OWN.items() if name != layer and f" {name};" in f" {stack}"]
    return "".join([*texts, *own]) + f"stack {{ {stack} }}\n"


def changed_file(layer, place, line, other, stack):
    if stack is None:
        return one_changed(tutorial(layer), place, line, other).replace("stack { fifo; }", HOME + "stack { fifo; home; }")
    return with_stack([one_changed({**LIBRARY, **OWN}[layer], place, line, other)], layer, stack)


def plain_file(layer, stack):
    if stack is None:
        return tutorial(layer).replace("stack { fifo; }", HOME + "stack { fifo; home; }")
    return with_stack([], None, stack)


def put(folder, name, text):
    path = os.path.join(folder, name)
    with open(path, "w", encoding="utf-8") as file:
        file.write(text)
    return path


def hunted(path, law, members, events, seed, runs, seconds=60):
    words = [STACKHUNT, path, "--law", law, "--members", str(members), "--events", str(events), "--runs", str(runs), "--seed", str(seed), "--seconds", str(seconds)]
    began = time.time()
    ran = subprocess.run(words, stdin=subprocess.DEVNULL, stdout=subprocess.PIPE, stderr=subprocess.PIPE, text=True)
    return ran.returncode, ran.stdout, ran.stderr, time.time() - began


def report_of(folder, path, script):
    ran = subprocess.run([STACKC, "replay", path, put(folder, "a.script", script)], stdin=subprocess.DEVNULL, stdout=subprocess.PIPE, text=True)
    return ran.stdout if ran.returncode == 0 else None


def breaks(folder, path, law, script):
    """Whether the report of a script breaks a law, by the program that isn't hunted with."""
    report = report_of(folder, path, script)
    if report is None:
        return False
    return subprocess.run([STACKC, "audit", put(folder, "a.report", report), "--law", law], stdin=subprocess.DEVNULL, stdout=subprocess.DEVNULL, stderr=subprocess.DEVNULL).returncode == 8




def sent_by(folder, path, head, events):
    """How many packets there are after each event."""
    counts = []
    for k in range(len(events) + 1):
        report = report_of(folder, path, "\n".join([head, *events[:k]]) + "\n")
        counts.append(sum(line.startswith("packet ") for line in report.splitlines()))
    return counts


def numbered_anew(events, counts, out):
    """The events without one, with the packets after it numbered anew; those that it sent aren't given."""
    first, after = counts[out] + 1, counts[out + 1] + 1
    left = []
    for k, event in enumerate(events):
        words = event.split()
        if k == out:
            continue
        if words[0] == "give":
            number = int(words[1])
            if first <= number < after:
                continue
            if number >= after:
                number -= after - first
            event = f"give {number} {words[2]}"
        left.append(event)
    return left


def holds(folder, path, law, script):
    """Whether a script breaks its law, and doesn't where an event is taken out."""
    lines = [line for line in script.splitlines() if not line.startswith("#")]
    head, events = lines[0], lines[1:]
    if not breaks(folder, path, law, script):
        return "it doesn't break the law", len(events)
    counts = sent_by(folder, path, head, events)
    for k in range(len(events)):
        for left in (events[:k] + events[k + 1:], numbered_anew(events, counts, k)):
            if breaks(folder, path, law, "\n".join([head, *left]) + "\n"):
                return f"event {k + 1} can be taken out", len(events)
    return "holds", len(events)


def sizes(path, law, members, events, seeds):
    """How many events are left of the finds of so many seeds, and the seconds that each hunt took."""
    found = []
    for seed in range(1, seeds + 1):
        status, script, _said, seconds = hunted(path, law, members, events, 1000 * seed, RUNS)
        if status == 8:
            found.append((sum(not line.startswith("#") for line in script.splitlines()) - 1, seconds))
    return found


def print_sizes(seeds):
    """A table of what is left of the finds of so many seeds."""
    print("| Layer | What is changed | Finds | Median | Least | Most | Seconds |")
    print("|---|---|---|---|---|---|---|")
    with tempfile.TemporaryDirectory(prefix="hunts-") as folder:
        rows = [(what, layer, put(folder, f"{k}.layers", changed_file(layer, place, line, other, stack)), law, members, events)
                for k, (what, layer, place, line, other, stack, law, members, events) in enumerate(CHANGED)]
        rows.append(("a vote that is told of isn't taken over", "paxos-wrong", os.path.join(TOP, "examples", "paxos-wrong.layers"), "total", 3, 150))
        for what, layer, path, law, members, events in rows:
            found = sizes(path, law, members, events, seeds)
            lengths = [length for length, _seconds in found] or [0]
            mean = statistics.mean([seconds for _length, seconds in found] or [0])
            print(f"| {layer} | {what} | {len(found)} | {statistics.median(lengths):g} | {min(lengths)} | {max(lengths)} | {mean:.2f} |", flush=True)


def main():
    if sys.argv[1:2] == ["--seeds"]:
        print_sizes(int(sys.argv[2]))
        return
    with tempfile.TemporaryDirectory(prefix="hunts-") as folder:
        print("| Layer | What is changed | Law | Seed | Run | Events | Left | Seconds | Script | As it is |")
        print("|---|---|---|---|---|---|---|---|---|---|")
        for what, layer, place, line, other, stack, law, members, events in CHANGED:
            if sys.argv[1:] and layer not in sys.argv[1:]:
                continue
            path = put(folder, "changed.layers", changed_file(layer, place, line, other, stack))
            status, script, said, seconds = hunted(path, law, members, events, 1, RUNS)
            plain = hunted(put(folder, "plain.layers", plain_file(layer, stack)), law, members, events, 1, 2000)
            as_it_is = plain[1].splitlines()[0] if plain[1] else plain[2]
            if status == 8:
                run = re.search(r"# run (\d+) of (\d+)", script)
                told, left = holds(folder, path, law, script) if STACKC else ("", sum(not line.startswith("#") for line in script.splitlines()) - 1)
                print(f"| {layer} | {what} | {law} | 1 | {int(run.group(1))} | {run.group(2)} | {left} | {seconds:.2f} | {told} | {as_it_is} |", flush=True)
                if os.environ.get("SHOW"):
                    print(script)
            else:
                print(f"| {layer} | {what} | {law} | 1 | {status} | {script}{said} | | {seconds:.2f} | | {as_it_is} |", flush=True)


if __name__ == "__main__":
    main()
