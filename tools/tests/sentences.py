#!/usr/bin/env python3
"""Looks whether each refusal of random layer files, scripts, plans and reports by the program in $STACKC is told in a sentence, whatever its words.

    tools/tests/sentences.py [TEXTS] [SEED]
"""
import collections
import os
import random
import subprocess
import sys
import tempfile
import traceback

TOP = os.path.dirname(os.path.dirname(os.path.dirname(os.path.abspath(__file__))))
sys.path[:0] = [os.path.join(TOP, "tools"), os.path.join(TOP, "diff")]
import check  # noqa: E402
from meaning import meaning  # noqa: E402

LINES = ["cast 0 6869", "send 1 2 -", "leave 0", "tick 2 100", "give 1 1", "raw 0 e5", "state 1", "turn 1 cast 0 61", "turn 0 leave 3", "peer 0 127.0.0.1:1", "peer 2 h:1",
         "group 1 stamp 1 members 3", "# x", "", "cast 0 hello", " cast", "cast  0 6", "tick 0 07", "> tick 0 1", "Cast 0 61", "cast 9 61", "state", "peer", "turn", "turn 1",
         "turn 1 cast", "deliver 0 cast 1 61", "end 3", "visits 9", "view 0 1 2", "out 0", "out 40", "deliver 0", "packet", "\r", "cast 0 61\r", "\xe9", "- -"]


def random_file(r):
    tokens = check.TOKEN.findall(check.pick_file(r))
    for _ in range(r.randrange(1, 3)):
        tokens = [token for token in check.change(r, tokens) if token]
    return "".join(tokens).encode("latin-1")


def random_lines(r, first):
    return "\n".join([first] * (r.random() < 0.8) + [r.choice(LINES) for _ in range(r.randrange(1, 6))]).encode("latin-1")


def refusals(r):
    """A random text for each job that reads one, with the words of the job after the names of files."""
    plan = "group 1 stamp 1 members 2\n" + "peer 0 127.0.0.1:47110\n" * (r.random() < 0.8) + "peer 1 127.0.0.1:47111" * (r.random() < 0.8)
    yield random_file(r), ["check", "text"]
    yield random_lines(r, "group 1 stamp 1 members 3"), ["replay", "good.layers", "text"]
    yield random_lines(r, plan), ["node", "good.layers", "text", "--turns", "0", "--me", r.choice("0127")]
    yield random_lines(r, "deliver 0 cast 0 61\nend 3"), ["audit", "text", "--law", "sender"]


def main():
    count = int(sys.argv[1]) if len(sys.argv) > 1 else 60
    r, seen, failed = random.Random(int(sys.argv[2]) if len(sys.argv) > 2 else 1), collections.Counter(), 0
    folder = tempfile.TemporaryDirectory(prefix="stackc-")
    os.chdir(folder.name)
    with open("good.layers", "wb") as file:
        file.write(b"stack { bottom; }\n")
    for text, words in (refusal for _ in range(count) for refusal in refusals(r)):
        with open("text", "wb") as file:
            file.write(text)
        ran = subprocess.run([os.environ["STACKC"], *words], stdin=subprocess.DEVNULL, stdout=subprocess.PIPE, stderr=subprocess.PIPE, check=False)
        said = ran.stderr.decode().strip()
        try:
            told = not said or meaning(ran.returncode, said, words)
        except Exception:
            told = traceback.print_exc()
        seen[" ".join([words[0], *said.split()[:2]])] += 1
        if not told:
            failed += 1
            print(f"nothing is told of {words[0]}: {said} of {text}")
    print(f"sentences: {sum(seen.values())} texts, {failed} refusals of which nothing is told; " + ", ".join(f"{cause} {number}" for cause, number in seen.most_common()))
    sys.exit(failed != 0)


if __name__ == "__main__":
    main()
