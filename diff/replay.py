#!/usr/bin/env python3
"""Compares the program's `replay` and `load` with the independent reading, on random files, scripts and seeds.

Run it from any folder: diff/replay.py [FILES] [COUNT] [SEED] [WORD..]. FILES is `library`, for random stacks of the library's layers,
`random`, for random layer files that are accepted, made as those of diff/check.py, or `counter`, for the counter layer. Of each file a random
script is replayed in both modes, with `--events`, `--wire` and `--count` now and then, or with exactly the further words; and the lines of a
generated script are counted in both. What is written, what is said and the status must be those of the reading. It prints each difference.
"""
import os
import random
import subprocess
import sys
import tempfile

sys.path.insert(0, os.path.dirname(os.path.abspath(__file__)))
import check
import reading
import running

TOP = os.path.dirname(os.path.dirname(os.path.abspath(__file__)))
PROGRAM = os.environ.get("STACKC", f"{TOP}/crates/stackc/out/stackc")
MODES = ("layered", "bypass")

# Heavier files are passed over, since the reading runs them slowly.
MOST_WEIGHT = 600


def random_file(r):
    """A file that is accepted and not heavy: layers of the library and small ones, with a few changes of tokens."""
    while True:
        tokens = check.TOKEN.findall(check.pick_file(r))
        for _ in range(r.choice((0, 1, 1, 2))):
            tokens = [t for t in check.change(r, tokens) if t]
        text = "".join(tokens).encode("latin-1")
        try:
            if reading.weight_of(reading.stack_of(text)) <= MOST_WEIGHT:
                return text
        except reading.Refused:
            pass


def file_of(r, files):
    if files == "counter":
        with open(f"{TOP}/examples/counter.layers", "rb") as file:
            return file.read()
    if files == "random":
        return random_file(r)
    names = [word for word in reading.library() if r.random() < 0.4] or ["bottom"]
    return ("stack { " + "".join(f"{word}; " for word in names) + "}\n").encode()


def script_of(r):
    members = r.randint(1, 6)
    events = running.generate(r.randrange(2**32), r.randint(0, 60), members, r.random() < 0.5)
    for _ in range(r.randint(0, 3)):
        events.insert(r.randint(0, len(events)), ("leave", r.randrange(members)))
    for _ in range(r.randint(0, 5)):
        events.insert(r.randint(0, len(events)), ("state", r.randrange(members)))
    lines = ["group 1 stamp 1 members %d" % members] + [running.line_of(e) for e in events]
    if r.random() < 0.1:
        lines.insert(r.randint(0, len(lines)), r.choice(("", "# a note", "cast 0 6", "cast 40 61", "give 1", "state 00", " ")))
    return ("\n".join(lines) + r.choice(("\n", ""))).encode()


def answer(words):
    ran = subprocess.run([PROGRAM, *words], stdout=subprocess.PIPE, stderr=subprocess.PIPE, check=False)
    return ran.stdout.decode(), ran.stderr.decode().strip(), ran.returncode


def replays(r, paths, texts, given):
    """In each mode the words of a replay, and what the reading says of it."""
    words = given or [word for word in ("--events", "--wire", "--count") if r.random() < 0.4]
    for mode in MODES:
        wanted = running.replay(*texts, mode, "--wire" in words, "--count" in words, "--events" in words)
        yield ["replay", *paths, "--run", mode, *words], wanted


def loads(r, paths, texts):
    """In each mode the words of a load, and what the reading says of it."""
    seed, events, members, raw = r.randrange(2**32), r.randint(0, 200), r.randint(1, 6), r.random() < 0.5
    words = ["load", paths[0], "--seed", str(seed), "--events", str(events), "--members", str(members), *["--raw"] * raw]
    for mode in MODES:
        yield [*words, "--run", mode], running.load(texts[0], seed, events, members, raw, mode)


def kept(name, texts):
    """Keeps the files of a difference, and answers where."""
    path = os.path.join(tempfile.gettempdir(), name)
    for ending, text in zip((".layers", ".script"), texts):
        with open(path + ending, "wb") as file:
            file.write(text)
    return path


def main():
    files = sys.argv[1] if len(sys.argv) > 1 else "library"
    count = int(sys.argv[2]) if len(sys.argv) > 2 else 500
    seed = int(sys.argv[3]) if len(sys.argv) > 3 else 1
    given = sys.argv[4:]
    r, differences = random.Random(seed), 0
    with tempfile.TemporaryDirectory() as folder:
        paths = [os.path.join(folder, name) for name in ("random.layers", "random.script")]
        for number in range(count):
            texts = [file_of(r, files), script_of(r)]
            for path, text in zip(paths, texts):
                with open(path, "wb") as file:
                    file.write(text)
            for words, wanted in (*replays(r, paths, texts, given), *loads(r, paths, texts)):
                got = answer(words)
                if got != wanted:
                    differences += 1
                    place = kept(f"differs-{seed}-{number}", texts)
                    print(f"{place}, {' '.join(words)}: the program answers {got}, the reading {wanted}"[:2000])
    print(f"{count} scripts and as many loads, in both modes, {differences} differences")
    sys.exit(1 if differences else 0)


if __name__ == "__main__":
    main()
