#!/usr/bin/env python3
"""Makes reports of long runs, one for each way to cost an auditor much, and times a program that audits them.

Run it from any folder: bench/audit.py BYTES PROGRAM WORD..; among the words, PATH stands for the report's path. With a
first word --only=NAME it makes that report alone. It prints the processor time and the most memory for half as many bytes
and for all of them, so that one can see how they grow. The reports:

ordinary    32 members all deliver the same bodies in the same order, many of them alike, and the view changes often
lone        one member goes again and again from a view to the same view, with nothing in between
turns       32 members go again and again from a view to the same view, each time with the same few casts
late        one member does so very often, each time with other casts, and another does so once, at the end
gap         two members do so very often with one cast, which the last of them lacks
bodies      two members deliver very many different bodies in one view, in the same order
alike       two members deliver the same body very many times in one view
names       one member goes through very many views, of which each is another
"""
import itertools
import os
import resource
import subprocess
import sys
import tempfile

MEMBERS = 32
ROUNDS_IN_A_VIEW = 8


def ordinary():
    for ltime in itertools.count():
        for place in range(ROUNDS_IN_A_VIEW):
            body = "00" * 8 if place % 2 else f"{ltime:08x}{place:08x}"
            for member in range(MEMBERS):
                yield f"deliver {member} cast {place % MEMBERS} {body}\n"
        for member in range(MEMBERS):
            yield f"view {member} {ltime + 1} 4294967295\n"


def lone():
    while True:
        yield "view 0 1 3\n"


def turns():
    while True:
        for member in range(MEMBERS):
            yield f"deliver {member} cast 0 61\ndeliver {member} cast 1 -\nview {member} 1 3\n"


def late():
    for number in itertools.count():
        yield f"deliver 0 cast 0 {number:08x}\nview 0 1 3\n"


def late_end():
    yield "view 1 1 3\nview 1 1 3\n"


def gap():
    yield "view 0 1 3\nview 1 1 3\n"
    while True:
        yield "deliver 0 cast 0 61\nview 0 1 3\ndeliver 1 cast 0 61\nview 1 1 3\n"


def gap_end():
    yield "view 0 1 3\n"


def bodies():
    for number in itertools.count():
        yield f"deliver 0 cast 0 {number:08x}\ndeliver 1 cast 0 {number:08x}\n"


def alike():
    while True:
        yield "deliver 0 cast 0 -\ndeliver 1 cast 0 -\n"


def both_end():
    yield "view 0 1 3\nview 1 1 3\n"


def names():
    for number in itertools.count():
        yield f"view 0 {number % 4294967296} 3\n"


REPORTS = {
    "ordinary": (ordinary, None),
    "lone": (lone, None),
    "turns": (turns, None),
    "late": (late, late_end),
    "gap": (gap, gap_end),
    "bodies": (bodies, both_end),
    "alike": (alike, both_end),
    "names": (names, None),
}


def write_report(path, name, most):
    lines, end = REPORTS[name]
    with open(path, "w", encoding="ascii") as file:
        size = 0
        for text in lines():
            file.write(text)
            size += len(text)
            if size >= most - 1_000:
                break
        file.write("".join(end()) if end else "")
        file.write("end 0\n")
    return os.path.getsize(path)


def main():
    words = sys.argv[1:]
    names_wanted = list(REPORTS)
    if words and words[0].startswith("--only="):
        names_wanted = [words.pop(0).removeprefix("--only=")]
    most, words = int(words[0]), words[1:]
    with tempfile.TemporaryDirectory() as folder:
        for name in names_wanted:
            for size in (most // 2, most):
                path = os.path.join(folder, f"{name}.report")
                written = write_report(path, name, size)
                # a process of its own, since the most memory is told of all that have ended
                timed = subprocess.run(
                    [sys.executable, __file__, "--timed", path] + words, stdout=subprocess.PIPE, check=True
                )
                print(f"{name}, {written} bytes: {timed.stdout.decode().strip()}", flush=True)
                os.remove(path)


def run_timed(path, words):
    ran = subprocess.run([path if word == "PATH" else word for word in words], stdout=subprocess.PIPE, check=False)
    used = resource.getrusage(resource.RUSAGE_CHILDREN)
    said = ran.stdout.decode().strip() or f"status {ran.returncode}"
    print(f"{used.ru_utime + used.ru_stime:.2f} s of processor time, {used.ru_maxrss // 1024} MiB, {said}")


if sys.argv[1:2] == ["--timed"]:
    run_timed(sys.argv[2], sys.argv[3:])
else:
    main()
