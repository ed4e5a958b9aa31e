#!/usr/bin/env python3
"""Runs the program itself to each of its statuses, and compares what it writes and what it says; over streams that fail after each of their bytes, too."""
import os
import resource
import socket
import subprocess
import sys
import tempfile

from tree import TOP

PROGRAM = os.environ["STACKC"]
# What `pack` writes of the counter layer.
TRACES = b"""bypasses 1
entry cast case 1
bind t.0 = peer
bind t.1 = 0.k
set 0.k = (0.k + 1)
out down Cast(t.0,body) cnt.num(t.1)
entry send case 1
out down Send(peer,body) cnt.none()
entry plan 0 case 1
check (in.0 == 0.e[peer])
set 0.e[peer] = (in.0 + 1)
bind t.0 = peer
out up Cast(t.0,body)
entry plan 1 case 1
out up Send(peer,body)
end
"""
REPORT = b"packet 1 0 all cnt.num(0) 6869\ndeliver 1 cast 0 6869\nend 2\n"
WITH = ["replay", "counter.layers", "hi.script", "--with"]
FILES = {
    "counter.layers": None,
    "hi.script": None,
    "bad.layers": b"stack { absent; }\n",
    "bad.script": b"group 1 stamp 1 members 1\ncast 0\n",
    "other.bypasses": b"bypasses 2\nend\n",
    "none.bypasses": b"",
    "large.bypasses": b"bypasses 1\n" + b"#" * 33_554_432,
    "counter.bypasses": TRACES,
    "changed.bypasses": TRACES.replace(b"set 0.e[peer] = (in.0 + 1)", b"set 0.e[peer] = (in.0 + 2)"),
    "crossed.report": b"deliver 0 cast 0 61\ndeliver 1 cast 1 62\ndeliver 1 cast 0 61\nend 3\n",
}
# The words, the status, the output and what is said.
CASES = [
    (["check", "counter.layers"], 0, b"accepted 1\n", b""),
    (["replay", "counter.layers", "hi.script"], 0, REPORT, b""),
    (["pack", "counter.layers"], 0, TRACES, b""),
    ([*WITH, "counter.bypasses"], 0, REPORT, b""),
    (["check", "bad.layers"], 1, b"", b"file: unknown 1:9\n"),
    (["audit", "counter.layers", "--law", "same"], 1, b"", b"file: line 1\n"),
    (["replay", b"counter\xff.layers", "hi.script"], 2, b"", b"words: refused\n"),
    (["check"], 2, b"", b"words: refused\n"),
    (["replay", "counter.layers", "bad.script"], 3, b"", b"script: line 2\n"),
    (["check", "none.layers"], 4, b"", b"read fault\n"),
    (["check", "."], 4, b"", b"read fault\n"),
    ([*WITH, "absent.bypasses"], 4, b"", b"read fault\n"),
    (["replay", "counter.layers", "bad.script", "--with", "other.bypasses"], 3, b"", b"script: line 2\n"),
    (["audit", "crossed.report", "--law", "total"], 8, b"breach 1 2\n", b"breach\n"),
    ([*WITH, "large.bypasses"], 9, b"", b"bypass: too large\n"),
    ([*WITH, "none.bypasses"], 9, b"", b"bypass: line 1\n"),
    ([*WITH, "other.bypasses"], 9, b"", b"bypass: line 1\n"),
    ([*WITH, "changed.bypasses"], 9, b"", b"bypass: entry plan 0 case 1 op 1\n"),
    ([*WITH, "changed.bypasses", "--run", "layered"], 2, b"", b"words: refused\n"),
    # A folder is opened, and then its read fails: at each file of a job.
    *((words, 4, b"", b"read fault\n") for words in (
        ["replay", ".", "hi.script"],
        ["replay", "counter.layers", "."],
        ["replay", ".", "hi.script", "--with", "counter.bypasses"],
        ["replay", "counter.layers", ".", "--with", "counter.bypasses"],
        [*WITH, "."],
        ["explain", "counter.layers", "."],
        ["audit", ".", "--law", "total"],
        ["node", ".", "none.plan", "--turns", "1", "--me", "0"],
        ["node", "counter.layers", ".", "--turns", "1", "--me", "0"],
    )),
]
# A cast of 8,192 bytes, and a script of five: more than the program gathers before it hands on.
LONG = "61" * 8192
LONG_REPORT = b"".join(b"packet %d 0 all cnt.num(%d) %s\n" % (k + 1, k, LONG.encode()) for k in range(5)) + b"end 5\n"


def run(words, folder, out=subprocess.PIPE, **how):
    ran = subprocess.run([PROGRAM, *words], cwd=folder, stdin=subprocess.DEVNULL, stdout=out, stderr=how.pop("err", subprocess.PIPE), timeout=60, **how)
    return ran.returncode, ran.stdout, ran.stderr


def within(most, kind=resource.RLIMIT_FSIZE):
    """How a run is begun whose files take this many bytes and no more, or which has this much memory; signals that come then are ignored, as they are here."""
    return {"preexec_fn": lambda: resource.setrlimit(kind, (most, most)), "restore_signals": False}


def limited(words, folder, most, fails="out"):
    """A run over a file that takes this many bytes, as its output or as its standard error."""
    path = os.path.join(folder, "taken")
    with open(path, "wb") as file:
        status, out, said = run(words, folder, **{fails: file}, **within(most))
    with open(path, "rb") as file:
        taken = file.read()
    return (status, taken, said) if fails == "out" else (status, out, taken)


def streams(folder):
    """Runs over streams that take some bytes and then none: their words, what is wanted of each, and what it left."""
    replay = ["replay", "counter.layers", "hi.script"]
    for most in range(len(REPORT) + 1):
        wanted = (5, REPORT[:most], b"write fault\n") if most < len(REPORT) else (0, REPORT, b"")
        yield [*replay, "into", most], wanted, limited(replay, folder, most)
    with open(os.path.join(folder, "long.script"), "w", encoding="ascii") as file:
        file.write("group 1 stamp 7 members 3\n" + f"cast 0 {LONG}\n" * 5)
    replay = ["replay", "counter.layers", "long.script", "--run", "layered"]
    for most in (0, 65_535, 65_536, 70_000, len(LONG_REPORT) - 1):
        yield [*replay, "into", most], (5, LONG_REPORT[:most], b"write fault\n"), limited(replay, folder, most)
    yield replay, (0, LONG_REPORT, b""), run(replay, folder)
    audit = ["audit", "crossed.report", "--law", "total"]
    yield [*audit, "into 6"], (5, b"breach", b"write fault\n"), limited(audit, folder, 6)
    for words, left in ((["check", "bad.layers"], (1, b"", b"file: unknown 1:9\n")), (["check", "none.layers"], (4, b"", b"read fault\n"))):
        yield [*words, "into 0"], left, limited(words, folder, 0)
    yield ["check", "none.layers", "said into 3"], (4, b"", b"rea"), limited(["check", "none.layers"], folder, 3, "err")
    yield ["check", "counter.layers", "closed"], (5, None, b"write fault\n"), closed(["check", "counter.layers"], folder)
    yield ["check", "counter.layers", "to nobody"], (5, None, b"write fault\n"), to_nobody(["check", "counter.layers"], folder)


def closed(words, folder):
    """A run without an output."""
    return run(words, folder, None, preexec_fn=lambda: os.close(1))


def to_nobody(words, folder):
    """A run whose output is a pipe that nobody reads, where this is told by the write."""
    read, write = os.pipe()
    os.close(read)
    with open(write, "wb") as pipe:
        return run(words, folder, pipe, restore_signals=False)


def without_memory(folder):
    """A group of 32 members where there is memory for some."""
    with open(os.path.join(folder, "all.script"), "w", encoding="ascii") as file:
        file.write("group 1 stamp 7 members 32\n")
    words = ["replay", "counter.layers", "all.script"]
    yield words, (0, b"end 0\n", b""), run(words, folder)
    yield [*words, "in 64 MB"], (7, b"", b"no memory\n"), run(words, folder, **within(64_000_000, resource.RLIMIT_AS))


def busy_plan(folder):
    """A plan whose only member's address is taken, and the socket that takes it."""
    taken = socket.socket(socket.AF_INET, socket.SOCK_DGRAM)
    taken.bind(("127.0.0.1", 0))
    with open(os.path.join(folder, "busy.plan"), "w", encoding="ascii") as file:
        file.write(f"group 1 stamp 1 members 1\npeer 0 127.0.0.1:{taken.getsockname()[1]}\n")
    return taken


def main():
    wrong = 0
    with tempfile.TemporaryDirectory(prefix="stackc-") as folder:
        for name, text in FILES.items():
            if text is None:
                with open(os.path.join(TOP, "examples", "hi.script" if name.endswith(".script") else "counter.layers"), "rb") as file:
                    text = file.read()
            with open(os.path.join(folder, name), "wb") as file:
                file.write(text)
        tried = [(words, (status, out, said), run(words, folder)) for words, status, out, said in CASES]
        with open("/dev/full", "wb") as full:
            words = ["check", "counter.layers"]
            tried.append((words, (5, None, b"write fault\n"), run(words, folder, full)))
        with busy_plan(folder):
            words = ["node", "counter.layers", "busy.plan", "--turns", "1", "--me", "0"]
            tried.append((words, (6, b"", b"link fault\n"), run(words, folder)))
        tried += [*streams(folder), *without_memory(folder)]
        for words, wanted, got in tried:
            if wanted != got:
                wrong += 1
                print(f"{words}: {got}, and not {wanted}")
    print(f"statuses: {len(tried)} runs, {wrong} not as wanted")
    sys.exit(wrong != 0)


if __name__ == "__main__":
    main()
