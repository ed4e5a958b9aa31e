#!/usr/bin/env python3
"""Tries what ./stackc does around the program: its own words, its streams, how it is ended, its completions, and that made files aren't stale."""
import os
import shutil
import signal
import subprocess
import sys
import time

from tree import TOP, apart, at_terminal, tree

sys.path[:0] = [os.path.join(TOP, "tools"), os.path.join(TOP, "diff")]
from meaning import ROWS  # noqa: E402

FAILED = []
PROGRAMS = ("stackc", "layerfmt", "runchart", "stackhunt", "stackcheck")
KIT = """#!/usr/bin/env bash
# In the kit's place: `version` is answered, and all else runs until it is ended.
[ "$1" != version ] || { echo "kit of this test"; exit 0; }
echo $$ >>"$STARTED"
exec sleep 600
"""
REFUSED = [
    ("stackc", ["chek", "a.layers"], "`chek` is no job; is `check` meant?"),
    ("stackc", ["hunt", "a.layers"], "`hunt` is no job; `stackhunt` is a program of its own"),
    ("stackc", ["layerfmt", "a.layers"], "`layerfmt` is no job; it is a program of its own"),
    ("stackc", ["replay", "a.layers"], "SCRIPT is missing: what happens in a group, line by line"),
    ("layerfmt", [], "FILE is missing: a layer file"),
    ("layerfmt", ["a.layers", "b.layers"], "`b.layers` is a word too many"),
    ("runchart", ["a.report", "--from", "4", "--to=3"], "`--from 4` is over `--to 3`: the last line that is drawn isn't before the first"),
    ("runchart", ["a.report", "--law=total"], "there is no option `--law`"),
    ("stackhunt", ["a.layers", "--law", "fifo"], "`--members N` is missing: how many members a group has"),
    ("stackhunt", "a.layers --law total --members 33 --events 1 --runs 1 --seed 1".split(), "`--members` is a number from 1 to 32 in plain digits, and not `33`"),
    ("stackcheck", ["a.layers", "--law", "total"], "ACTS is missing: a script with the acts of the members"),
    ("stackcheck", ["a.layers", "an.acts", "--law", "total"], "`--events E` is missing: how many events a script has at most"),
]
HUNT = "--law total --members 3 --events 9 --runs 1 --seed 1".split()
BOUND = "--law total --events 4".split()
EXPLAINED = [
    ("layerfmt", ["a.file"], "file: token 2:3", 1, "layer a {\n  ? }\n", ["a.file:2:3: `?` is no sign of the language", "  ? }", "  ^"]),
    ("runchart", ["a.file", "--to", "9"], "file: line 2", 1, "out 0\nout x\nend 1\n", ["a.file:2:5: a number is wanted here: `out M`", "out x", "    ^"]),
    ("stackhunt", ["a.file", *HUNT], "file: unknown 1:9", 1, "stack { no; }\n", ["a.file:1:9: there is no layer `no` in this file or in the library", "stack { no; }", "        ^"]),
    ("stackhunt", ["a.file", *HUNT], "script: rows", 3, "", ["a.file: " + ROWS]),
    ("stackhunt", ["none", *HUNT], "read fault", 4, "", ["none: No such file or directory"]),
    ("stackcheck", ["a.file", "an.acts", *BOUND], "file: unknown 1:9", 1, "stack { no; }\n", ["a.file:1:9: there is no layer `no` in this file or in the library", "stack { no; }", "        ^"]),
]
TELLS = """#!/usr/bin/env bash
# In a program's place: tells at a terminal how far it is, and then its line.
if [ -t 2 ]; then printf '\\r1 of 9 {name}\\n' >&2; fi
echo '{said}' >&2
exit {status}
"""
SLOW = """#!/usr/bin/env bash
# In the program's place: says at once that it runs, and then runs until it is ended.
echo "read fault" >&2
echo $$ >>"$STARTED"
exec sleep 600
"""


def wants(what, is_so):
    if not is_so:
        FAILED.append(what)
        print(f"not so: {what}")


def executable(path, text):
    with open(path, "w", encoding="utf-8") as file:
        file.write(text)
    os.chmod(path, 0o755)


def started_in(path, count):
    """The processes that a file names, once it names n."""
    for _ in range(600):
        if os.path.exists(path):
            with open(path, encoding="utf-8") as file:
                pids = [int(line) for line in file]
            if len(pids) >= count:
                return pids
        time.sleep(0.1)
    return []


def lives(pid):
    try:
        os.kill(pid, 0)
    except OSError:
        return False
    with open(f"/proc/{pid}/stat", encoding="utf-8") as file:
        return file.read().rsplit(")", 1)[1].split()[0] != "Z"


def own_words(top):
    """--help and --version, in a tree that isn't built."""
    script = os.path.join(top, "stackc")
    with open(os.path.join(TOP, "tools", "help.txt"), "rb") as file:
        text = file.read()
    for words in (["--help"], ["replay", "--help"], ["--trial", "--help"]):
        wants(f"{words} prints help.txt", apart([script, *words], top) == (0, text, b""))
    with open(os.path.join(TOP, "README.md"), encoding="utf-8") as file:
        kit = file.read().rstrip().splitlines()[-1].split("`")[1]
    for name in PROGRAMS[1:]:
        os.symlink("stackc", os.path.join(top, name))
        os.makedirs(os.path.join(top, "crates", name, "out"))
        with open(os.path.join(TOP, "tools", f"{name}-help.txt"), "rb") as file:
            wants(f"{name} --help prints its own", apart([os.path.join(top, name), "--help"], top) == (0, file.read(), b""))
    away = {**os.environ, "PATH": os.pathsep.join(("/usr/bin", "/bin"))}
    wants("--version names README's kit where there is none", apart([script, "--version"], top, env=away)[1].decode().endswith(f"\nkit {kit}\n"))
    executable(os.path.join(top, "rt"), KIT)
    near = {**os.environ, "PATH": top + os.pathsep + os.environ["PATH"]}
    wants("--version names the kit that is there", apart([script, "--version"], top, env=near)[1] == b"stackc, commit unknown\nkit kit of this test\n")


def refuses(top):
    """Words that are refused before anything is built, and what a terminal shows of them."""
    for name, words, why in REFUSED:
        script = os.path.join(top, name)
        wants(f"{name} {words} needs no build", apart([script, *words], top) == (2, b"", b"words: refused\n") and not os.path.exists(os.path.join(top, "build")))
        status, out, shown = at_terminal([script, *words], top)
        lines = shown.decode().splitlines()
        wants(f"{name} {words} is told at a terminal, and not by {lines}", (status, out, lines[:2]) == (2, b"", ["words: refused", f"{name}: {why}"]))


def explains(top):
    """What a terminal shows of refusals by the other programs, with scripts in their places that say how far they are at a terminal, and then their line."""
    work = os.path.join(top, "work")
    for name, words, said, status, text, shown in EXPLAINED:
        executable(os.path.join(top, "crates", name, "out", name), TELLS.format(name=name, said=said, status=status))
        with open(os.path.join(work, "a.file"), "w", encoding="ascii") as file:
            file.write(text)
        got = at_terminal([os.path.join(top, name), *words], work)
        wanted = f"\r1 of 9 {name}\n{said}\n" + "".join(line + "\n" for line in shown)
        wants(f"{name} {words} tells {wanted!r}, and not {got}", got == (status, b"", wanted.encode()))
        wants(f"{name} {words} tells its line alone elsewhere", apart([os.path.join(top, name), *words], work) == (status, b"", f"{said}\n".encode()))


def ended(what, words, top, number, count, **how):
    """Ends a run by a signal: it ends by this very signal, and all that it started has ended."""
    path = os.path.join(top, f"started-{what}-{number}".replace(" ", "-"))
    env = {**os.environ, "STARTED": path, "PATH": top + os.pathsep + os.environ["PATH"]}
    with subprocess.Popen(words, cwd=top, env=env, stdin=subprocess.DEVNULL, stdout=subprocess.DEVNULL, **how) as run:
        pids = started_in(path, count)
        wants(f"{what} starts {count}", len(pids) >= count)
        run.send_signal(number)
        status = run.wait(60)
    wants(f"{what} ends by {number}, and not with {status}", status == -number)
    time.sleep(0.2)
    for pid in filter(lives, pids):
        wants(f"{what} ends what it runs by {number}", False)
        os.kill(pid, signal.SIGKILL)


def is_ended(top):
    """A proof and a run, each ended; launcher.py ends a build that is not proved."""
    os.mkdir(os.path.join(top, "crates", "one"))
    os.mkdir(os.path.join(top, "crates", "two"))
    os.remove(os.path.join(top, "crates.txt"))
    with open(os.path.join(top, "crates.txt"), "w", encoding="utf-8") as file:
        file.write("one:\ntwo:\nstackc: one two\n")
    executable(os.path.join(top, "rt"), KIT)
    script = os.path.join(top, "stackc")
    for number in (signal.SIGINT, signal.SIGTERM):
        ended("a proof", [script, "--prove"], top, number, 1, stderr=subprocess.DEVNULL)
    executable(os.path.join(top, "crates", "stackc", "out", "stackc"), SLOW)
    for number in (signal.SIGINT, signal.SIGTERM):
        ended("a run", [script, "check", "a"], top, number, 1, stderr=subprocess.DEVNULL)
        mine, its = os.openpty()
        ended("a run at a terminal", [script, "check", "a"], top, number, 1, stderr=its)
        os.close(its)
        wants("a terminal gets what is said at once, and nothing else of a run that is ended", os.read(mine, 4096) == b"read fault\r\n")
        os.close(mine)


def passes_on(top):
    """Streams and statuses of a run in which nothing is refused."""
    script, work = os.path.join(top, "stackc"), os.path.join(top, "examples")
    words = ["replay", "order.layers", "order.script", "--count"]
    ran = apart([script, *words], work)
    wants("a run writes what the program writes", ran == apart([os.environ["STACKC"], *words], work) and ran[0] == 0)
    piped = subprocess.run(["bash", "-c", f"cat order.layers | {script} check /dev/stdin"], cwd=work, stdout=subprocess.PIPE, check=False)
    wants("the standard input is the program's", piped.stdout == b"accepted 4\n")


def completes(line, *wanted):
    """What bash offers after words, of which the last is to be completed."""
    words = " ".join(f"'{word}'" for word in line)
    told = f"source {TOP}/tools/completions/stackc.bash; COMP_WORDS=({words}); COMP_CWORD={len(line) - 1}; _stackc; printf '%s\\n' \"${{COMPREPLY[@]}}\""
    got = apart(["bash", "-c", told], os.path.join(TOP, "examples"))[1].decode().split()
    wants(f"{line} is completed by {wanted}, and not by {got}", sorted(got) == sorted(wanted))


def completions():
    completes(["stackc", "re"], "replay")
    completes(["stackc", "--trial", "ch"], "check")
    completes(["stackc", "--v"], "--version")
    completes(["stackc", "replay", "c"], "chat.layers", "counter.layers")
    completes(["stackc", "replay", "order.layers", "o"], "order.script")
    completes(["stackc", "node", "--turns", "9", "counter.layers", "p"], "pair.plan")
    completes(["stackc", "replay", "order.layers", "order.script", "--"], "--run", "--with", "--events", "--wire", "--count")
    completes(["stackc", "replay", "order.layers", "--events", "o"], "order.script")
    completes(["stackc", "load", "order.layers", "--run", "=", "l"], "layered")
    completes(["stackc", "audit", "--law", "t"], "total")
    completes(["stackc", "check", "order.layers", ""])
    completes(["./layerfmt", "c"], "chat.layers", "counter.layers")
    completes(["layerfmt", "--v"], "--version")
    completes(["runchart", "order.report", "--"], "--from", "--to", "--breach", "--hide")
    completes(["stackhunt", "counter.layers", "--law", "s"], "sender", "same")
    completes(["stackhunt", "--law", "=", "to"], "total")
    completes(["stackhunt", "--members", "3", "or"], "order.layers")
    completes(["stackcheck", "order.layers", "o"], "order.script")
    completes(["stackcheck", "--law", "s"], "sender", "same")
    completes(["stackhunt", "counter.layers", "--style", "f"], "flood")


def main():
    with tree() as top:
        own_words(top)
        refuses(top)
        explains(top)
    with tree() as top:
        is_ended(top)
    with tree(os.environ["STACKC"]) as top:
        passes_on(top)
    completions()
    if shutil.which("zsh"):
        wants("zsh reads its completions", apart(["zsh", "-fn", os.path.join(TOP, "tools", "completions", "_stackc")], TOP) == (0, b"", b""))
    for name in PROGRAMS if shutil.which("man") else []:
        wants(f"man reads the page of {name}", apart(["man", "--warnings", "-l", os.path.join(TOP, "tools", f"{name}.1")], TOP)[::2] == (0, b""))
    wants("what tools/make.py writes is fresh", subprocess.run([sys.executable, os.path.join(TOP, "tools", "make.py"), "--check"], check=False).returncode == 0)
    print(f"script: {len(FAILED)} not so")
    sys.exit(bool(FAILED))


if __name__ == "__main__":
    main()
