#!/usr/bin/env python3
"""Tries which build ./stackc runs and how it makes one, with a script in the kit's place."""
import os
import shutil
import signal
import subprocess
import sys
import tempfile
import time

from tree import TOP

FAILED = []
NOTE = b"stackc: this build is not proved; ./stackc --prove makes one that is, in an hour or so\n"
MAKES = """#!/usr/bin/env bash
# In the place of tools/unproved.sh: counts how often it is run.
echo $$ >>"$COUNT"
sleep "${SLOW:-0}"
printf '#!/bin/sh\\necho kept "$@"\\ncat\\nexit 3\\n' >"$2/$1"
chmod +x "$2/$1"
"""
KIT = """#!/usr/bin/env bash
# In the kit's place: two crates and the program are proved.
if [ "$1" = all ]; then printf '== one\\n== two\\n== stackc\\n'; exit "${FAILS:-0}"; fi
mkdir -p out
printf '#!/bin/sh\\necho proved "$@"\\ncat\\nexit 3\\n' >out/stackc
chmod +x out/stackc
echo "words: refused"
exit 2
"""


def wants(what, is_so):
    if not is_so:
        FAILED.append(what)
        print(f"not so: {what}")


def write(path, text):
    os.makedirs(os.path.dirname(path), exist_ok=True)
    with open(path, "w", encoding="utf-8") as file:
        file.write(text)
    os.chmod(path, 0o755)


def run(top, *words, **more):
    env = {**os.environ, "PATH": f"{top}/kit{os.pathsep}{os.environ['PATH']}", "COUNT": f"{top}/count", **more}
    done = subprocess.run([f"{top}/stackc", *words], cwd=top, env=env, input=b"given\n", capture_output=True, check=False)
    return done.returncode, done.stdout, done.stderr


def count(top):
    with open(f"{top}/count", encoding="utf-8") as file:
        return len(file.readlines())


def kept(top):
    first = run(top, "a", "b")
    wants("a kept build's output, input and status are its own", first[:2] == (3, b"kept a b\ngiven\n") and first[2].endswith(NOTE))
    wants("it is kept", run(top, "a") == (3, b"kept a\ngiven\n", NOTE) and count(top) == 1)
    time.sleep(0.05)
    write(f"{top}/crates/one/src/lib.rt", "changed")
    wants("changed code is built anew", run(top, "a")[0] == 3 and count(top) == 2)


def two_at_once(top):
    shutil.rmtree(f"{top}/build")
    env = {**os.environ, "PATH": f"{top}/kit{os.pathsep}{os.environ['PATH']}", "COUNT": f"{top}/count", "SLOW": "1"}
    how = {"cwd": top, "env": env, "stdin": subprocess.DEVNULL, "stdout": subprocess.PIPE, "stderr": subprocess.DEVNULL}
    before, both = count(top), [subprocess.Popen([f"{top}/stackc", "a"], **how) for _ in range(2)]
    wants("two at once build once", all(it.communicate()[0] == b"kept a\n" for it in both) and count(top) == before + 1)


def interrupted(top):
    shutil.rmtree(f"{top}/build")
    env = {**os.environ, "PATH": f"{top}/kit{os.pathsep}{os.environ['PATH']}", "COUNT": f"{top}/count", "SLOW": "30"}
    with subprocess.Popen([f"{top}/stackc", "a"], cwd=top, env=env, stdin=subprocess.DEVNULL, stderr=subprocess.DEVNULL) as it:
        time.sleep(1)
        it.send_signal(signal.SIGTERM)
        wants("a build ends by its signal", it.wait(20) == -signal.SIGTERM)
    wants("nothing half is kept", not os.path.exists(f"{top}/build/unproved/stackc") and run(top, "a")[0] == 3)


def proves(top):
    failed = run(top, "--prove", FAILS="1")
    wants("a proof that fails is told", failed[0] == 70 and failed[2].endswith(b"stackc.log\n"))
    said = run(top, "--prove")
    wants("progress is told", said[0] == 0 and b"stackc: 3 of 3 crates, 100 % of the work, about 0 minutes left\n" in said[2])
    wants("the proved program is run", run(top, "a") == (3, b"proved a\ngiven\n", b""))
    wants("--trial runs the other", run(top, "--trial", "a")[1:] == (b"kept a\ngiven\n", NOTE))
    time.sleep(0.05)
    write(f"{top}/crates/one/proofs/a.antt", "changed")
    wants("a stale one isn't run", run(top, "a")[1:] == (b"kept a\ngiven\n", NOTE))


def main():
    with tempfile.TemporaryDirectory(prefix="stackc-") as top:
        shutil.copy(f"{TOP}/stackc", top)
        write(f"{top}/tools/unproved.sh", MAKES)
        shutil.copy(f"{TOP}/tools/prove.py", f"{top}/tools")
        write(f"{top}/bench/costs.tsv", "one\t50\n")
        write(f"{top}/crates.txt", "one:\ntwo: one\nstackc: one two\n")
        for crate in ("one", "two", "stackc"):
            write(f"{top}/crates/{crate}/src/lib.rt", "code")
        write(f"{top}/kit/rt", KIT)
        for part in (kept, two_at_once, interrupted, proves):
            part(top)
    print(f"launcher: {len(FAILED)} not so")
    sys.exit(bool(FAILED))


if __name__ == "__main__":
    main()
