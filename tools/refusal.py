#!/usr/bin/env python3
"""Says what a refusal means, for a person at a terminal.

    tools/refusal.py run PROGRAM WORDS..           runs the program, hands on at once what it says, and adds what a refusal means
    tools/refusal.py tell STATUS SAID WORDS..      adds what a refusal means that is in the file SAID, of a stackc that ended with this status
    tools/refusal.py judge NAME WORDS..            says what the program of this name would say of its words where it would refuse them, and ends as it would: with 2

What is added stands after the program's own line on the standard error. The status is the program's, and a signal that ends this ends the program.
`judge` is for words before anything is built. Its second line is for a terminal alone.
"""
import os
import signal
import subprocess
import sys
import tty


def add(status, said, words, program="stackc"):
    """Writes what a refusal means; where that can't be found, nothing."""
    line = said.decode("utf-8", "replace").rstrip("\n").split("\n")[-1]
    try:
        from meaning import meaning

        text = meaning(status, line, words, program)
    except Exception:  # the program's own line stands in any case
        return
    write(text.encode("utf-8", "replace"))


def write(data):
    """Puts bytes to the standard error, as far as it takes them."""
    try:
        while data:
            data = data[os.write(2, data):]
    except OSError:
        pass


def told():
    """Two ends for what a program says: a terminal's, so that one which tells how far it is at a terminal does so, or a pipe's."""
    if not os.isatty(2):
        return os.pipe()
    mine, its = os.openpty()
    tty.setraw(its)
    return mine, its


def part_of(end):
    """The next bytes of what a program says; none where it has ended."""
    try:
        return os.read(end, 65536)
    except OSError:  # (a terminal that no program has open)
        return b""


def run(words):
    """Runs a program, hands on what it says on the standard error, and ends as it ends."""
    came, program = [], None
    for number in (signal.SIGINT, signal.SIGTERM, signal.SIGHUP, signal.SIGQUIT):
        if signal.getsignal(number) != signal.SIG_IGN:
            signal.signal(number, lambda number, _: program.send_signal(number) if program else came.append(number))
    mine, its = told()
    program = subprocess.Popen(words, stderr=its, close_fds=False)  # (a word may be the name of an open file, as `<(..)` is)
    os.close(its)
    for number in came:
        program.send_signal(number)
    said = b""
    while True:
        part = part_of(mine)
        if not part:
            break
        write(part)
        said = (said + part)[-65536:]
    status = program.wait()
    if status < 0:
        signal.signal(-status, signal.SIG_DFL)
        os.kill(os.getpid(), -status)
    add(status, said, words[1:], os.path.basename(words[0]))
    sys.exit(status)


def judge(program, words):
    """Ends with 2 where a program would refuse its words, and says so; else with 0."""
    from words import Table

    if Table(program).fault(words) is None:
        sys.exit(0)
    write(b"words: refused\n")
    if os.isatty(2):
        add(2, b"words: refused", words, program)
    sys.exit(2)


def main():
    how, *words = sys.argv[1:]
    if how == "run":
        run(words)
    if how == "judge":
        judge(words[0], words[1:])
    with open(words[1], "rb") as file:
        add(int(words[0]), file.read(), words[2:])


if __name__ == "__main__":
    main()
