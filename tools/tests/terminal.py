#!/usr/bin/env python3
"""Compares what a terminal shows of the mistakes in mistakes.md with what stands there, and that without a terminal nothing is added.

    tools/tests/terminal.py           with the program in $STACKC
    tools/tests/terminal.py --write   writes what the terminal shows into mistakes.md, to be read
"""
import os
import re
import shlex
import sys

from tree import apart, at_terminal, tree

PAGE = os.path.join(os.path.dirname(os.path.abspath(__file__)), "mistakes.md")
BLOCK = re.compile(r"(?:`([\w.-]+)`:\n\n)?```\n(.*?)```\n", re.S)
TIMES = re.compile(r"^(.*?) +\(([\d,]+) times\)$", re.M)


def text_of(body):
    """The text of a file: a line may stand for many, and `\\r` at its end for a carriage return."""
    body = TIMES.sub(lambda m: "\n".join([m[1]] * int(m[2].replace(",", ""))), body)
    return body.replace("\\r\n", "\r\n").encode()


def program_line(said):
    return said.split(b"\n")[0] + b"\n"


def run(top, line):
    """What a terminal shows of a run, and whether the same run without one differs in more than what is added."""
    folder = os.path.join(top, "work")
    words = [os.path.join(top, "stackc"), *shlex.split(line)[2:]]
    plain, shown = apart(words, folder), at_terminal(words, folder)
    same = plain[:2] == shown[:2] and plain[2] == program_line(plain[2]) and shown[2].startswith(plain[2])
    return shown[2].decode(), same


class Page:
    """The blocks of the page in their order: files are written, and runs are made and compared."""

    def __init__(self, top):
        self.top, self.count, self.failed = top, 0, 0

    def block(self, found):
        """A block as it is to stand there."""
        name, body = found.groups()
        if name:
            with open(os.path.join(self.top, "work", name), "wb") as file:
                file.write(text_of(body))
            return found[0]
        line, wanted = body.split("\n", 1)
        shown, same = run(self.top, line)
        self.count += 1
        if not same or (shown != wanted and sys.argv[1:] != ["--write"]):
            self.failed += 1
            print(f"{line}\n{shown}{'' if same else 'differs from the run without a terminal'}\nwanted:\n{wanted}")
        return f"```\n{line}\n{shown}```\n"


def main():
    with open(PAGE, encoding="utf-8") as file:
        text = file.read()
    with tree(os.environ["STACKC"]) as top:
        page = Page(top)
        written = BLOCK.sub(page.block, text)
    if sys.argv[1:] == ["--write"]:
        with open(PAGE, "w", encoding="utf-8") as file:
            file.write(written)
    print(f"terminal: {page.count} refusals, {page.failed} not as wanted")
    sys.exit(page.failed != 0)


if __name__ == "__main__":
    main()
