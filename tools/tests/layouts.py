#!/usr/bin/env python3
"""Lays files out by the formatter in $LAYERFMT: examples stay as they are, what is laid out stays so, and tokens and comments are the file's."""
import glob
import os
import random
import re
import subprocess
import sys
import tempfile

from tree import TOP

PROGRAM = os.environ.get("LAYERFMT", "")
PIECE = re.compile(rb"#[^\n]*|[A-Za-z0-9_]+|==|!=|<=|>=|[^\s]")
WORDS = b"layer stack state int queue of header passes ends up down Cast Send common rare two let set push take else if each below max me n len at k e 0 17 ( ) { } [ ] ; , : . = == < <= + - * & | ^".split()


def pieces(text):
    return [piece.rstrip(b" \t\r") for piece in PIECE.findall(text)]


def laid_out(text, folder):
    """What the formatter prints of a text, and its status."""
    path = os.path.join(folder, "file.layers")
    with open(path, "wb") as file:
        file.write(text)
    ran = subprocess.run([PROGRAM, path], stdin=subprocess.DEVNULL, stdout=subprocess.PIPE, stderr=subprocess.PIPE, timeout=60)
    return ran.stdout, ran.returncode


def random_text(seed):
    draw = random.Random(seed)
    parts = []
    for _ in range(draw.randrange(1, 120)):
        parts.append(draw.choice(WORDS))
        parts.append(draw.choice([b" ", b" ", b" ", b"\n", b"\n\n\n", b"\t", b"  ", b" # a remark; {\n"]))
    return b"".join(parts)


def main():
    if not PROGRAM:
        print("layouts: LAYERFMT names no program, so none was tried")
        return 0
    wrong = 0
    examples = sorted(glob.glob(os.path.join(TOP, "examples", "*.layers")))
    with tempfile.TemporaryDirectory(prefix="stackc-") as folder:
        for path in examples:
            with open(path, "rb") as file:
                text = file.read()
            if laid_out(text, folder) != (text, 0):
                wrong += 1
                print(f"{path} doesn't stay as it is")
        for seed in range(300):
            text = random_text(seed)
            once, status = laid_out(text, folder)
            if status != 0 or pieces(once) != pieces(text) or laid_out(once, folder) != (once, 0):
                wrong += 1
                print(f"seed {seed}: status {status}, {text!r} becomes {once!r}")
        refused = laid_out(b"layer a { } $", folder)
        if refused != (b"", 1):
            wrong += 1
            print(f"a bad token: {refused}")
    print(f"layouts: {len(examples)} examples, 300 random files, {wrong} not as wanted")
    return 1 if wrong else 0


if __name__ == "__main__":
    sys.exit(main())
