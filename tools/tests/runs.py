#!/usr/bin/env python3
"""Makes the runs of runs.md with the program in $STACKC, and compares what each leaves with what stands there.

    tools/tests/runs.py           compares
    tools/tests/runs.py --write   writes what the runs leave into runs.md, to be read
"""
import os
import shlex
import sys

from program import runs
from terminal import BLOCK, text_of

PAGE = os.path.join(os.path.dirname(os.path.abspath(__file__)), "runs.md")


def main():
    with open(PAGE, encoding="utf-8") as file:
        page = file.read()
    with runs("runs") as made:

        def block(found):
            """A block as it is to stand there: a file is written, and a run is made and compared."""
            name, body = found.groups()
            if name:
                made.put(name, text_of(body).decode())
                return found[0]
            line, wanted = body.split("\n", 1)
            status, out, said = made.run(shlex.split(line)[2:])
            left = out + said + (f"(status {status})\n" if status else "")
            made.compare(line, left, left if "--write" in sys.argv else wanted)
            return f"```\n{line}\n{left}```\n"

        written = BLOCK.sub(block, page)
        if "--write" in sys.argv:
            with open(PAGE, "w", encoding="utf-8") as file:
                file.write(written)


if __name__ == "__main__":
    main()
