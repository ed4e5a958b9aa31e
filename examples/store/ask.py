#!/usr/bin/env python3
"""A client of the store: one operation, by one of its processes.

    ask.py PROCESSES NUMBER get KEY | put KEY VALUE | add KEY NUMBER | cas KEY OLD NEW | state

Values that are whole numbers are numbers, and an OLD that is `-` stands for a key that was never put. The answer is printed; the status is 0 where
the operation was done, 1 where it wasn't and won't be, and 2 where nobody can say.
"""
import asyncio
import json
import sys

from store import ask, processes

NAMES = {"get": ["key"], "put": ["key", "value"], "add": ["key", "value"], "cas": ["key", "old", "new"], "state": []}


def value(word):
    """What a word stands for."""
    if word == "-":
        return None
    return int(word) if word.lstrip("-").isdigit() else word


def main():
    if len(sys.argv) < 4 or len(sys.argv[4:]) != len(NAMES.get(sys.argv[3], "?")):
        sys.exit(__doc__)
    path, number, kind, *words = sys.argv[1:]
    op = {"op": kind, **{name: word if name == "key" else value(word) for name, word in zip(NAMES[kind], words)}}
    try:
        answer = asyncio.run(ask(processes(path)[int(number)][1], op))
    except (OSError, ValueError) as error:
        print(f"no answer: {error}")
        return 2
    print(json.dumps(answer))
    return {"unknown": 2}.get(answer.get("error"), 1) if "error" in answer else 0


if __name__ == "__main__":
    sys.exit(main())
