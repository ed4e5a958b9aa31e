#!/usr/bin/env python3
"""Judges the logs of members of the library (bindings/python, `juqhanep.log`) by their replay.

    tools/judge.py LAYERS NAME..                 NAME.script and NAME.report are a log, over the layer file LAYERS
    tools/judge.py --stackc PROGRAM LAYERS ..    replayed by this program, and not by ./stackc
    tools/judge.py --layered ..                  replayed layer by layer: of members that were opened so, which send all in full
    tools/judge.py --reading ..                  by the reading of diff/, which shares no code with the program

Each log is told to agree with its replay, or the first line that differs. Ends with 1 where one differs.
"""
import argparse
import os
import subprocess
import sys

TOP = os.path.dirname(os.path.dirname(os.path.abspath(__file__)))
sys.path[:0] = [os.path.join(TOP, "bindings", "python"), os.path.join(TOP, "diff")]
from juqhanep import log


def by_reading(mode):
    """A replay by the reading of diff/."""
    import running

    def replayed(layers, script):
        with open(layers, "rb") as file:
            report, said, _ = running.replay(file.read(), script.encode(), mode, True)
        if said:
            raise RuntimeError(f"the reading ends with {said}")
        return report.splitlines()

    return replayed


def by_program(stackc, mode):
    """A replay by a program."""

    def replayed(layers, script):
        return log.replay(stackc, layers, script, mode)

    return replayed


def main():
    words = argparse.ArgumentParser(description="Judges logs of members by their replay.")
    words.add_argument("layers")
    words.add_argument("names", nargs="+", metavar="NAME")
    words.add_argument("--stackc", default=os.path.join(TOP, "stackc"))
    words.add_argument("--layered", action="store_true")
    words.add_argument("--reading", action="store_true")
    words = words.parse_args()
    mode = "layered" if words.layered else "bypass"
    replayed = by_reading(mode) if words.reading else by_program(words.stackc, mode)
    differ = 0
    for name in words.names:
        try:
            verdict = log.judge(words.layers, name, replayed)
        except (OSError, RuntimeError, subprocess.SubprocessError) as error:
            differ += 1
            print(f"{name}: not judged: {error}")
            continue
        differ += not verdict.agrees
        print(f"{name}: {verdict}")
    sys.exit(differ != 0)


if __name__ == "__main__":
    main()
