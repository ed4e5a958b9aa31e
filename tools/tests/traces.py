#!/usr/bin/env python3
"""Runs each file of traces of traces.md, and compares what becomes of it with what is due by docs/LANGUAGE.md."""
import os
import re

from program import runs

PAGE = os.path.join(os.path.dirname(os.path.abspath(__file__)), "traces.md")
PART = re.compile(r"^`([\w.]+)`:\n\n```\n((?:.*\n)*?)```\n|^\| (\d[\d-]*) \| (.*?) \| ([\w ]+) \| .* \|$", re.M)
TIMES = re.compile(r"\{(\d+)\*(.*?)\}")


def lines_of(cell):
    """The lines that stand in a cell, each in a code span; `-` stands for none."""
    if cell == "`-`":
        return []
    return [TIMES.sub(lambda m: m[2] * int(m[1]), span.strip("`")) for span in cell.split("<br>")]


def changed(packed, place, cell):
    """The packed text with other lines in place of one, or of some from one to another."""
    first, _, last = place.partition("-")
    rows = packed.splitlines()
    rows[int(first) - 1:int(last or first)] = lines_of(cell)
    return "".join(row + "\n" for row in rows)


class Page:
    """The parts of the page in their order: files are put, and those of the rows are run."""

    def __init__(self, made):
        self.made, self.texts, self.report = made, {}, ""

    def file(self, name, text):
        """A text of the page; what is packed is what `pack` writes of the stack, and the script's report is what its own traces write."""
        self.texts[name] = text
        if name != "packed":
            self.made.put(name, text)
            return
        self.made.compare("what pack writes", self.made.run(["pack", "stack.layers"]), (0, text, ""))
        self.report = self.made.run(["replay", "stack.layers", "run.script", "--count", "--wire"])[1]

    def row(self, place, cell, due):
        """The file of a row."""
        self.made.put("some.traces", changed(self.texts["packed"], place, cell))
        wanted = (0, self.report, "") if due == "accepted" else (9, "", f"bypass: {due}\n")
        got = self.made.run(["replay", "stack.layers", "run.script", "--with", "some.traces", "--count", "--wire"])
        self.made.compare(f"line {place}: {cell}", got, wanted)


def main():
    with open(PAGE, encoding="utf-8") as file:
        parts = list(PART.finditer(file.read()))
    with runs("traces") as made:
        page = Page(made)
        for name, text, place, cell, due in (part.groups() for part in parts):
            if name:
                page.file(name, text)
            else:
                page.row(place, cell, due)


if __name__ == "__main__":
    main()
