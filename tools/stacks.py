#!/usr/bin/env python3
"""Puts the layers of layers/ that a stack names into its file, since a stack file holds all layers that aren't built in.

    tools/stacks.py FILE..      puts them in, or anew
    tools/stacks.py --check     says which stack of layers/ isn't what this makes of it, and ends with 1 where one isn't

A layer NAME is layers/NAME.layer. Of a file everything up to the line below is kept, layers of its own among it, and so is its stack, which is its end.
"""
import glob
import os
import re
import sys

FOLDER = os.path.join(os.path.dirname(os.path.dirname(os.path.abspath(__file__))), "layers")
LINE = "# The layers from here on are those of layers/, put in by tools/stacks.py.\n"
STACK = re.compile(r"^stack\s*\{[^}]*\}\s*\Z", re.M)


def read(path):
    with open(path, encoding="utf-8") as file:
        return file.read()


def own_layers(text):
    """The names of the layers that a text has itself."""
    return re.findall(r"^\s*layer\s+(\w+)", text, re.M)


def places(stack):
    """The names in a stack, each once, from the lowest up."""
    inside = re.sub(r"#[^\n]*|\([^)]*\)", "", stack[stack.index("{") + 1:])
    return list(dict.fromkeys(re.findall(r"\w+", inside)))


def filled(path):
    """What a file becomes."""
    text = read(path)
    stack = STACK.search(text)
    if not stack:
        sys.exit(f"stacks.py: {path} doesn't end with a stack")
    head = text[:stack.start()].split(LINE)[0]
    own = own_layers(head)
    found = [os.path.join(FOLDER, f"{name}.layer") for name in places(stack[0]) if name not in own]
    parts = [read(layer) for layer in found if os.path.exists(layer)]
    return head + (LINE if parts else "") + "".join(parts) + stack[0]


def main():
    if sys.argv[1:] == ["--check"]:
        stale = [path for path in sorted(glob.glob(os.path.join(FOLDER, "*.layers"))) if filled(path) != read(path)]
        for path in stale:
            print(f"layers/{os.path.basename(path)} is stale: tools/stacks.py {os.path.relpath(path)} makes it anew")
        return 1 if stale else 0
    if not sys.argv[1:] or sys.argv[1].startswith("-"):
        sys.exit(__doc__.strip())
    for path in sys.argv[1:]:
        text = filled(path)
        with open(path, "w", encoding="utf-8") as file:
            file.write(text)
    return 0


if __name__ == "__main__":
    sys.exit(main())
