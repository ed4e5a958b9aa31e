#!/usr/bin/env python3
"""Takes the files off docs/TUTORIAL.md and docs/PROTOCOLS.md, runs their commands in order, and compares each output with the page's.

`tutorial.py --fill` writes what the program prints into the pages in place of what stands there.
"""
import os
import re
import subprocess
import sys
import tempfile

from journals import free_ports
from tree import TOP

PAGES = [os.path.join(TOP, "docs", name) for name in ("TUTORIAL.md", "PROTOCOLS.md")]
BESIDE = {name: os.environ.get(name.upper(), "") for name in ("stackhunt", "stackcheck")}
HUNTED = re.compile(r"hasty|patient")    # files that a hunt writes, or is made over
FENCE = re.compile(r"^```([a-z]*)(?: (\S+))?\n(.*?)^```$", re.M | re.S)


def commands(block):
    """The commands of a block, each with the lines that stand below it."""
    found = []
    for line in block.splitlines():
        if line.startswith("$ "):
            found.append((line[2:], []))
        else:
            found[-1][1].append(line)
    return found


def run(command, folder):
    ran = subprocess.run(["bash", "-c", command], cwd=folder, stdin=subprocess.DEVNULL, stdout=subprocess.PIPE, stderr=subprocess.STDOUT, timeout=120)
    return ran.stdout.decode().splitlines()


def with_free_ports(text):
    """The text of a plan whose ports nothing listens on."""
    named = sorted(set(re.findall(r"127\.0\.0\.1:(\d+)", text)))
    for port, free in zip(named, free_ports(len(named))):
        text = text.replace(f":{port}", f":{free}")
    return text


def can_run(command):
    """Whether the programs that a command needs are there."""
    return (BESIDE["stackhunt"] or not HUNTED.search(command)) and (BESIDE["stackcheck"] or "stackcheck" not in command)


def try_page(path):
    """Runs a page, and answers whether all is so."""
    with open(path, encoding="utf-8") as file:
        page = file.read()
    files, tried, wrong, filled, at = 0, 0, 0, [], 0
    with tempfile.TemporaryDirectory(prefix="stackc-") as folder:
        os.symlink(os.environ["STACKC"], os.path.join(folder, "stackc"))
        for name, program in BESIDE.items():
            if program:
                os.symlink(program, os.path.join(folder, name))
        for fence in FENCE.finditer(page):
            language, name, body = fence.groups()
            filled.append(page[at:fence.start()])
            at = fence.end()
            if language != "console":
                with open(os.path.join(folder, name), "w", encoding="utf-8") as file:
                    file.write(with_free_ports(body) if language == "plan" else body)
                files += 1
                filled.append(fence.group(0))
                continue
            lines = []
            for command, wanted in commands(body):
                if not can_run(command):
                    lines += [f"$ {command}", *wanted]
                    continue
                got = run(command, folder)
                tried += 1
                lines += [f"$ {command}", *got]
                if got != wanted:
                    wrong += 1
                    if "--fill" not in sys.argv:
                        print(f"not so on the page: {command}\n  there:", *wanted, "  here:", *got, sep="\n    ")
            filled.append("```console\n" + "\n".join(lines) + "\n```")
    filled.append(page[at:])
    if "--fill" in sys.argv:
        with open(path, "w", encoding="utf-8") as file:
            file.write("".join(filled))
        return True
    print(f"tutorial: {os.path.basename(path)}: {files} files, {tried} commands, {wrong} outputs that differ")
    return tried > 0 and not wrong


if __name__ == "__main__":
    sys.exit(0 if all([try_page(path) for path in PAGES]) else 1)
