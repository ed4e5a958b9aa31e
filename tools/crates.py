#!/usr/bin/env python3
"""Writes crates/README.md, the index of crates, from crates.txt, the first sentences of the crates' READMEs and the comments over laws; and the table of
docs/ARCHITECTURE.md that says which change proves how much again.

    tools/crates.py             writes the pages
    tools/crates.py --check     prints what differs where a page is stale, and what pages name that isn't there, and ends with 1
    tools/crates.py --above     prints how many crates stand on each, the most first

The groups are the headings of crates.txt. Of a crate's README the first sentence after the title tells what it promises; one that is long is cut at
its first colon or semicolon. Laws are the public functions without arguments of crates whose names end in `_laws`, each with the first sentence over it.
"""
import difflib
import glob
import os
import re
import sys

TOP = os.path.join(os.path.dirname(os.path.abspath(__file__)), "..")
PAGE = "crates/README.md"
MAP = "docs/ARCHITECTURE.md"
NAMING = ("docs/ARCHITECTURE.md", "docs/CHANGING.md", "docs/GLOSSARY.md")
# A crate with what is meant of it: files, modules, words in back quotes.
PLACES = re.compile(r"\b([a-z]+(?:_[a-z]+)+): ((?:[`\w(), /<>-]|\.\w)+)")
NAMES = re.compile(r"\b\w+\.rt\b|\b[A-Z]\w+|(?<=`)[a-z]+_[a-z_]+(?=`)")
BETWEEN = re.compile(r"(<!-- made by tools/crates\.py -->\n).*?(<!-- end -->)", re.S)
BELOW_MANY = "msg_core layer_words layer_mean stack_mean packet_mean run_mean layer_ast fault_mean file_mean file_laws lack_mean audit_mean job_mean group_member outside"
LONG = 200
SENTENCE = re.compile(r"(?<=[^.]\.)\s+(?=[A-Z`*])")
HEAD = """# The crates

{count} crates, in the groups of `crates.txt`. *Above* is the number of crates that stand on one, through others too: those that a change of its definitions or
contracts proves again. The names: `_mean` are definitions, `_laws` follow from them, `_rows` are worked cases, `_jobs` are jobs of the program,
`_tests` are tests of the crates below.
[docs/ARCHITECTURE.md](../docs/ARCHITECTURE.md) has the way of the data through them, [docs/CHANGING.md](../docs/CHANGING.md) which of them a change touches.

The page is made by `tools/crates.py`; a sentence is changed in the crate's README, or over the law.
"""


def path(*parts):
    return os.path.join(TOP, *parts)


def read(*parts):
    with open(path(*parts), encoding="utf-8") as file:
        return file.read()


def groups():
    """The headings of crates.txt, each with its crates and what these cite; a comment over no crate is no heading."""
    found = []
    for line in read("crates.txt").split("\n"):
        name, colon, below = line.partition(":")
        if line.startswith("# "):
            found.append((line[2:].strip(), []))
        elif colon and not line.startswith("#"):
            found[-1][1].append((name.split()[0], below.split()))
    return [(heading, crates) for heading, crates in found if crates]


def above(graph):
    """Of each crate those that stand on it, through others too."""
    below = {}

    def all_below(name):
        if name not in below:
            own = [other for other in graph[name] if other in graph]
            below[name] = set(own).union(*(all_below(other) for other in own))
        return below[name]

    return {name: {other for other in graph if name in all_below(other)} for name in graph}


def first_sentence(text):
    """The first sentence; a long one up to its first colon or semicolon."""
    first = SENTENCE.split(" ".join(text.split()))[0]
    if len(first) > LONG:
        first = re.split(r"[:;]", first)[0].rstrip(".") + "."
    return first.replace("|", "\\|")


def promise(crate):
    """What a crate promises: the first sentence of its README after the title."""
    if not os.path.exists(path("crates", crate, "README.md")):
        sys.exit(f"crates.py: crates/{crate} has no README.md")
    said = re.sub(r"^\*\*Purpose\.\*\* ", "", read("crates", crate, "README.md").split("\n\n")[1])
    return first_sentence(said)


def laws(crate):
    """The laws of a crate, each with the first sentence of the comment over it, in the order of lib.rt and then of the other files."""
    found = []
    for file in sorted(glob.glob(path("crates", crate, "src", "*.rt")), key=lambda name: (os.path.basename(name) != "lib.rt", name)):
        said = []
        for line in open(file, encoding="utf-8"):
            name = re.match(r"pub fn ([a-z_0-9]+)(?:<[^>]*>)?\(\)", line)
            if name and said and os.path.basename(file) != "samples.rt":
                found.append((name[1], first_sentence(" ".join(said))))
            if line.startswith("///"):
                said.append(line[3:].strip())
            elif not re.match(r"#\[|\s", line):
                said = []
    return found


def page():
    named = groups()
    graph = {crate: below for _, crates in named for crate, below in crates}
    missing = sorted(set(os.listdir(path("crates"))) - {"README.md"} - set(graph))
    if missing:
        sys.exit(f"crates.py: crates.txt lacks {', '.join(missing)}")
    on_it = above(graph)
    lines = [HEAD.format(count=len(graph))]
    for heading, crates in named:
        lines += [f"## {heading}\n", "| Crate | What it promises | Above |", "|---|---|---|"]
        lines += [f"| [{crate}]({crate}) | {promise(crate)} | {len(on_it[crate])} |" for crate, _ in crates] + [""]
    lines.append("## The laws by name\n")
    for crate in sorted(name for name in graph if name.endswith("_laws")):
        lines += [f"### {crate}\n", *(f"- `{name}`: {said}" for name, said in laws(crate)), ""]
    return "\n".join(lines).rstrip() + "\n"


def table():
    """How many crates stand on those that many stand on."""
    graph = {crate: below for _, crates in groups() for crate, below in crates}
    on_it = above(graph)
    lines = [f"| A change of | proves again, of {len(graph)} crates |", "|---|---|"]
    lines += [f"| {crate} | {len(on_it[crate])} |" for crate in sorted(BELOW_MANY.split(), key=lambda name: -len(on_it[name]))]
    return "\n".join(lines) + "\n"


def map_page():
    """The map with its table made anew."""
    return BETWEEN.sub(lambda found: found[1] + table() + found[2], read(MAP))


def strangers():
    """What pages name beside a crate, as `crate: file.rt, Module`, that isn't there, nor the crate."""
    words = {}
    for page in NAMING:
        for number, line in enumerate(read(page).split("\n"), 1):
            for crate, places in PLACES.findall(line):
                if not os.path.isdir(path("crates", crate)):
                    yield f"{page}:{number}: there is no crate {crate}"
                    continue
                if crate not in words:
                    files = [file for kind in ("src", "specs", "proofs") for file in glob.glob(path("crates", crate, kind, "**", "*.*"), recursive=True)]
                    words[crate] = {os.path.basename(file).removesuffix(".antt") for file in files}.union(*(re.findall(r"\w+", read(file)) for file in files))
                for name in NAMES.findall(places):
                    if name not in words[crate]:
                        yield f"{page}:{number}: {crate} has no {name}"


def print_above():
    graph = {crate: below for _, crates in groups() for crate, below in crates}
    for crate, some in sorted(above(graph).items(), key=lambda pair: (-len(pair[1]), pair[0])):
        print(f"{len(some):4} {crate}")


def main():
    if sys.argv[1:] == ["--above"]:
        print_above()
        return 0
    if sys.argv[1:] == ["--check"]:
        unknown = list(strangers())
        print(*unknown, sep="\n", end="\n" if unknown else "")
        stale = int(bool(unknown))
    else:
        stale = 0
    for name, new in ((PAGE, page()), (MAP, map_page())):
        old = read(name) if os.path.exists(path(name)) else ""
        if sys.argv[1:] == ["--check"]:
            for line in difflib.unified_diff(old.split("\n"), new.split("\n"), name, "from the crates", lineterm="", n=0):
                print(line)
            stale = stale or int(old != new)
        elif old != new:
            with open(path(name), "w", encoding="utf-8") as file:
                file.write(new)
    return stale


if __name__ == "__main__":
    sys.exit(main())
