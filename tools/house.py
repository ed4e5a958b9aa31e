#!/usr/bin/env python3
"""Counts what the house asks of the sources: lines of functions, arguments, columns, what stands twice, comments, must-fail edits, crates, pages.

    tools/house.py            prints a table
    tools/house.py --names    and the worst of each kind, with their places
    tools/house.py --check    says which bound of the table below is passed, and ends with 1 where one is

A bound is what a state had that was handed over: it is lowered when there is less, and never raised.
"""
import collections
import glob
import os
import re
import sys

TOP = os.path.join(os.path.dirname(os.path.abspath(__file__)), "..")
LONGEST_BODY = 40
MOST_ARGUMENTS = 5
COLUMNS = 120
TWICE = 12
MANY_CRATES = 3
MOST_EDITS = 2
COSTLY = 120  # processor seconds of a crate's proof (bench/costs.tsv), of which an edit takes up to as many
PROVED = ("src/**/*.rt", "specs/**/*.antt", "proofs/**/*.antt")

# What there may be at most.
BOUNDS = {
    "bodies": 40,  # of over LONGEST_BODY lines
    "arguments": 64,  # functions that take over MOST_ARGUMENTS
    "wide": 8,  # lines of over COLUMNS columns
    "bare": 1,  # public items of the code without a comment
    "bare definitions": 0,  # public definitions of crates of meanings without a comment
    "bare words": 1013,  # those of all other crates
    "types": 0,  # names of public types that stand in MANY_CRATES crates
    "homes": 8,  # limits with a second home, and names with one number in two crates
    "edits": 0,  # must-fail edits that can't be applied, and crates with over MOST_EDITS of them or with some where a check is COSTLY
    "words of README.md": 1200,
}

# Limits, each with the constants that are this number: one home for each subject. What cites one cites its constant.
LIMITS = {
    "rows with messages of a member": (8_192, "stack_judge.MOST_ROWS"),
    "bytes of a body": (8_192, "msg_core.LONGEST_BODY", "slot_pool.LONGEST"),  # (slot_pool stands below all that knows messages)
    "tasks that follow from an entry": (65_536, "stack_judge.WEIGHT_LIMIT"),
    "joins that follow from an entry": (1_024, "stack_judge.JOINS_LIMIT"),
    "visits of a shape": (256, "shape_core.MOST_VISITS"),
    "visits, outputs and headers of a common entry": (4_096, "stack_shapes.LONGEST_SHAPE"),
    "plans": (250, "stack_shapes.MOST_PLANS"),
    "headers of a message": (24, "msg_core.MOST_HEADERS"),
    "bytes of a layer file": (1_048_576, "layer_ast.LONGEST_FILE"),
    "bytes of a script": (4_194_304, "script_text.LONGEST_SCRIPT"),
    "lines of a script": (100_000, "script_text.MOST_LINES"),
    "digits of bytes on a line": (131_014, "script_text.MOST_DIGITS"),
    "bytes of a report": (67_108_864, "audit_judge.LONGEST_REPORT"),
    "bytes of a file of traces": (33_554_432, "pack_read.LONGEST_FILE"),
    "bytes of a datagram": (65_507, "outside.LONGEST_DATAGRAM"),
    "events of a generated script": (99_999, "job_text.MOST_GENERATED"),
    "the status of want of memory": (7, "outside.NO_MEMORY"),
}
# Constants that are one of these numbers and count something else.
OTHERS = {
    "trace_fuse.MOST_PLAN_FIELDS", "outside.GATHERED", "trace_fuse.MOST_ITEMS", "trace_fuse.MOST_ENTRY_HEADERS", "stack_shapes.PRINTS",
    "report_text.NUMBERED_CELLS", "file_parse.ROOM", "pool_message.MOST_SENT", "group_world.LEAST_ROOM", "pack_read.MOST_OPERATIONS",
    "file_names.MOST_PLACES", "file_names.MOST_DECLARED", "script_text.NO_DIGIT", "chart_draw.AXIS",
}


def paths(pattern):
    """The files of crates that a pattern names, shortest paths first."""
    return sorted(glob.glob(os.path.join(TOP, "crates", "*", pattern), recursive=True))


def lines_of(path):
    with open(path, encoding="utf-8") as file:
        return file.read().split("\n")


def short(path):
    return os.path.relpath(path, TOP)


def functions(path):
    """Each function of a file: its name, its line, how many arguments it takes, and how many lines its body has."""
    lines = lines_of(path)
    for at, line in enumerate(lines):
        head = re.match(r"( *)(?:pub(?:\([a-z]+\))? )?(?:const )?fn ([a-z_0-9]+)", line)
        if not head:
            continue
        margin, name = head.groups()
        text, end = "", at
        while end < len(lines) and not re.search(r"[{;]\s*$", lines[end]) and not lines[end].startswith(margin + "    requires"):
            text += lines[end]
            end += 1
        text += lines[end] if end < len(lines) else ""
        opened = next((k for k in range(at, len(lines)) if lines[k] == margin + "{" or (k == at and line.endswith("{"))
                       or (k > at and lines[k].startswith(margin + ")") and lines[k].endswith(" {"))), None)
        closed = next((k for k in range(opened, len(lines)) if lines[k] == margin + "}"), opened) if opened is not None else None
        yield name, at + 1, arguments(text), closed - opened - 1 if opened is not None and closed is not None else 0


def arguments(text):
    """How many arguments a head has, `self` among them."""
    start = text.index("(", text.index("fn "))
    depth, count, any_word = 0, 0, False
    for sign in text[start:]:
        depth += sign in "([{<"
        depth -= sign in ")]}>"
        if depth == 0:
            break
        any_word = any_word or (depth == 1 and sign.isalpha())
        count += depth == 1 and sign == ","
    inside = text[start + 1:]
    trailing = bool(re.search(r",\s*\)", inside))
    return count + (1 if any_word and not trailing else 0)


def chain():
    """The longest chain of crates with code, each standing on the next."""
    graph = {}
    for line in lines_of(os.path.join(TOP, "crates.txt")):
        name, colon, below = line.split("#")[0].partition(":")
        if colon:
            graph[name.split()[0]] = below.split()
    has_code = {name: not name.endswith(("_laws", "_mean", "_rows", "_tests")) and any(re.search(r"\bfn [a-z_0-9]+", "\n".join(lines_of(path)))
                          for path in paths("src/**/*.rt") if f"/crates/{name}/" in path) for name in graph}
    longest = {}

    def below(name):
        if name not in longest:
            longest[name] = max([below(other) for other in graph.get(name, []) if other in graph] or [[]], key=len)
            if has_code.get(name):
                longest[name] = longest[name] + [name]
        return longest[name]

    return len(graph), sum(has_code.values()), max((below(name) for name in graph), key=len)


def standing_twice(files):
    """Runs of lines that stand in two places, each once and as long as it is; imports, blank lines and comments apart."""
    where, texts = {}, {}
    for path in files:
        kept = [(number + 1, line.strip()) for number, line in enumerate(lines_of(path))
                if line.strip() and not re.match(r"\s*(use |ghost use |import |open |pub use |//|--|mod |pub mod )", line)]
        texts[path] = kept
        for at in range(len(kept) - TWICE + 1):
            key = "\n".join(line for _, line in kept[at:at + TWICE])
            where.setdefault(key, []).append((path, at))
    seen, found = set(), []
    for places in where.values():
        for first, second in zip(places, places[1:]):
            if (first, second) in seen:
                continue
            length = 0
            (path, at), (other, to) = first, second
            while (at + length < len(texts[path]) and to + length < len(texts[other])
                   and texts[path][at + length][1] == texts[other][to + length][1]):
                seen.add(((path, at + length), (other, to + length)))
                length += 1
            found.append((length, short(path), texts[path][at][0], short(other), texts[other][to][0]))
    return sorted(found, reverse=True)


def crate_of(path):
    return short(path).split(os.sep)[1]


def is_said(lines, at):
    """Whether a comment stands over the item at a line, or over its attributes."""
    at -= 1
    while at >= 0 and lines[at].strip() and not lines[at].strip().startswith(("//", "--", "}")):
        if lines[at].strip().endswith((";", "{", ",")) and not re.match(r"\s*(#|using|unfolding|\w+(\(|::))", lines[at]):
            return False
        at -= 1
    return at >= 0 and lines[at].strip().startswith(("//", "--"))


def bare_items():
    """Items of the code that others may use, functions of public traits among them, over which no comment stands."""
    head = re.compile(r"\s*pub(?:\([a-z]+\))? (?:const )?(?:fn|struct|enum|trait|type|const|static) (\w+)")
    inner = re.compile(r"    fn (\w+)")
    for path in paths("src/**/*.rt"):
        lines, in_trait = lines_of(path), False
        for at, line in enumerate(lines):
            in_trait = line.startswith("pub trait ") or (in_trait and line[:1] in ("", " "))
            found = head.match(line) or (in_trait and inner.match(line))
            if found and not is_said(lines, at):
                yield path, at + 1, found[1]


def bare_definitions():
    """Public definitions, those of a mutual block among them, over which no comment stands."""
    head = re.compile(r"(?:abbrev |unfoldable )?pub (?!mod |use )(?:data |record )?(\S+)")
    for path in paths("specs/**/*.antt"):
        lines, in_block = lines_of(path), False
        for at, line in enumerate(lines):
            if line and not line.startswith((" ", "--")):
                in_block = line.split()[-1] == "mutual"
            found = head.match(line) or (in_block and head.match(line.removeprefix("  ")))
            if found and not (at and lines[at - 1].strip().startswith("--")):
                yield path, at + 1, found[1]


def is_of_meaning(path):
    return crate_of(path).endswith("_mean")


def shared_types():
    """Names of public types that stand in many crates."""
    named = collections.defaultdict(set)
    for path in paths("src/**/*.rt"):
        for line in lines_of(path):
            found = re.match(r"pub (?:struct|enum|trait|type) (\w+)", line)
            if found:
                named[found[1]].add(crate_of(path))
    return sorted((name, sorted(crates)) for name, crates in named.items() if len(crates) >= MANY_CRATES)


def second_homes():
    """Constants that say a limit once more, and limits whose home is gone; and names with one number in two crates."""
    constants = {}
    for path in paths("src/**/*.rt"):
        for line in lines_of(path):
            found = re.match(r"\s*(?:pub(?:\([a-z]+\))? )?const ([A-Z_0-9]+): \w+ = ([0-9_]+);", line)
            if found and not crate_of(path).endswith("_tests"):
                constants[f"{crate_of(path)}.{found[1]}"] = int(found[2])
    homes = {home for _, *some in LIMITS.values() for home in some}
    for subject, (number, *some) in LIMITS.items():
        for home in some:
            if constants.get(home) != number:
                yield f"{home} isn't {number}, {subject}"
    numbers = {number for number, *_ in LIMITS.values()}
    for name, number in sorted(constants.items()):
        if number in numbers and name not in homes and name not in OTHERS:
            yield f"{name} is {number}, as {', '.join(s for s, (n, *_) in LIMITS.items() if n == number)}"
    alike = collections.defaultdict(list)
    for name, number in sorted(constants.items()):
        alike[name.split(".")[1], number].append(name)
    for (_, number), names in alike.items():
        if len(names) > 1:
            yield f"{' and '.join(names)} are {number}"


def edits():
    """The must-fail edits of each crate: for each file its pairs of an old line and a new one, in the file that it names."""
    for path in paths("must-fail/*.edit"):
        words = [line.partition(": ")[::2] for line in lines_of(path) if line.strip()]
        named = [text for word, text in words if word == "file"]
        old = [text for word, text in words if word == "old"]
        yield crate_of(path), path, named[0] if len(named) == 1 else None, old


def bad_edits():
    """Edits whose old lines don't stand once in their file, or that change no code; crates with many, and those where each costs too much."""
    costs = dict(line.split("\t") for line in lines_of(os.path.join(TOP, "bench", "costs.tsv")) if "\t" in line)
    many = collections.Counter(crate for crate, *_ in edits())
    for crate, count in sorted(many.items()):
        if count > MOST_EDITS:
            yield f"{crate} has {count} edits"
        if int(costs.get(crate, 0)) > COSTLY:
            yield f"{crate} has an edit, and takes {costs[crate]} seconds"
    for crate, path, named, old in edits():
        file = os.path.join(TOP, "crates", crate, named or "")
        text = "\n".join(lines_of(file)) if named and os.path.isfile(file) else ""
        if not old or any(text.count(line) != 1 for line in old):
            yield f"{short(path)} can't be applied"
        elif not named.startswith("src/") and not crate.endswith("_laws"):  # (what a law of a layer tries is the layer)
            yield f"{short(path)} changes no code"


def main():
    files = [path for pattern in PROVED for path in paths(pattern)]
    named = "--names" in sys.argv[1:]
    all_functions = [(path, *found) for path in paths("src/**/*.rt") for found in functions(path)]
    long_bodies = sorted((f for f in all_functions if f[4] > LONGEST_BODY), key=lambda f: -f[4])
    many = sorted((f for f in all_functions if f[3] > MOST_ARGUMENTS), key=lambda f: -f[3])
    wide = [(len(line), path, number + 1) for path in files for number, line in enumerate(lines_of(path)) if len(line) > COLUMNS]
    twice = standing_twice(files)
    crates, with_code, longest = chain()
    bare, all_bare, types, homes = list(bare_items()), list(bare_definitions()), shared_types(), list(second_homes())
    bare_specs, bare_words = [it for it in all_bare if is_of_meaning(it[0])], [it for it in all_bare if not is_of_meaning(it[0])]
    tried, bad = len(list(edits())), list(bad_edits())
    words = len("\n".join(lines_of(os.path.join(TOP, "README.md"))).split())
    pages = sum(os.path.getsize(path) for path in glob.glob(os.path.join(TOP, "docs", "*.md")))
    rows = [
        ("functions", len(all_functions)),
        (f"bodies over {LONGEST_BODY} lines", len(long_bodies)),
        (f"functions with over {MOST_ARGUMENTS} arguments", len(many)),
        (f"lines over {COLUMNS} columns", len(wide)),
        ("lines over 160 columns", sum(width > 160 for width, _, _ in wide)),
        ("the longest line", max((width for width, _, _ in wide), default=0)),
        (f"runs of {TWICE} lines or more that stand twice", len(twice)),
        ("items of the code without a comment", len(bare)),
        ("definitions of meanings without a comment", len(bare_specs)),
        ("definitions of other crates without a comment", len(bare_words)),
        (f"names of public types in {MANY_CRATES} crates or more", len(types)),
        ("limits with a second home", len(homes)),
        ("must-fail edits, and what is wrong with them", f"{tried}, {len(bad)}"),
        ("words of README.md", words),
        ("crates, and those with code", f"{crates}, {with_code}"),
        ("the longest chain of crates with code", len(longest)),
        ("bytes of docs/", pages),
    ]
    if sys.argv[1:] == ["--check"]:
        places = {
            "bodies": [f"{f[4]} lines: {short(f[0])}:{f[2]} {f[1]}" for f in long_bodies],
            "arguments": [f"{f[3]} arguments: {short(f[0])}:{f[2]} {f[1]}" for f in many],
            "wide": [f"{w} columns: {short(p)}:{n}" for w, p, n in wide],
            "bare": [f"no comment: {short(p)}:{n} {name}" for p, n, name in bare],
            "bare definitions": [f"no comment: {short(p)}:{n} {name}" for p, n, name in bare_specs],
            "bare words": [f"no comment: {short(p)}:{n} {name}" for p, n, name in bare_words],
            "types": [f"{name}: {' '.join(some)}" for name, some in types],
            "homes": homes,
            "edits": bad,
            "words of README.md": ["README.md"] * words,
        }
        passed = [kind for kind, most in BOUNDS.items() if len(places[kind]) > most]
        for kind in passed:
            print(f"{kind}: {len(places[kind])}, at most {BOUNDS[kind]}", *(f"  {place}" for place in dict.fromkeys(places[kind])), sep="\n")
        return int(bool(passed))
    for what, count in rows:
        print(f"{what:<48} {count}")
    if named:
        print("\nlong bodies:", *(f"  {f[4]} {short(f[0])}:{f[2]} {f[1]}" for f in long_bodies[:20]), sep="\n")
        print("\nmany arguments:", *(f"  {f[3]} {short(f[0])}:{f[2]} {f[1]}" for f in many[:20]), sep="\n")
        print("\nwide lines:", *(f"  {w} {short(p)}:{n}" for w, p, n in sorted(wide, reverse=True)[:20]), sep="\n")
        print("\ntwice:", *(f"  {length} lines: {a}:{b} and {c}:{d}" for length, a, b, c, d in twice[:40]), sep="\n")
        print("\nno comment:", *(f"  {short(p)}:{n} {name}" for p, n, name in bare + bare_specs), sep="\n")
        print("\nsecond homes:", *(f"  {home}" for home in homes), sep="\n")
        print("\nmust-fail edits:", *(f"  {it}" for it in bad), sep="\n")
        print("\nthe longest chain:", " ".join(longest))
    return 0


if __name__ == "__main__":
    sys.exit(main())
