#!/usr/bin/env python3
"""Compares the editors' grammars with how files are read: each token of a text has the class that its kind has.

Layer files are the examples, the library's layers and a text with each word, symbol and bad token; scripts and plans the examples and a text with each form;
reports those that the program in $STACKC writes of the examples, and a text with each form. TextMate grammars are run by the few lines below, Vim's by
Vim, where it is there. The list of grammars for VS Code is as they are, and Vim's list of errors has the place of a refusal.
"""
import json
import os
import re
import shutil
import subprocess
import sys
import tempfile

from tree import TOP

sys.path[:0] = [os.path.join(TOP, "tools"), os.path.join(TOP, "diff")]
import lines  # noqa: E402
import reading  # noqa: E402

SCOPES = {
    "comment": "comment", "invalid": "bad", "storage": "word", "keyword.control": "word", "keyword.operator.word": "word", "support.function": "word",
    "constant.language": "word", "support.type": "kind", "variable": "name", "constant.numeric": "number", "keyword.operator.symbol": "symbol",
    "punctuation": "mark", "string": "bytes", "constant.other.address": "address",
}
GROUPS = {
    "Comment": "comment", "Bad": "bad", "BehindNumber": "bad", "Declaration": "word", "Statement": "word", "WordOperator": "word", "Function": "word", "Constant": "word",
    "Kind": "kind", "Name": "name", "Number": "number", "Operator": "symbol", "Mark": "mark", "Bytes": "bytes", "RowBytes": "bytes", "Address": "address",
    "Word": "word", "Message": "word", "EventWord": "word", "Event": "symbol", "None": "word", "All": "word",
}
REPORT = {
    "deliver": "M KIND M HEX", "block": "M M", "announce": "M M", "timer": "M M", "packet": "M M DEST CHAIN HEX", "view": "M M M", "out": "M", "refused": "M WORD",
    "absent": "M M", "state": "M M M", "cell": "M M CELL", "wire": "M HEX", "lost": "M", "deaf": "M", "end": "M", "visits": "M",
}


class TextMate:
    """A grammar of matches and captures, run on one line at a time."""

    def __init__(self, kind):
        with open(os.path.join(TOP, "editors", f"{kind}.tmLanguage.json"), encoding="utf-8") as file:
            self.grammar = json.load(file)

    def patterns(self, some):
        for pattern in some:
            if "include" in pattern:
                yield from self.patterns(self.grammar["repository"][pattern["include"][1:]]["patterns"])
            else:
                yield pattern

    def mark(self, line, at, end, patterns, scopes):
        """Marks the part of a line from `at` to `end` by the first match of all, again and again."""
        while at < end:
            found = [(m.start(), k, m, p) for k, p in enumerate(patterns) if (m := re.compile(p["match"]).search(line, at, end)) and m.end() > m.start()]
            if not found:
                return
            _, _, m, pattern = min(found, key=lambda f: f[:2])
            if "name" in pattern:
                scopes[m.start():m.end()] = [pattern["name"]] * (m.end() - m.start())
            for number, capture in pattern.get("captures", {}).items():
                start, stop = m.span(int(number))
                if "patterns" in capture:
                    self.mark(line, start, stop, list(self.patterns(capture["patterns"])), scopes)
                elif start >= 0:
                    scopes[start:stop] = [capture["name"]] * (stop - start)
            at = m.end()

    def classes(self, text):
        """The class of each column of each line."""
        patterns = list(self.patterns(self.grammar["patterns"]))
        for line in text.split("\n"):
            scopes = [""] * len(line)
            self.mark(line, 0, len(line), patterns, scopes)
            yield [next((SCOPES[key] for key in SCOPES if scope.startswith(key)), scope) for scope in scopes]


VIM = """
set nocompatible
execute 'set runtimepath^=' . fnameescape($GRAMMARS)
filetype on
syntax on
let rows = []
for name in split($TEXTS, "\\n")
  execute 'edit ' . fnameescape(name)
  for number in range(1, line('$'))
    call add(rows, join(map(range(1, len(getline(number))), 'synIDattr(synID(number, v:val, 0), "name") . "."'), ' '))
  endfor
  call add(rows, '=')
endfor
call writefile(rows, $CLASSES)
qall!
"""


def vim_classes(texts):
    """The classes of the columns of the lines of each text, by Vim; its kind is told by its name's end."""
    with tempfile.TemporaryDirectory() as folder:
        names = []
        for k, (kind, text) in enumerate(texts):
            names.append(os.path.join(folder, f"{k}.{kind}"))
            with open(names[-1], "w", encoding="utf-8") as file:
                file.write(text)
        program, out = os.path.join(folder, "run.vim"), os.path.join(folder, "classes")
        with open(program, "w", encoding="utf-8") as file:
            file.write(VIM)
        env = {**os.environ, "GRAMMARS": os.path.join(TOP, "editors", "vim"), "TEXTS": "\n".join(names), "CLASSES": out}
        subprocess.run(["vim", "-es", "-u", program], env=env, stdin=subprocess.DEVNULL, stdout=subprocess.DEVNULL, check=False)
        with open(out, encoding="utf-8") as file:
            found = file.read().split("\n=\n")
    for part in found[:len(texts)]:
        yield [[GROUPS.get(re.sub("^[a-z]+", "", group.rstrip(".")), group) for group in row.split()] for row in part.split("\n")]


def manifest():
    """What editors/package.json has otherwise than the grammars that stand beside it, or than Vim's list of file names."""
    folder, wrong = os.path.join(TOP, "editors"), []
    with open(os.path.join(folder, "package.json"), encoding="utf-8") as file:
        its = json.load(file)["contributes"]
    with open(os.path.join(folder, "vim", "ftdetect", "stackc.vim"), encoding="utf-8") as file:
        names = {words.split()[-1]: sorted(re.findall(r"\*(\.\w+)", words)) for words in file if words.startswith("autocmd")}
    endings = {language["id"]: sorted(language["extensions"]) for language in its["languages"]}
    if endings != names:
        wrong.append(f"package.json has {endings}, and Vim {names}")
    for grammar in its["grammars"]:
        with open(os.path.join(folder, grammar["path"]), encoding="utf-8") as file:
            own = json.load(file)
        if own["scopeName"] != grammar["scopeName"] or sorted(f".{ending}" for ending in own["fileTypes"]) != endings[grammar["language"]]:
            wrong.append(f"package.json isn't as {grammar['path']}")
    return wrong + [f"{path} isn't there" for path in {language.get("configuration", ".") for language in its["languages"]} if not os.path.exists(os.path.join(folder, path))]


QUICK = r"""
set nocompatible
let &runtimepath = $GRAMMARS . ',' . &runtimepath
filetype plugin on
execute 'edit ' . $TEXTS
cgetexpr ['file: unexpected 2:3', 'a.layers:2:3: `}` is wanted: here', '  ?', '  ^', 'stackc: this build is not proved']
let found = map(filter(getqflist(), 'v:val.valid'), '[fnamemodify(bufname(v:val.bufnr), ":t"), v:val.lnum, v:val.col, trim(v:val.text)]')
call writefile([json_encode([&commentstring, &makeprg =~# 'refusal.py.* run .*stackc.* check %', found])], $CLASSES)
qall!
"""


def quick():
    """Whether Vim has comments of layer files, and takes the place of a refusal for an error."""
    with tempfile.TemporaryDirectory() as folder:
        program, out = os.path.join(folder, "run.vim"), os.path.join(folder, "found")
        with open(program, "w", encoding="utf-8") as file:
            file.write(QUICK)
        env = {**os.environ, "GRAMMARS": os.path.join(TOP, "editors", "vim"), "TEXTS": os.path.join(folder, "a.layers"), "CLASSES": out}
        subprocess.run(["vim", "-es", "-u", program], env=env, cwd=folder, stdin=subprocess.DEVNULL, stdout=subprocess.DEVNULL, check=False)
        with open(out, encoding="utf-8") as file:
            return json.load(file) == ["# %s", 1, [["a.layers", 2, 3, "`}` is wanted: here"]]]


def layer_tokens(text):
    """The tokens of a layer file as they are read, each with its line, its columns and its class."""
    tokens = reading.Tokens(text.encode())
    while tokens.token[0] != "end":
        kind, word = tokens.token
        line, col = tokens.at
        name = str(word)
        if kind == "sign":
            kind = "kind" if word in reading.KINDS else "word" if word.isalpha() else "symbol" if word in reading.OPERATORS | {"="} else "mark"
        yield line, col, col + len(name), kind
        tokens.next()
    for k, line in enumerate(text.split("\n")):
        if "#" in line:
            yield k + 1, line.index("#") + 1, len(line) + 1, "comment"


FORM = {"M": "number", "K": "number", "D": "number", "TIME": "number", "HEX": "bytes", "KIND": "word", "WORD": "word", "PEER": "address"}


def placed(words, kinds, number, col):
    """Words with one space between, each with its class."""
    for word, kind in zip(words, kinds):
        yield number, col, col + len(word), kind
        col += len(word) + 1


def event_kinds(words):
    return ["word"] + [FORM[name] for name in lines.EVENTS[words[0]]]


def script_tokens(text):
    for k, line in enumerate(text.split("\n")):
        words = line.split(" ")
        if not line:
            continue
        if line.startswith("#"):
            yield k + 1, 1, len(line) + 1, "comment"
        elif words[0] == "group":
            yield from placed(words, ["word", "number"] * 3, k + 1, 1)
        elif words[0] == "peer":
            yield from placed(words, ["word", "number", "address"], k + 1, 1)
        elif words[0] == "turn":
            yield from placed(words, ["word", "number"] + event_kinds(words[2:]), k + 1, 1)
        else:
            yield from placed(words, event_kinds(words), k + 1, 1)


PIECE = re.compile(r"(?P<bytes>(?<=:)(?:-|[0-9a-f]+)(?=\]))|(?P<name>[A-Za-z]\w*)|(?P<number>[0-9]+)|(?P<word>-)|(?P<mark>[\[\]./(),:])")


def report_tokens(text):
    for k, line in enumerate(text.split("\n")):
        words = line.split(" ")
        if words[0] == ">":
            yield from placed(words, ["symbol"] + event_kinds(words[1:]), k + 1, 1)
        elif line:
            yield from report_line(words, k + 1, line)


def report_line(words, number, line):
    form = REPORT[words[0]].split() if words[-1] != "out" else ["M", "WORD"]
    at = 1 + len(words[0]) + 1
    yield number, 1, 1 + len(words[0]), "word"
    for name, word in zip(form, words[1:]):
        if name in ("CHAIN", "CELL"):
            part = word if name == "CHAIN" else line[at - 1:]
            for m in PIECE.finditer(part):
                yield number, at + m.start(), at + m.end(), m.lastgroup
        else:
            kind = ("number" if word.isdigit() else "word") if name == "DEST" else FORM[name]
            yield number, at, at + len(word), kind
        at += len(word) + 1


FORMS = """group 1 stamp 2 members 32
peer 0 127.0.0.1:47110
turn 3 send 0 1 -
turn 4 leave 1
cast 0 00ff
send 1 2 1234
leave 0
tick 0 7
give 1 0
raw 0 12
state 0
"""
WRITTEN = """deaf 1
lost 3
refused 0 plan
out 1
state 1 out
block 0 1
announce 0 3
timer 0 200
deliver 1 send 0 -
> send 0 1 12
> cast 0 -
> leave 0
> state 1
> raw 0 e5
> tick 0 1
> give 1 0
"""


def texts():
    """All texts: their kinds and what is wanted of them."""
    every = sorted(reading.RESERVED)
    spelled = "\n".join(every) + "\n" + " ".join(reading.SYMBOLS) + "\n0 7 4294967295 a_1 a" + "b" * 31 + " layers _x"[:7] + " # a comment: layer 1 {\n"
    for text in [spelled, *(text.decode() for text in reading.library().values()), *examples("layers")]:
        yield "layers", text, list(layer_tokens(text))
    bad = "007 4294967296 99999999999 a" + "b" * 32 + " $ 7x \"\n"
    places = ((1, 4), (5, 15), (16, 27), (28, 61), (62, 63), (65, 66), (67, 68))
    yield "layers", bad, [(1, col, end, "bad") for col, end in places] + [(1, 64, 65, "number")]
    for text in [FORMS, *examples("script"), *examples("plan")]:
        yield "script", text, list(script_tokens(text))
    for line in ("cast 0 hello", "cast  0 61", "tick 0", "group 1 stamp 1 members 33", "turn 3 tick 0 1", "state 01"):
        yield "script", line, [(1, 1, len(line) + 1, "bad")]
    for text in [WRITTEN, *reports()]:
        yield "report", text, list(report_tokens(text))
    for line in ("deliver 0 cast 6a", "packet 1 0 all 61", "refused 0 why", "> turn 1 leave 0", "holds"):
        yield "report", line, [(1, 1, len(line) + 1, "bad")]


def examples(end):
    folder = os.path.join(TOP, "examples")
    for name in sorted(os.listdir(folder)):
        if name.endswith("." + end):
            with open(os.path.join(folder, name), encoding="utf-8") as file:
                yield file.read()


QUEUES = """layer keep {
  state queue q[n][4] of (k: int, m: msg);
  state queue r[4] of (k: int);
  up Cast(o, m) { push q[o] (o, m) else { } up Cast(o, m); }
}
stack { bottom; keep; mnak; }
"""


def reports():
    """What the program writes of the examples, and of rows with messages."""
    folder = os.path.join(TOP, "examples")
    with tempfile.TemporaryDirectory() as mine:
        for name, text in (("keep.layers", QUEUES), ("keep.script", "group 1 stamp 1 members 2\ncast 0 6869\ngive 1 1\ncast 0 -\ngive 2 1\nstate 1\n")):
            with open(os.path.join(mine, name), "w", encoding="utf-8") as file:
                file.write(text)
        for layers, script in (("order", "order"), ("counter", "twice"), ("views", "views"), (f"{mine}/keep", f"{mine}/keep")):
            words = [os.environ["STACKC"], "replay", f"{layers}.layers", f"{script}.script", "--wire", "--count"]
            yield subprocess.run(words, cwd=folder, stdout=subprocess.PIPE, check=True).stdout.decode()


def compare(what, text, wanted, found):
    """How many tokens don't have their class."""
    rows, differs = list(found), 0
    for line, col, end, kind in wanted:
        got = set(rows[line - 1][col - 1:end - 1])
        if got - {kind}:
            differs += 1
            print(f"{what}: `{text.splitlines()[line - 1][col - 1:end - 1]}` in `{text.splitlines()[line - 1]}` is {kind}, and not {got}")
    return differs


def main():
    every = list(texts())
    engines = {kind: TextMate(kind) for kind in ("layers", "script", "report")}
    differs = sum(compare("TextMate", text, wanted, engines[kind].classes(text)) for kind, text, wanted in every)
    vim = "no vim"
    if shutil.which("vim"):
        vim = sum(compare("Vim", text, wanted, found) for (_, text, wanted), found in zip(every, vim_classes([(k, t) for k, t, _ in every])))
        differs += vim
        if not quick():
            differs += 1
            print("Vim doesn't take the place of a refusal for an error")
    for what in manifest():
        differs += 1
        print(what)
    print(f"grammars: {len(every)} texts, {sum(len(wanted) for _, _, wanted in every)} tokens, {differs} not of their class ({vim} in Vim)")
    sys.exit(differs != 0)


if __name__ == "__main__":
    main()
