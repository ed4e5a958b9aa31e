#!/usr/bin/env python3
"""Compares what the program says of files of traces, changed at random, with an independent reading of them.

Run it from any folder: diff/packs.py FILES [COUNT] [SEED] [PROGRAM]. FILES is as in diff/synth.py: `library`, `random`, `rows` or `each`. Of each
layer file the traces are written as `pack` writes them (fusing.py); the file is then given to `replay --with` as it is, and changed: lines left
out, repeated, put elsewhere, made longer or shorter by a byte, numbers and operators made others, bound numbers written out in their place, and
the file cut off at a byte. The program must end with the line that the reading has (`bypass: line N`, `bypass: entry E case C op K`), or, where
the file is accepted, write the report of the replay without `--with`. It prints the differences, how many files were accepted, how many differed,
how many were out of form, and ends with 1 where there is a difference.
"""
import collections
import os
import random
import re
import sys
import tempfile

sys.path.insert(0, os.path.dirname(os.path.abspath(__file__)))
import fusing
import reading
import replay
import synth
from fusing import BODY, MEMBERS, NOTHING, PEER, Bind, Check, Event, Message, Note, Out, Push, Set, Take, Term, over

MOST_BRACKETS = 200
LONGEST_FILE = 33_554_432
KINDS = set(reading.KINDS)
CARRIERS = {"Cast", "Send"}
NUMBERS = {"Stable": 2, "Ack": 2}
FUNCTIONS = {"not", "bit", "count", "lowest"}
NAME = re.compile(r"[A-Za-z0-9_.]*")
PLAIN = re.compile(r"0|[1-9][0-9]*")


class OutOfForm(Exception):
    """A line that is none."""


def plain(word):
    if not PLAIN.fullmatch(word) or int(word) > 0xFFFFFFFF:
        raise OutOfForm
    return int(word)


def below(limit, word):
    value = plain(word)
    if value >= limit:
        raise OutOfForm
    return value


class Scope:
    """What a line may name: fields that vary, what was bound and noted before it, and the queue of each row that was taken."""

    def __init__(self, layers, fields):
        self.layers, self.fields, self.binds, self.notes, self.rows = layers, fields, 0, 0, []

    def place(self, word):
        return below(len(self.layers), word)

    def cell(self, words):
        if len(words) != 2:
            raise OutOfForm
        place = self.place(words[0])
        declared = self.layers[place].declared.get(words[1])
        if declared is None or declared["what"] not in ("int", "queue"):
            raise OutOfForm
        return (place, words[1]), declared

    def items(self, cell):
        """The labels of a queue's numbers, and whether its rows have a message."""
        items = self.layers[cell[0]].declared[cell[1]]["items"]
        return [word for (word, _), sort in items if sort == "int"], any(sort != "int" for _, sort in items)

    def row(self, word):
        number = below(len(self.rows), word)
        return number, self.items(self.rows[number])

    def atom(self, words):
        """The number that a name is, if no cell is read for it; None where it is another name."""
        kind, *rest = words
        try:
            if not rest:
                return PEER if kind == "peer" else fusing.number(plain(kind))
            if len(rest) == 1 and kind == "in":
                return Term("in", (below(self.fields, rest[0]),))
            if len(rest) == 1 and kind == "t":
                return Term("t", (below(self.binds, rest[0]),))
            if len(rest) == 2 and kind == "row":
                number, (labels, _) = self.row(rest[0])
                return Term("item", (number, rest[1])) if rest[1] in labels else None
        except OutOfForm:
            pass
        return None

    def core(self, words):
        kind, *rest = words
        try:
            if not rest:
                return {"body": BODY, "nothing": NOTHING}.get(kind)
            if len(rest) == 1 and kind == "m":
                return Term("m", (below(self.notes, rest[0]),))
            if len(rest) == 1 and kind == "row":
                number, (_, carries) = self.row(rest[0])
                return Term("row", (number,)) if carries else None
        except OutOfForm:
            pass
        return None

    def learn(self, o):
        self.binds += isinstance(o, Bind)
        self.notes += isinstance(o, Note)
        if isinstance(o, Take):
            self.rows.append(o.cell)


class Line:
    """A line that is read from its front."""

    def __init__(self, text, scope):
        self.text, self.at, self.scope = text, 0, scope

    def next(self):
        return self.text[self.at:self.at + 1]

    def the(self, wanted):
        if not self.text.startswith(wanted, self.at):
            raise OutOfForm
        self.at += len(wanted)

    def name(self):
        found = NAME.match(self.text, self.at)
        self.at = found.end()
        return found.group().split(".")

    def word(self):
        end = self.text.find(" ", self.at)
        end = len(self.text) if end < 0 else end
        word, self.at = self.text[self.at:end], end
        return word

    # Expressions, by how many more brackets may be opened.

    def index(self, left):
        self.the("[")
        index = self.number(deeper(left))
        self.the("]")
        return index

    def number(self, left):
        if self.next() == "(":
            self.the("(")
            return self.operation(left)
        words = self.name()
        atom = self.scope.atom(words)
        if atom is not None:
            return atom
        if len(words) > 1:
            return self.number_of_cell(words, left)
        return self.call(words[0], left)

    def operation(self, left):
        first = self.number(deeper(left))
        self.the(" ")
        operator = self.word()
        if operator not in reading.OPERATORS:
            raise OutOfForm
        self.the(" ")
        second = self.number(deeper(left))
        self.the(")")
        return over(operator, first, second)

    def number_of_cell(self, words, left):
        cell, declared = self.scope.cell(words)
        if declared["what"] != "int":
            raise OutOfForm
        return Term("cell", cell, tuple(self.index(left) for _ in range(declared["shape"])))

    def call(self, word, left):
        if word in ("me", "n", "ltime"):
            return MEMBERS if word == "n" else Term(word)
        if word not in {"len", "at", "size", "pick"} | FUNCTIONS:
            raise OutOfForm
        self.the("(")
        if word in ("len", "at"):
            return self.of_queue(word, left)
        if word == "size":
            parts = [self.message(deeper(left))]
        else:
            parts = self.numbers_between(3 if word == "pick" else 1, left)
        self.the(")")
        return over(word, *parts)

    def numbers_between(self, many, left):
        numbers = [self.number(deeper(left))]
        for _ in range(many - 1):
            self.the(",")
            numbers.append(self.number(deeper(left)))
        return numbers

    def of_queue(self, word, left):
        cell, index = self.queue(deeper(left))
        if word == "len":
            self.the(")")
            return Term("len", cell, index)
        self.the(",")
        row = self.number(deeper(left))
        self.the(").")
        label = self.name()
        if len(label) != 1 or label[0] not in self.scope.items(cell)[0]:
            raise OutOfForm
        return Term("at", (*cell, label[0]), (*index, row))

    def queue(self, left):
        cell, declared = self.scope.cell(self.name())
        if declared["what"] != "queue":
            raise OutOfForm
        return cell, (self.index(left),) if declared["array"] else ()

    def message(self, left):
        words = self.name()
        core = self.scope.core(words)
        if core is not None:
            return core
        if words[0] not in ("held", "cut", "tail", "join") or len(words) > 1:
            raise OutOfForm
        self.the("(")
        made = self.built(words[0], left)
        self.the(")")
        return made

    def built(self, word, left):
        if word == "held":
            cell, index = self.queue(deeper(left))
            self.the(",")
            row = self.number(deeper(left))
            if not self.scope.items(cell)[1]:
                raise OutOfForm
            return Term("held", cell, (*index, row))
        parts = [self.message(deeper(left))]
        for _ in range({"cut": 2, "tail": 1, "join": 1}[word]):
            self.the(",")
            parts.append(self.message(deeper(left)) if word == "join" else self.number(deeper(left)))
        return over(word, *parts)

    # What is sent.

    def link(self, place):
        layer = self.scope.layers[place] if place < len(self.scope.layers) else None
        words = self.name()
        if layer is None or len(words) != 2 or words[0] != layer.name:
            raise OutOfForm
        tags = [k for k in range(len(layer.headers) + 1) if layer.header_name(k) == words[1]]
        if not tags:
            raise OutOfForm
        self.the("(")
        fields = []
        for k in range(layer.field_count(tags[0])):
            if k:
                self.the(",")
            fields.append(self.the_atom())
        self.the(")")
        return (place, tags[0], tuple(fields))

    def the_atom(self):
        atom = self.scope.atom(self.name())
        if atom is None:
            raise OutOfForm
        return atom

    def chain(self, place):
        """The known headers after a message, which may be missing."""
        if self.next() != " ":
            return ()
        self.the(" ")
        links = [self.link(place)]
        while self.next() == "/" and len(links) <= len(self.scope.layers):
            self.the("/")
            links.append(self.link(place + len(links)))
        return tuple(links)

    def the_core(self):
        core = self.scope.core(self.name())
        if core is None:
            raise OutOfForm
        return core

    def sent(self, kind):
        """The numbers of a kind's events, and the message where they have one."""
        numbers = [self.the_atom()]
        for _ in range(NUMBERS.get(kind, 1) - 1):
            self.the(",")
            numbers.append(self.the_atom())
        if kind not in CARRIERS:
            return numbers, None
        self.the(",")
        return numbers, self.the_core()

    # Operations.

    def whole(self):
        word = self.word()
        reads = {"bind": self.bind, "note": self.note, "check": self.check, "set": self.set, "push": self.push, "take": self.take, "out": self.out}.get(word)
        if reads is None:
            raise OutOfForm
        self.the(" ")
        o = reads()
        if self.at != len(self.text):
            raise OutOfForm
        return o

    def bind(self):
        self.the(f"t.{self.scope.binds} = ")
        return Bind(self.number(MOST_BRACKETS))

    def note(self):
        self.the(f"m.{self.scope.notes} = ")
        return Note(self.message(MOST_BRACKETS))

    def check(self):
        return Check(self.number(MOST_BRACKETS))

    def set(self):
        words = self.name()
        target = self.number_of_cell(words, MOST_BRACKETS)
        self.the(" = ")
        return Set(target.names, target.parts, self.number(MOST_BRACKETS))

    def push(self):
        cell, index = self.queue(MOST_BRACKETS)
        labels, carries = self.scope.items(cell)
        self.the(" (")
        numbers, message = [], None
        for k, _ in enumerate(labels):
            if k:
                self.the(",")
            numbers.append(self.number(deeper(MOST_BRACKETS)))
        if carries:
            if labels:
                self.the(",")
            core = self.the_core()
            message = Message(True, self.chain(cell[0] + 1), core)
        self.the(")")
        return Push(cell, index, tuple(numbers), message)

    def take(self):
        cell, index = self.queue(MOST_BRACKETS)
        self.the(f" row.{len(self.scope.rows)}")
        return Take(cell, index)

    def out(self):
        direction = self.word()
        if direction not in ("up", "down"):
            raise OutOfForm
        self.the(" ")
        kind = self.name()
        if len(kind) != 1 or kind[0] not in KINDS:
            raise OutOfForm
        self.the("(")
        numbers, core = self.sent(kind[0])
        self.the(")")
        message = None if core is None else Message(True, self.chain(0) if direction == "down" else (), core)
        return Out(direction, Event(kind[0], tuple(numbers), message))


def deeper(left):
    if left == 0:
        raise OutOfForm
    return left - 1


# Files.

Due = collections.namedtuple("Due", "name case fields own")


def dues_of(made):
    return [Due(entry.name, case + 1, sum(f is None for f in entry.fields), one.trace)
            for entry, cases in made for case, one in enumerate(cases) if one and not one.reason]


def lines_of(text):
    if not text:
        return []
    return (text[:-1] if text.endswith("\n") else text).split("\n")


def traces_of(layers, dues, text):
    """The traces of a file, or the number of its first line that is out of form."""
    traces, waiting, scope, left, ended = [], list(dues), None, 0, False
    for number, line in enumerate(lines_of(text), 1):
        due = waiting[0] if waiting else None
        if number == 1:
            if line != "bypasses 1":
                return 1
        elif ended:
            return number
        elif line == (f"entry {due.name} case {due.case}" if due else "end"):
            if due:
                traces.append([])
                waiting.pop(0)
                scope, left = Scope(layers, due.fields), fusing.LONGEST
            else:
                ended = True
        else:
            try:
                if scope is None:
                    raise OutOfForm
                o = Line(line, scope).whole()
                if not isinstance(o, Note):
                    left -= 1
                    if left < 0:
                        raise OutOfForm
            except OutOfForm:
                return number
            scope.learn(o)
            traces[-1].append(o)
    return traces if ended else len(lines_of(text)) + 1


class Acts:
    """What a trace does besides binding and noting, each term as its value: cells by how often they were written before."""

    def __init__(self, operations):
        self.bound, self.noted, self.writes, self.list = [], [], collections.Counter(), []
        for o in operations:
            self.does(o)

    def value(self, t):
        if t.what == "t":
            return self.bound[t.names[0]]
        if t.what == "m":
            return self.noted[t.names[0]]
        names = t.names
        if t.what in ("cell", "len", "at", "held"):
            names = (*names, self.writes[names[:2]])
        return Term("=" + t.what, names, tuple(map(self.value, t.parts)))

    def values(self, terms):
        return tuple(map(self.value, terms))

    def message(self, m):
        return m and (tuple((place, tag, self.values(fields)) for place, tag, fields in m.chain), self.value(m.rest))

    def does(self, o):
        if isinstance(o, Bind):
            self.bound.append(self.value(o.value))
        elif isinstance(o, Note):
            self.noted.append(self.value(o.message))
        elif isinstance(o, Check):
            self.list.append(("check", self.value(o.condition)))
        elif isinstance(o, Out):
            self.list.append(("out", o.direction, o.event.kind, self.values(o.event.numbers), self.message(o.event.message)))
        else:
            self.list.append(self.change(o))
            self.writes[o.cell] += 1

    def change(self, o):
        if isinstance(o, Set):
            return ("set", o.cell, self.values(o.index), self.value(o.value))
        if isinstance(o, Push):
            return ("push", o.cell, self.values(o.index), self.values(o.numbers), self.message(o.message))
        return ("take", o.cell, self.values(o.index))


def first_difference(one, other):
    return next((k for k, (x, y) in enumerate(zip(one, other)) if x != y), None if len(one) == len(other) else min(len(one), len(other)))


def judged(layers, dues, text):
    """What the program has to say of a file, and nothing where it is accepted."""
    if len(text) > LONGEST_FILE:
        return "bypass: too large"
    traces = traces_of(layers, dues, text)
    if isinstance(traces, int):
        return f"bypass: line {traces}"
    for due, trace in zip(dues, traces):
        at = first_difference(Acts(trace).list, Acts(due.own).list)
        if at is not None:
            return f"bypass: entry {due.name} case {due.case} op {at}"
    return ""


# Changes.

def line_changed(r, lines):
    k = r.randrange(len(lines))
    way = r.randrange(6)
    if way == 0:
        del lines[k]
    elif way == 1:
        lines.insert(k, lines[k])
    elif way == 2:
        line = lines.pop(k)
        lines.insert(min(len(lines), max(0, k + r.choice((-3, -2, -1, 1, 2, 3)))), line)
    elif way == 3:
        lines.insert(k, r.choice(("bind t.0 = peer", "note m.0 = body", "check 1", "end", "", "entry cast case 1", "check (1 == 1)")))
    else:
        at = r.randrange(len(lines[k]) + 1)
        lines[k] = lines[k][:at] + (r.choice(" .,()[]0159mtknx=") if way == 4 else "") + lines[k][at + (way == 5):]


def number_changed(r, lines):
    k = r.randrange(len(lines))
    found = list(re.finditer(r"\d+", lines[k]))
    if found:
        one = r.choice(found)
        lines[k] = lines[k][:one.start()] + str(r.choice((0, 1, 2, int(one.group()) + 1, 4294967296))) + lines[k][one.end():]


def operator_changed(r, lines):
    k = r.randrange(len(lines))
    found = list(re.finditer(r" (\+|-|\*|==|!=|<|<=|>|>=|and|or|&|\||\^) ", lines[k]))
    if found:
        one = r.choice(found)
        lines[k] = lines[k][:one.start()] + f" {r.choice(sorted(reading.OPERATORS))} " + lines[k][one.end():]


def written_out(r, lines):
    """A bound number is written out in one place where it is named, which is allowed where an expression may stand."""
    named = [(k, found) for k, line in enumerate(lines) for found in re.finditer(r"\bt\.(\d+)\b(?! =)", line)]
    if not named:
        return
    k, found = r.choice(named)
    for line in reversed(lines[:k]):
        bound = re.fullmatch(rf"bind t\.{found.group(1)} = (.*)", line)
        if bound:
            lines[k] = lines[k][:found.start()] + bound.group(1) + lines[k][found.end():]
            return


CHANGES = (line_changed, number_changed, operator_changed, written_out, written_out)


def changed(r, text):
    if r.random() < 0.15:
        return text[:r.randrange(len(text) + 1)]
    lines = lines_of(text)
    for _ in range(r.choice((1, 1, 1, 2, 3))):
        if lines:
            r.choice(CHANGES)(r, lines)
    return "\n".join(lines) + r.choice(("\n", "\n", "\n", "", "\n\n"))


SCRIPT = b"group 1 stamp 1 members 2\ncast 0 61\ngive 1 1\nsend 0 1 62\ngive 2 1\ntick 0 5\ncast 1 63\ngive 3 0\n"


class Comparison:
    def __init__(self, program, folder, r):
        replay.PROGRAM = program
        self.paths = [os.path.join(folder, name) for name in ("stack.layers", "one.script", "traces.bypasses")]
        self.r, self.files, self.wrong, self.counts = r, 0, 0, collections.Counter()
        self.put(1, SCRIPT)

    def put(self, k, text):
        with open(self.paths[k], "wb") as file:
            file.write(text)

    def compare(self, text):
        self.put(0, text)
        layers = fusing.layers_of(text)
        made = fusing.all_made(layers)
        packed = "".join(line + "\n" for line in fusing.packed_lines(layers, made))
        report = replay.answer(["replay", *self.paths[:2], "--count", "--wire"])
        if report[2] != 0:
            return
        for number in range(13):
            traces = packed if number == 0 else changed(self.r, packed)
            said = judged(layers, dues_of(made), traces)
            self.counts["accepted" if not said else said.split()[1]] += 1
            self.compare_one(text, traces, report if not said else ("", said, 9))
        fusing.forget()

    def compare_one(self, text, traces, wanted):
        self.files += 1
        self.put(2, traces.encode())
        got = replay.answer(["replay", *self.paths[:2], "--with", self.paths[2], "--count", "--wire"])
        if got != wanted:
            self.wrong += 1
            kept = os.path.join(tempfile.gettempdir(), f"differs-packs-{os.getpid()}-{self.files}")
            for ending, content in ((".layers", text), (".script", SCRIPT), (".bypasses", traces.encode())):
                with open(kept + ending, "wb") as file:
                    file.write(content)
            print(f"{kept}: the program answers {got}, the reading {wanted}"[:1000])


def main():
    words = sys.argv[1:] or ["library"]
    count, seed = int(words[1]) if len(words) > 1 else 100, int(words[2]) if len(words) > 2 else 1
    with tempfile.TemporaryDirectory() as folder:
        comparison = Comparison(words[3] if len(words) > 3 else synth.PROGRAM, folder, random.Random(seed))
        for text in synth.files_of(words[0], count, seed):
            comparison.compare(text)
    told = ", ".join(f"{word} {many}" for word, many in comparison.counts.most_common())
    print(f"{comparison.files} files of traces, {comparison.wrong} differences: {told}")
    sys.exit(1 if comparison.wrong else 0)


if __name__ == "__main__":
    main()
