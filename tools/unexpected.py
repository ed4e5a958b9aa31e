"""What is said of a token that no file goes on with: what stands there, what is wanted, and what is usually meant.

The grammar is that of diff/reading.py, watched as it reads: which tokens it asks for at a place, and within what.
"""
import difflib
import os
import sys

sys.path.insert(0, os.path.join(os.path.dirname(os.path.abspath(__file__)), "..", "diff"))
import reading  # noqa: E402

BRACKETS = {"{": "}", "(": ")", "[": "]"}
FUNCTIONS = set("not bit count lowest size len at held cut tail join pick".split())
CHOICES = {"min": "`pick((a < b), a, b)` is the smaller", "max": "`pick((a > b), a, b)` is the larger"}
NAME, NUMBER = "a name", "a number"


class Tokens(reading.Tokens):
    """The tokens of a text, with those that were passed, the brackets that are open, and what is asked for next."""

    def __init__(self, text):
        self.passed, self.brackets, self.wanted = [], [], []
        super().__init__(text)

    def ask(self, what):
        if what not in self.wanted:
            self.wanted.append(what)

    def sees(self, sign):
        self.ask(sign)
        return super().sees(sign)

    def take(self, sign):
        self.ask(sign)
        return super().take(sign)

    def name(self):
        self.ask(NAME)
        return super().name()

    def number(self):
        self.ask(NUMBER)
        return super().number()

    def next(self):
        self.passed.append((self.token, self.at, self.i))
        if self.token[0] == "sign" and self.token[1] in BRACKETS:
            self.brackets.append((self.token[1], self.at))
        elif self.token[0] == "sign" and self.token[1] in BRACKETS.values() and self.brackets:
            self.brackets.pop()
        self.wanted = []
        return super().next()


def watched(name):
    """A part of the grammar, noted while it is read: its name, and the token and the place at which it begins."""
    read = getattr(reading.Parser, name)

    def read_watched(self):
        self.inside.append((name, self.t.token, self.t.at))
        tree = read(self)
        self.inside.pop()
        return tree

    return read_watched


class Parser(reading.Parser):
    """Reads a file up to the token that it doesn't go on with."""

    def __init__(self, text):
        self.t, self.inside = Tokens(text), []


for part in "place layer declaration handler block statement expression message argument kind size names queue".split():
    setattr(Parser, part, watched(part))


class Stop:
    """Where a file stops being one: the token there and the one before it, what is wanted, and within what."""

    def __init__(self, text, at):
        self.text, parser = text, Parser(text)
        try:
            parser.file()
        except reading.Refused:
            pass
        t = parser.t
        self.kind, self.word = t.token
        self.agrees = t.at == at
        self.wanted, self.brackets, self.inside, self.open = t.wanted, t.brackets, parser.inside, t.open
        self.passed = t.passed
        self.before = t.passed[-1][0][1] if t.passed else None
        self.starts = bool(self.inside) and self.inside[-1][2] == t.at
        self.part = self.inside[-1][0] if self.inside else "file"
        self.rest = text[t.i:].lstrip()
        self.line = at[0]

    def sees(self, *signs):
        return self.kind == "sign" and self.word in signs

    def wants_operator(self):
        """Whether a value stands after a parenthesis, and an operator is wanted."""
        return self.part == "expression" and not self.starts and self.within("expression")[0] == "(" and self.wanted in ([], ["["])

    def follows_a_value(self):
        """Whether the token before is a name that stands for a value."""
        kinds, words = [token[0] for token, _, _ in self.passed], [token[1] for token, _, _ in self.passed]
        return kinds[-1:] == ["name"] and words[-2:-1] and words[-2] in ("=", "(", "[", ",") + tuple(reading.OPERATORS)

    def within(self, name):
        """The innermost part of this name: its first token and its place."""
        return next(((token[1], at) for part, token, at in reversed(self.inside) if part == name), (None, None))


def at_end(s):
    if s.kind != "end":
        return None
    if s.brackets:
        bracket, at = s.brackets[-1]
        return f"the file ends, and the `{bracket}` at {at[0]}:{at[1]} is still open"
    if s.part == "file":
        return "the file ends without its stack: `stack { NAME; }` stands after the layers, the lowest place first"
    return None


def too_deep(s):
    if s.sees(*BRACKETS) and s.open == 100:
        return "at most 100 brackets are open at once"
    return None


def after_else(s):
    if s.before != "else":
        return None
    if s.sees("if"):
        return "a block stands after `else`: `else { if .. }`"
    return "a block stands after `else`: `else { .. }`"


def no_else(s):
    word = s.within("statement")[0]
    if s.part != "statement" or s.wanted != ["else"]:
        return None
    full = "the queue is full" if word == "push" else "the queue is empty"
    return f"a `{word}` says what is done where {full}: `{word} .. else {{ }}`"


def at_file(s):
    if s.part != "file" or s.brackets:
        return None
    if s.before == "}" and not s.wanted:
        return "nothing follows the stack: all layers stand before it"
    if s.before == "}" and s.wanted[-1:] == ["stack"]:
        return "the layer before has ended: is there a `}` too many? A file has layers, and then `stack { NAME; }`"
    return "a file has layers, `layer NAME { .. }`, and then `stack { NAME; }`" if s.wanted[-1:] == ["stack"] else None


def reserved(s):
    if s.kind != "sign" or s.wanted[-1:] != [NAME] or not s.word.isalpha():
        return None
    if s.part == "place" and s.word == "layer":
        return "is a `}` missing? A layer can't stand within the stack"
    what = "is a kind of events" if s.word in reading.KINDS else "is a reserved word"
    return f"`{s.word}` {what}, and so no name"


def no_name(s):
    if s.kind == "number" and s.wanted[-1:] == [NAME]:
        return "a name is wanted here, and begins with a letter"
    if s.sees(".") and s.passed and s.passed[-1][0][0] == "number":
        return "numbers are whole"
    return None


def event_kind(s):
    if s.part != "kind":
        return None
    near = difflib.get_close_matches(str(s.word).capitalize(), reading.KINDS, 1)
    return f"a kind of events is wanted after `{s.before}`" + (f"; is `{near[0]}` meant?" if near else f": {' '.join(reading.KINDS)}")


def doubled(s):
    if s.sees("&", "|") and s.before == s.word:
        return f"`{'and' if s.word == '&' else 'or'}` is written for `{s.word}{s.word}`"
    return None


def compares(s):
    if s.sees("=") and s.wants_operator():
        return "`=` sets a cell; `==` compares"
    return None


def shifts(s):
    if s.sees("<", ">") and s.before == s.word:
        return "there is no shift: `(k * 2)` is twice `k`, and `bit(i)` is 1 at bit `i`"
    return None


def leading_sign(s):
    if s.part == "expression" and s.starts and s.sees("-", "+"):
        return "a number has no sign, and none is below 0: `(0 - 1)` is 4294967295"
    if s.part == "statement" and s.wanted[-1:] == ["="] and s.sees("=="):
        return "`=` sets a cell, and `==` compares: `set k = 1;`"
    if s.part == "statement" and s.wanted[-1:] == ["="] and s.word in reading.OPERATORS:
        return f"there is no `{s.word}=`: `set k = (k {s.word} 1);` sets a cell"
    return None


def operation(s):
    if s.kind != "sign" or s.word not in reading.OPERATORS or s.part in ("kind", "size") or (s.starts and s.part != "block"):
        return None
    if s.part == "expression" and s.within("expression")[0] == "(" and s.wanted[-1:] == [")"]:
        example = f"((a == b) {s.word} (c == d))" if s.word in ("and", "or") else f"((a {s.word} b) {s.word} c)"
        return f"each operation has two operands, and parentheses of its own: `{example}`"
    if s.before in ("[", "(", ",") or not s.wanted:
        return None
    return f"an operation stands in parentheses: `(k {s.word} 1)`"


def lone_value(s):
    if s.sees(")") and s.wants_operator() and s.before not in FUNCTIONS:
        return "parentheses hold an operation of two operands, as in `(k + 1)`; a value alone stands without them"
    return None


def function(s):
    if s.before in FUNCTIONS and s.wanted == ["("]:
        return f"`{s.before}` is a function, and its operands stand in parentheses: `{s.before}(..)`"
    if s.part == "expression" and s.starts and s.word in CHOICES:
        return f"there is no function `{s.word}`: {CHOICES[s.word]}"
    if s.sees("(") and s.follows_a_value():
        return no_function(s.before)
    return None


def no_function(name):
    if name in CHOICES:
        return f"there is no function `{name}`: {CHOICES[name]}"
    if name in ("byte", "bytes", "get", "read"):
        return f"there is no function `{name}`: a layer can't read the bytes of a body; numbers travel in headers"
    return f"there is no function `{name}`; those of numbers are `not`, `bit`, `count`, `lowest`, `size`, `len`, `at` and `pick`"


def field(s):
    if s.sees(".") and s.follows_a_value():
        return "the fields of a header get names where it is taken off: `up Cast(o, m) with num(seq)`; those of a row are `at(queue, i).name`"
    return None


def statement(s):
    if s.part != "statement" or not s.starts:
        return None
    if s.word in ("for", "while", "loop"):
        return "a loop is `each i below n max 32 { .. }`"
    if s.kind == "name" and s.rest[:1] in (b"=", b"[", b":", b"+", b"-", b"*"):
        return f"a cell is set by `set {s.word} = ..;`, and a value gets a name by `let {s.word} = ..;`"
    if s.sees("int"):
        return "a value gets a name by `let x = ..;`, and cells are declared before the layer's handlers"
    if s.sees(*reading.KINDS):
        arguments = "p, m" if s.word in reading.CARRIES else ".."
        return f"an event is sent `up` or `down`: `down {s.word}({arguments});`"
    if s.sees("param", "state", "header"):
        return "params, cells and headers are declared before the layer's handlers" + (": is a `}` missing?" if s.line > 1 else "")
    if s.sees("else"):
        return "this `else` follows no `if`, `push` or `take`"
    if s.sees(";"):
        return "no `;` stands here: a block ends without one"
    if s.sees("layer", "stack"):
        return "is a `}` missing? A handler's block is still open"
    here = f"`{s.word}` begins no statement: " if s.kind == "name" else ""
    return here + "a statement begins with `let`, `set`, `push`, `take`, `if`, `each`, `up` or `down`"


def in_layer(s):
    if s.part != "layer" or "}" not in s.wanted:
        return None
    if s.sees("param", "state", "header"):
        return "params, cells and headers are declared before the layer's handlers"
    if s.sees("layer", "stack"):
        return "is a `}` missing? The layer before is still open"
    if s.sees(*reading.KINDS):
        return f"a handler begins with the side from which an event comes: `up {s.word}(..)` or `down {s.word}(..)`"
    if s.sees("let", "set", "push", "take", "if", "each", "else"):
        return "the handler before has ended: is there a `}` too many?"
    return "a layer has params, cells and headers, and then handlers: `up KIND(..) { .. }` or `down KIND(..) { .. }`"


def in_declaration(s):
    if s.part not in ("declaration", "size", "names"):
        return None
    word, last = s.within("declaration")[0], s.wanted[-1:]
    if word == "header" and last == ["ends"]:
        return "a header `passes`, where those of the layers above follow it, or it `ends`, and bytes alone do"
    if word == "state" and last == ["queue"]:
        return "a cell is `state int NAME;` or `state queue NAME[SIZE] of (..);`"
    if last == ["n"]:
        return "an array has a number for each member, so its size is `n`: `state int k[n];`"
    if last == ["of"]:
        return "a queue says what its rows are made of: `state queue q[4] of (seq: int, m: msg);`"
    if last == ["part"]:
        return "an item of a row is `int`, `msg` or `part`"
    if word == "state" and last == ["["]:
        return "a queue has room for a number of rows: `state queue q[4] of (..);`"
    return None


def in_statement(s):
    last = s.wanted[-1:]
    if last == ["max"]:
        return "a loop says how often it goes at most: `each i below n max 32 { .. }`"
    if last == ["{"] and s.part == "block" and s.sees("with"):
        return "`with` stands directly after the arguments, before `common`"
    if last == ["{"] and s.part == "block":
        return "a block in braces is wanted here, for one statement too"
    if s.before == "if" and s.sees("common"):
        return "the block of a plain `if` is the common one: `if (..) { .. }`; `if rare` says that it isn't"
    if s.part in ("argument", "expression") and s.starts and s.sees(")"):
        return "an event has arguments, and so has each of its headers' fields a value"
    if s.part == "expression" and s.starts and s.sees(*reading.Parser.BUILDS):
        return f"`{s.word}` is a message, and a number is wanted here"
    if last == ["("] and len(s.passed) > 1 and s.passed[-2][0][1] == "with":
        return f"a header has its fields in parentheses, also where it has none: `with {s.before}()`"
    return None


def semicolon(s):
    if ";" not in s.wanted:
        return None
    (_, word), at, _ = s.passed[-1]
    if s.part == "place" and s.sees(","):
        return "each place of a stack ends with `;`"
    return f"is a `;` missing after `{word}` at {at[0]}:{at[1]}?"


def plainly(s):
    here = {"name": f"`{s.word}`", "number": f"the number {s.word}", "sign": f"`{s.word}`", "end": "the file's end"}[s.kind]
    wanted = [what if what in (NAME, NUMBER) else f"`{what}`" for what in s.wanted if what != "[" or len(s.wanted) == 1]
    if s.wants_operator():
        wanted = ["an operator"]
    if not wanted or len(wanted) > 6:
        wanted = ["a number"] if s.part == "expression" and s.starts else []
    if not wanted:
        return f"{here} can't stand here"
    return f"{here} stands here, where {', '.join(wanted[:-1]) + ' or ' if len(wanted) > 1 else ''}{wanted[-1]} is wanted"


RULES = (
    at_end, too_deep, after_else, no_else, at_file, reserved, no_name, event_kind, doubled, compares, shifts, leading_sign, field, function, operation, lone_value,
    statement,
    in_layer, in_declaration, in_statement, semicolon,
)


def sentence(text, at):
    """Why a file doesn't go on with the token at a place."""
    s = Stop(text, at)
    if not s.agrees:
        return "no file goes on with what stands here"
    return next(filter(None, (rule(s) for rule in RULES)), None) or plainly(s)
