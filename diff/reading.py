"""An independent reading of layer files: bytes to an accepted stack, or to the first cause for which a file is refused.

It was written from the rules in docs/LANGUAGE.md's words and not from the definitions or the code, to be compared with the program.
"""
import glob
import os
import re

KINDS = "Cast Send Timer Suspect Stable Ack Elect Block BlockOk Flushed View Leave".split()
CARRIES = {"Cast", "Send"}
TWO_NUMBERS = {"Stable", "Ack"}
RESERVED = set(
    "layer stack param state int queue of msg part header passes ends up down with common rare two let set push take else if each below max"
    " me n ltime len at held size cut tail join nothing pick not and or bit count lowest none".split()
) | set(KINDS)
SYMBOLS = sorted("{ } ( ) [ ] , ; : . = == != < <= > >= + - * & | ^".split(), key=len, reverse=True)
OPERATORS = set("+ - * == != < <= > >= and or & | ^".split())
LETTERS = set(b"abcdefghijklmnopqrstuvwxyzABCDEFGHIJKLMNOPQRSTUVWXYZ")
DIGITS = set(b"0123456789")
LARGEST = 1_048_576


class Refused(Exception):
    pass


def refuse(cause, at):
    raise Refused(f"file: {cause} {at[0]}:{at[1]}")


class Tokens:
    """The tokens of a text, cut as they are read."""

    def __init__(self, text):
        self.text, self.i, self.line, self.col = text, 0, 1, 1
        self.open = 0
        self.token = None
        self.cut()

    def pass_bytes(self, count):
        for byte in self.text[self.i:self.i + count]:
            if byte == 10:
                self.line, self.col = self.line + 1, 1
            else:
                self.col += 1
        self.i += count

    def cut(self):
        text = self.text
        while self.i < len(text):
            if text[self.i] in b" \t\r\n":
                self.pass_bytes(1)
            elif text[self.i] == 35:
                end = text.find(b"\n", self.i)
                self.pass_bytes((len(text) if end < 0 else end) - self.i)
            else:
                break
        self.at = (self.line, self.col)
        if self.i == len(text):
            self.token = ("end", None)
            return
        byte = text[self.i]
        if byte in LETTERS:
            end = self.i
            while end < len(text) and (text[end] in LETTERS or text[end] in DIGITS or text[end] == 95):
                end += 1
            word = text[self.i:end]
            if len(word) > 32:
                refuse("token", self.at)
            word = word.decode()
            self.token = ("sign" if word in RESERVED else "name", word)
            self.pass_bytes(end - self.i)
        elif byte in DIGITS:
            end = self.i
            while end < len(text) and text[end] in DIGITS:
                end += 1
            digits = text[self.i:end]
            if (len(digits) > 1 and digits[0] == 48) or int(digits) > 4294967295:
                refuse("token", self.at)
            self.token = ("number", int(digits))
            self.pass_bytes(end - self.i)
            if end < len(text) and (text[end] in LETTERS or text[end] == 95):
                self.late = (self.line, self.col)
                self.bad_next = True
                return
        else:
            for symbol in SYMBOLS:
                if text.startswith(symbol.encode(), self.i):
                    self.token = ("sign", symbol)
                    self.pass_bytes(len(symbol))
                    return
            refuse("token", self.at)

    bad_next = False

    def next(self):
        token, at = self.token, self.at
        if token[0] == "sign":
            if token[1] in "{([" and len(token[1]) == 1:
                self.open += 1
            elif token[1] in "})]" and len(token[1]) == 1:
                self.open -= 1
        if self.bad_next:
            refuse("token", self.late)
        self.cut()
        return token[1], at

    def unexpected(self):
        refuse("unexpected", self.at)

    def sees(self, sign):
        return self.token == ("sign", sign)

    def take(self, sign):
        if not self.sees(sign) or (sign in "{([" and self.open == 100):
            self.unexpected()
        return self.next()[1]

    def name(self):
        if self.token[0] != "name":
            self.unexpected()
        return self.next()

    def number(self):
        if self.token[0] != "number":
            self.unexpected()
        return self.next()


class Parser:
    def __init__(self, text):
        self.t = Tokens(text)

    def file(self):
        t, layers, places = self.t, [], []
        while t.sees("layer"):
            layers.append(self.layer())
        t.take("stack")
        t.take("{")
        while True:
            places.append(self.place())
            if t.sees("}"):
                break
        t.take("}")
        if t.token[0] != "end":
            t.unexpected()
        return layers, places

    def place(self):
        t, given = self.t, []
        name = t.name()
        if t.sees("("):
            t.take("(")
            while True:
                param = t.name()
                t.take("=")
                given.append((param, t.number()[0]))
                if not t.sees(","):
                    break
                t.take(",")
            t.take(")")
        t.take(";")
        return {"name": name, "given": given}

    def layer(self):
        t = self.t
        t.take("layer")
        name = t.name()
        t.take("{")
        declared, handlers = [], []
        while t.sees("param") or t.sees("state") or t.sees("header"):
            declared.append(self.declaration())
        while t.sees("up") or t.sees("down"):
            handlers.append(self.handler())
        t.take("}")
        return {"name": name, "declared": declared, "handlers": handlers}

    def declaration(self):
        t = self.t
        at = t.at
        word = t.token[1]
        t.take(word)
        if word == "param":
            name = t.name()
            t.take("=")
            d = {"what": "param", "at": at, "name": name, "value": t.number()[0]}
        elif word == "header":
            name = t.name()
            t.take("(")
            fields = [] if t.sees(")") else self.names()
            t.take(")")
            if not (t.sees("passes") or t.sees("ends")):
                t.unexpected()
            d = {"what": "header", "at": at, "name": name, "fields": fields, "ends": t.next()[0] == "ends"}
        elif t.sees("int"):
            t.take("int")
            d = {"what": "int", "at": at, "name": t.name(), "shape": 0, "initial": None}
            if t.sees("["):
                t.take("[")
                t.take("n")
                d["shape"] = 1
                if t.sees("*"):
                    t.take("*")
                    t.take("n")
                    d["shape"] = 2
                t.take("]")
            if t.sees("="):
                t.take("=")
                d["initial"] = self.expression()
        else:
            t.take("queue")
            d = {"what": "queue", "at": at, "name": t.name(), "array": False, "items": []}
            t.take("[")
            if t.sees("n"):
                t.take("n")
                t.take("]")
                t.take("[")
                d["array"] = True
            d["size"] = self.size()
            t.take("]")
            t.take("of")
            t.take("(")
            while True:
                item = t.name()
                t.take(":")
                if not any(t.sees(s) for s in ("int", "msg", "part")):
                    t.unexpected()
                d["items"].append((item, t.next()[0]))
                if not t.sees(","):
                    break
                t.take(",")
            t.take(")")
        t.take(";")
        return d

    def size(self):
        t = self.t
        if t.token[0] not in ("number", "name"):
            t.unexpected()
        kind = t.token[0]
        return (kind,) + t.next()

    def names(self):
        names = [self.t.name()]
        while self.t.sees(","):
            self.t.take(",")
            names.append(self.t.name())
        return names

    def kind(self):
        if self.t.token[0] != "sign" or self.t.token[1] not in KINDS:
            self.t.unexpected()
        return self.t.next()[0]

    def handler(self):
        t = self.t
        h = {"at": t.at, "dir": t.token[1]}
        t.take(h["dir"])
        h["kind"] = self.kind()
        t.take("(")
        h["names"] = self.names()
        t.take(")")
        h["with"] = None
        if t.sees("with"):
            t.take("with")
            name = t.name()
            t.take("(")
            fields = [] if t.sees(")") else self.names()
            t.take(")")
            h["with"] = (name, fields)
        h["common"], h["rare"] = None, False
        if t.sees("common"):
            t.take("common")
            h["common"] = self.expression()
        elif t.sees("rare"):
            t.take("rare")
            h["rare"] = True
        h["block"] = self.block()
        return h

    def block(self):
        self.t.take("{")
        statements = []
        while not self.t.sees("}"):
            statements.append(self.statement())
        self.t.take("}")
        return statements

    def statement(self):
        t = self.t
        at = t.at
        word = t.token[1] if t.token[0] == "sign" else None
        if word == "let":
            t.take("let")
            name = t.name()
            t.take("=")
            s = {"what": "let", "at": at, "name": name, "value": self.expression()}
            t.take(";")
        elif word == "set":
            t.take("set")
            name = t.name()
            index = self.indexes()
            t.take("=")
            s = {"what": "set", "at": at, "name": name, "index": index, "value": self.expression()}
            t.take(";")
        elif word == "push":
            t.take("push")
            queue = self.queue()
            t.take("(")
            arguments = self.arguments()
            t.take(")")
            t.take("else")
            s = {"what": "push", "at": at, "queue": queue, "arguments": arguments, "blocks": [self.block()]}
        elif word == "take":
            t.take("take")
            queue = self.queue()
            t.take("(")
            names = self.names()
            t.take(")")
            first = self.block()
            t.take("else")
            s = {"what": "take", "at": at, "queue": queue, "names": names, "blocks": [first, self.block()]}
        elif word == "if":
            t.take("if")
            likely = "first"
            if t.sees("rare") or t.sees("two"):
                likely = t.next()[0]
            condition = self.expression()
            blocks = [self.block()]
            if t.sees("else"):
                t.take("else")
                blocks.append(self.block())
            s = {"what": "if", "at": at, "likely": likely, "value": condition, "blocks": blocks}
        elif word == "each":
            t.take("each")
            name = t.name()
            t.take("below")
            below = self.expression()
            t.take("max")
            most = self.size()
            s = {"what": "each", "at": at, "name": name, "value": below, "most": most, "blocks": [self.block()]}
        elif word in ("up", "down"):
            t.take(word)
            kind = self.kind()
            t.take("(")
            arguments = self.arguments()
            t.take(")")
            header = None
            if t.sees("with"):
                t.take("with")
                name = t.name()
                t.take("(")
                fields = [] if t.sees(")") else self.arguments()
                t.take(")")
                header = (name, fields)
            s = {"what": "emit", "at": at, "dir": word, "kind": kind, "arguments": arguments, "with": header}
            t.take(";")
        else:
            t.unexpected()
        return s

    def indexes(self):
        t, index = self.t, []
        while t.sees("[") and len(index) < 2:
            t.take("[")
            index.append(self.expression())
            t.take("]")
        return index

    def queue(self):
        t = self.t
        name = t.name()
        index = None
        if t.sees("["):
            t.take("[")
            index = self.expression()
            t.take("]")
        return (name, index)

    def arguments(self):
        arguments = [self.argument()]
        while self.t.sees(","):
            self.t.take(",")
            arguments.append(self.argument())
        return arguments

    BUILDS = ("nothing", "held", "cut", "tail", "join")

    def argument(self):
        if self.t.token[0] == "sign" and self.t.token[1] in self.BUILDS:
            return self.message()
        return self.expression()

    def message(self):
        t = self.t
        if t.token[0] == "name":
            name = t.name()
            return {"what": "named", "at": name[1], "name": name, "index": []}
        word = t.token[1] if t.token[0] == "sign" and t.token[1] in self.BUILDS else None
        if word is None:
            t.unexpected()
        at = t.take(word)
        m = {"what": word, "at": at}
        if word == "nothing":
            return m
        t.take("(")
        if word == "held":
            m["queue"] = self.queue()
            t.take(",")
            m["parts"] = [self.expression()]
        elif word == "cut":
            m["message"] = self.message()
            t.take(",")
            first = self.expression()
            t.take(",")
            m["parts"] = [first, self.expression()]
        elif word == "tail":
            m["message"] = self.message()
            t.take(",")
            m["parts"] = [self.expression()]
        else:
            m["first"] = self.message()
            t.take(",")
            m["second"] = self.message()
        t.take(")")
        return m

    def expression(self):
        t = self.t
        kind, word = t.token
        at = t.at
        if kind == "number":
            return {"what": "number", "at": at, "value": t.number()[0]}
        if kind == "name":
            name = t.name()
            return {"what": "named", "at": at, "name": name, "index": self.indexes()}
        if word in ("me", "n", "ltime") and kind == "sign":
            t.take(word)
            return {"what": word, "at": at}
        if kind != "sign" or word not in ("len", "at", "size", "(", "not", "bit", "count", "lowest", "pick"):
            t.unexpected()
        t.take(word)
        if word == "(":
            first = self.expression()
            if t.token[0] != "sign" or t.token[1] not in OPERATORS:
                t.unexpected()
            word = t.next()[0]
            e = {"what": "parts", "at": at, "op": word, "parts": [first, self.expression()]}
        else:
            t.take("(")
            if word == "len":
                e = {"what": "len", "at": at, "queue": self.queue()}
            elif word == "at":
                queue = self.queue()
                t.take(",")
                row = self.expression()
                t.take(")")
                t.take(".")
                return {"what": "at", "at": at, "queue": queue, "row": row, "label": t.name()}
            elif word == "size":
                e = {"what": "size", "at": at, "message": self.message()}
            elif word == "pick":
                parts = [self.expression()]
                for _ in range(2):
                    t.take(",")
                    parts.append(self.expression())
                e = {"what": "parts", "at": at, "op": word, "parts": parts}
            else:
                e = {"what": "parts", "at": at, "op": word, "parts": [self.expression()]}
        t.take(")")
        return e


def library():
    texts = {}
    top = os.path.dirname(os.path.dirname(os.path.abspath(__file__)))
    for path in glob.glob(os.path.join(top, "crates", "file_library", "src", "*.rt")):
        with open(path, encoding="utf-8") as file:
            for text in re.findall(r'b"(layer [^"]*)"', file.read()):
                texts[text.split()[1]] = text.encode()
    return texts


class Names:
    """The faults of a layer's names, each (line, column, rank)."""

    def __init__(self, layer):
        self.layer, self.faults = layer, []
        self.own = {}
        for d in layer["declared"]:
            self.own.setdefault(d["name"][0], d)

    def fault(self, rank, at):
        self.faults.append((at[0], at[1], rank))

    def unique(self, names):
        seen = set()
        for word, at in names:
            if word in seen:
                self.fault(1, at)
            seen.add(word)

    def judge(self):
        layer = self.layer
        self.unique([d["name"] for d in layer["declared"]])
        for what, most in (({"param"}, 16), ({"int", "queue"}, 16), ({"header"}, 7)):
            for d in [d for d in layer["declared"] if d["what"] in what][most:]:
                self.fault(2, d["name"][1])
        for d in layer["declared"]:
            self.declaration(d)
        seen = set()
        for i, h in enumerate(layer["handlers"]):
            key = (h["dir"], h["kind"], h["with"] and h["with"][0][0])
            if key in seen:
                self.fault(1, h["at"])
            seen.add(key)
            if i >= 64:
                self.fault(2, h["at"])
            self.handler(h)
        return self.faults

    def size(self, size, most):
        kind, value, at = size
        if kind == "number":
            if not 1 <= value <= most:
                self.fault(2, at)
        else:
            self.use((value, at), set())

    def declaration(self, d):
        if d["what"] == "header":
            self.unique(d["fields"])
            for name in d["fields"][4:]:
                self.fault(2, name[1])
        elif d["what"] == "int" and d["initial"]:
            self.expression(d["initial"], set())
        elif d["what"] == "queue":
            self.size(d["size"], 64)
            self.unique([name for name, _ in d["items"]])
            numbers = 0
            for i, (name, sort) in enumerate(d["items"]):
                if sort == "int":
                    numbers += 1
                    if numbers > 4:
                        self.fault(2, name[1])
                elif i + 1 < len(d["items"]):
                    self.fault(2, name[1])

    def use(self, name, locals_):
        if name[0] not in self.own and name[0] not in locals_:
            self.fault(0, name[1])

    def bring(self, name, locals_):
        if name[0] in self.own or name[0] in locals_:
            self.fault(1, name[1])
        self.declared += 1
        if self.declared > 64:
            self.fault(2, name[1])
        locals_.add(name[0])

    def handler(self, h):
        self.declared = 0
        locals_ = set()
        for name in h["names"]:
            self.bring(name, locals_)
        if h["with"]:
            self.use(h["with"][0], set())
            for name in h["with"][1]:
                self.bring(name, locals_)
        if h["common"]:
            self.expression(h["common"], locals_)
        self.block(h["block"], locals_)

    def block(self, statements, locals_):
        locals_ = set(locals_)
        for s in statements:
            self.statement(s, locals_)

    def statement(self, s, locals_):
        what = s["what"]
        if what == "let":
            self.expression(s["value"], locals_)
            self.bring(s["name"], locals_)
        elif what == "set":
            self.use(s["name"], locals_)
            for e in s["index"]:
                self.expression(e, locals_)
            self.expression(s["value"], locals_)
        elif what == "push":
            self.queue(s["queue"], locals_)
            for a in s["arguments"]:
                self.expression(a, locals_)
            self.block(s["blocks"][0], locals_)
        elif what == "take":
            self.queue(s["queue"], locals_)
            inner = set(locals_)
            for name in s["names"]:
                self.bring(name, inner)
            self.block(s["blocks"][0], inner)
            self.block(s["blocks"][1], locals_)
        elif what == "if":
            self.expression(s["value"], locals_)
            for block in s["blocks"]:
                self.block(block, locals_)
        elif what == "each":
            self.expression(s["value"], locals_)
            inner = set(locals_)
            if s["most"][0] == "name":
                self.use(s["most"][1:], locals_)
            else:
                self.size(s["most"], 32)
            self.bring(s["name"], inner)
            self.block(s["blocks"][0], inner)
        else:
            for a in s["arguments"]:
                self.expression(a, locals_)
            if s["with"]:
                self.use(s["with"][0], locals_)
                for a in s["with"][1]:
                    self.expression(a, locals_)

    def queue(self, queue, locals_):
        self.use(queue[0], locals_)
        if queue[1]:
            self.expression(queue[1], locals_)

    def expression(self, e, locals_):
        what = e["what"]
        if what == "named":
            self.use(e["name"], locals_)
            for index in e["index"]:
                self.expression(index, locals_)
        elif what in ("len", "held", "at"):
            self.queue(e["queue"], locals_)
            if what == "at":
                self.expression(e["row"], locals_)
                d = self.own.get(e["queue"][0][0])
                if not (d and d["what"] == "queue" and any(n[0] == e["label"][0] for n, _ in d["items"])):
                    self.fault(0, e["label"][1])
        for key in ("message", "first", "second"):
            if key in e:
                self.expression(e[key], locals_)
        for part in e.get("parts", []):
            self.expression(part, locals_)


def sizes_of(layer):
    """All sizes of a layer that are names, with their limits."""
    sizes = [(d["size"], 64) for d in layer["declared"] if d["what"] == "queue"]

    def inside(block):
        for s in block:
            if s["what"] == "each":
                sizes.append((s["most"], 32))
            for b in s.get("blocks", []):
                inside(b)

    for h in layer["handlers"]:
        inside(h["block"])
    return [(s[1], most) for s, most in sizes if s[0] == "name"]


def value_of(layer, place, word):
    """The value of a param at a place; None where the word isn't one."""
    d = next((d for d in layer["declared"] if d["name"][0] == word), None)
    if d is None or d["what"] != "param":
        return None
    return next((v for (name, _), v in place["given"] if name == word), d["value"])


class Types:
    """The faults of a layer's types, each (line, column, rank)."""

    KIND, ARITY, DIRECTION, HEADER, INITIAL = range(5)

    def __init__(self, layer):
        self.layer, self.faults = layer, []
        self.own = {}
        for d in layer["declared"]:
            self.own.setdefault(d["name"][0], d)

    def fault(self, rank, at):
        self.faults.append((at[0], at[1], rank))

    def judge(self):
        for d in self.layer["declared"]:
            if d["what"] == "int" and d["initial"]:
                self.number(d["initial"], {})
                if not self.initial(d["initial"]):
                    self.fault(self.INITIAL, d["initial"]["at"])
            elif d["what"] == "queue":
                self.size(d["size"], d["at"])
        for h in self.layer["handlers"]:
            self.handler(h)
        return self.faults

    def what(self, word):
        d = self.own.get(word)
        return d["what"] if d else None

    def size(self, size, at):
        if size[0] == "name" and self.what(size[1]) != "param":
            self.fault(self.KIND, at)

    def initial(self, e):
        if e["what"] in ("number", "me", "n", "ltime"):
            return True
        if e["what"] == "named":
            return not e["index"] and self.what(e["name"][0]) == "param"
        return e["what"] == "parts" and all(self.initial(p) for p in e["parts"])

    def sort(self, word, locals_):
        if word in locals_:
            return locals_[word]
        d = self.own.get(word)
        if d and (d["what"] == "param" or (d["what"] == "int" and d["shape"] == 0)):
            return "int"
        return None

    def items(self, queue):
        d = self.own.get(queue[0][0])
        return d["items"] if d and d["what"] == "queue" else []

    def queue(self, queue, at, locals_):
        d = self.own.get(queue[0][0])
        if not (d and d["what"] == "queue" and d["array"] == (queue[1] is not None)):
            self.fault(self.KIND, at)
        if queue[1]:
            self.number(queue[1], locals_)

    def shape(self, word):
        d = self.own.get(word)
        return d["shape"] if d and d["what"] == "int" else None

    def number(self, e, locals_):
        what = e["what"]
        if what == "named":
            if not e["index"]:
                if self.sort(e["name"][0], locals_) != "int":
                    self.fault(self.KIND, e["at"])
            elif self.shape(e["name"][0]) != len(e["index"]):
                self.fault(self.KIND, e["at"])
            for index in e["index"]:
                self.number(index, locals_)
        elif what == "len":
            self.queue(e["queue"], e["at"], locals_)
        elif what == "at":
            self.queue(e["queue"], e["at"], locals_)
            sort = next((s for n, s in self.items(e["queue"]) if n[0] == e["label"][0]), None)
            if sort != "int":
                self.fault(self.KIND, e["at"])
            self.number(e["row"], locals_)
        elif what == "size":
            self.message(e["message"], locals_)
        for part in e.get("parts", []):
            self.number(part, locals_)

    def held_sort(self, queue):
        return next((s for _, s in self.items(queue) if s != "int"), None)

    def message_sort(self, m, locals_):
        what = m["what"]
        if what == "named":
            return self.sort(m["name"][0], locals_)
        if what == "held":
            return self.held_sort(m["queue"])
        return "part" if what in ("nothing", "cut") else "msg"

    def message(self, m, locals_):
        what = m["what"]
        if what == "named":
            if self.sort(m["name"][0], locals_) not in ("msg", "part"):
                self.fault(self.KIND, m["at"])
            return
        if what == "held":
            self.queue(m["queue"], m["at"], locals_)
            if self.held_sort(m["queue"]) is None:
                self.fault(self.KIND, m["at"])
        elif what == "tail" and self.message_sort(m["message"], locals_) == "part":
            self.fault(self.KIND, m["at"])
        elif what == "join":
            for key, wanted in (("first", "part"), ("second", "msg")):
                if self.message_sort(m[key], locals_) not in (None, wanted):
                    self.fault(self.KIND, m[key]["at"])
                self.message(m[key], locals_)
        if "message" in m:
            self.message(m["message"], locals_)
        for part in m.get("parts", []):
            self.number(part, locals_)

    def argument(self, a, wanted, locals_):
        if a["what"] == "named" and not a["index"]:
            if self.sort(a["name"][0], locals_) not in wanted:
                self.fault(self.KIND, a["at"])
        elif a["what"] in Parser.BUILDS:
            sort = self.message_sort(a, locals_)
            if sort is not None and sort not in wanted:
                self.fault(self.KIND, a["at"])
            self.message(a, locals_)
        else:
            if "int" not in wanted:
                self.fault(self.KIND, a["at"])
            self.number(a, locals_)

    @staticmethod
    def wanted(kind):
        if kind in CARRIES:
            return [("int",), ("msg", "part")]
        return [("int",)] * (2 if kind in TWO_NUMBERS else 1)

    def header(self, at, name, count, allowed):
        d = self.own.get(name[0])
        is_header = d is not None and d["what"] == "header"
        if not is_header:
            self.fault(self.KIND, at)
        if (len(d["fields"]) if is_header else 0) != count:
            self.fault(self.ARITY, at)
        if not allowed:
            self.fault(self.DIRECTION, at)

    def ends(self, header):
        d = self.own.get(header[0][0]) if header else None
        return bool(d and d["what"] == "header" and d["ends"])

    def handler(self, h):
        wanted = self.wanted(h["kind"])
        if len(h["names"]) != len(wanted):
            self.fault(self.ARITY, h["at"])
        if h["with"]:
            self.header(h["at"], h["with"][0], len(h["with"][1]), h["dir"] == "up" and h["kind"] in CARRIES)
        locals_ = {}
        for i, name in enumerate(h["names"]):
            is_message = h["kind"] in CARRIES and i == 1
            locals_.setdefault(name[0], ("part" if self.ends(h["with"]) else "msg") if is_message else "int")
        for name in h["with"][1] if h["with"] else []:
            locals_.setdefault(name[0], "int")
        if h["common"]:
            self.number(h["common"], locals_)
        self.block(h["block"], locals_)

    def block(self, statements, locals_):
        locals_ = dict(locals_)
        for s in statements:
            self.statement(s, locals_)

    def statement(self, s, locals_):
        what, at = s["what"], s["at"]
        if what == "let":
            self.number(s["value"], locals_)
            locals_.setdefault(s["name"][0], "int")
        elif what == "set":
            if self.shape(s["name"][0]) != len(s["index"]):
                self.fault(self.KIND, at)
            for e in s["index"] + [s["value"]]:
                self.number(e, locals_)
        elif what in ("push", "take"):
            items = self.items(s["queue"])
            self.queue(s["queue"], at, locals_)
            if len(items) != len(s["arguments"] if what == "push" else s["names"]):
                self.fault(self.ARITY, at)
            inner = dict(locals_)
            if what == "push":
                for a, (_, sort) in zip(s["arguments"], items):
                    self.argument(a, (sort,), locals_)
            else:
                for i, name in enumerate(s["names"]):
                    inner.setdefault(name[0], items[i][1] if i < len(items) else "int")
            self.block(s["blocks"][0], inner)
            for b in s["blocks"][1:]:
                self.block(b, locals_)
        elif what == "if":
            self.number(s["value"], locals_)
            for b in s["blocks"]:
                self.block(b, locals_)
        elif what == "each":
            self.number(s["value"], locals_)
            self.size(s["most"], s["most"][2])
            inner = dict(locals_)
            inner.setdefault(s["name"][0], "int")
            self.block(s["blocks"][0], inner)
        else:
            self.emission(s, locals_)

    def emission(self, s, locals_):
        at, arguments, wanted = s["at"], s["arguments"], self.wanted(s["kind"])
        if len(arguments) != len(wanted):
            self.fault(self.ARITY, at)
        for a, w in zip(arguments, wanted):
            self.argument(a, w, locals_)
        if s["with"]:
            name, fields = s["with"]
            self.header(at, name, len(fields), s["dir"] == "down" and s["kind"] in CARRIES)
            for a in fields:
                self.argument(a, ("int",), locals_)
        if s["kind"] in CARRIES and len(arguments) > 1:
            a = arguments[1]
            if a["what"] == "named" and not a["index"]:
                sort = self.sort(a["name"][0], locals_)
            elif a["what"] in Parser.BUILDS:
                sort = self.message_sort(a, locals_)
            else:
                sort = "int"
            bad = (s["dir"] == "up" and sort == "part") or (s["dir"] == "down" and sort == ("msg" if self.ends(s["with"]) else "part"))
            if bad:
                self.fault(self.HEADER, at)


class Graph:
    """The nodes of a stack: an event that arrives at a place, of a direction and a kind, with the tag of the header above its gap."""

    def __init__(self, stack):
        self.stack = stack  # (layer, place) each, lowest first
        self.headers = [[d for d in layer["declared"] if d["what"] == "header"] for layer, _ in stack]
        self.found = {}

    def tags(self, place):
        return range(len(self.headers[place]) + 1) if 0 <= place < len(self.stack) else [0]

    def tag_of(self, place, name):
        return 1 + next(i for i, d in enumerate(self.headers[place]) if d["name"][0] == name)

    def up(self, place, kind, tag=None):
        above = place + 1
        if kind not in CARRIES:
            return [(above, "up", kind, 0)]
        return [(above, "up", kind, t) for t in (self.tags(above) if tag is None else [tag])]

    def size(self, place, size):
        layer, at = self.stack[place]
        return size[1] if size[0] == "number" else value_of(layer, at, size[1])

    def handler(self, place, direction, kind, tag):
        for h in self.stack[place][0]["handlers"]:
            if h["dir"] == direction and h["kind"] == kind:
                if (self.tag_of(place, h["with"][0][0]) if h["with"] else 0) == (tag if direction == "up" else 0):
                    return h
        return None

    def follows(self, node):
        """The emissions of a node, each (how often, possible nodes), and its joins."""
        if node in self.found:
            return self.found[node]
        place, direction, kind, tag = node
        out, joins = [], 0
        if 0 <= place < len(self.stack):
            h = self.handler(place, direction, kind, tag)
            if h:
                message = h["names"][1][0] if kind in CARRIES else None
                entered = tag if direction == "down" and kind in CARRIES else None
                joins = joins_of(h["common"]) if h["common"] else 0
                joins += self.block(place, h["block"], 1, message, entered, out)
            elif kind not in CARRIES:
                out = [(1, [(place + (1 if direction == "up" else -1), direction, kind, 0)])]
            elif direction == "down":
                out = [(1, [(place - 1, "down", kind, 0)])]
            elif tag == 0:
                out = [(1, self.up(place, kind))]
        self.found[node] = (out, joins)
        return self.found[node]

    def block(self, place, statements, times, message, entered, out):
        joins = 0
        for s in statements:
            inner = times
            joins += times * sum(joins_of(e) for e in parts_of(s))
            if s["what"] == "each":
                inner = times * self.size(place, s["most"])
            elif s["what"] == "emit":
                out.append((times, self.targets(place, s, message, entered)))
            for b in s.get("blocks", []):
                joins += self.block(place, b, inner, message, entered, out)
        return joins

    def targets(self, place, s, message, entered):
        kind = s["kind"]
        if s["dir"] == "down":
            tag = self.tag_of(place, s["with"][0][0]) if s["with"] else 0
            return [(place - 1, "down", kind, tag if kind in CARRIES else 0)]
        if kind in CARRIES and entered is not None and keeps(s["arguments"][1], message):
            return self.up(place, kind, entered)
        return self.up(place, kind)

    def nodes(self):
        for place in range(-1, len(self.stack) + 1):
            for direction in ("up", "down"):
                for kind in KINDS:
                    gap = place if direction == "up" else place + 1
                    for tag in self.tags(gap) if kind in CARRIES else [0]:
                        yield (place, direction, kind, tag)

    def first_cycle(self):
        """Strongly connected parts by two colours: a node that reaches itself."""
        state, on_cycle = {}, set()
        order, low, stack, index = {}, {}, [], [0]

        def connect(start):
            work = [(start, iter([m for _, ms in self.follows(start)[0] for m in ms]))]
            order[start] = low[start] = index[0]
            index[0] += 1
            stack.append(start)
            state[start] = True
            while work:
                v, rest = work[-1]
                for w in rest:
                    if w not in order:
                        order[w] = low[w] = index[0]
                        index[0] += 1
                        stack.append(w)
                        state[w] = True
                        work.append((w, iter([m for _, ms in self.follows(w)[0] for m in ms])))
                        break
                    if state[w]:
                        low[v] = min(low[v], order[w])
                else:
                    work.pop()
                    if work:
                        low[work[-1][0]] = min(low[work[-1][0]], low[v])
                    if low[v] == order[v]:
                        part = []
                        while True:
                            w = stack.pop()
                            state[w] = False
                            part.append(w)
                            if w == v:
                                break
                        if len(part) > 1 or any(v in ms for _, ms in self.follows(v)[0]):
                            on_cycle.update(part)

        for node in self.nodes():
            if node not in order:
                connect(node)
        return min(((p, KINDS.index(k)) for p, _, k, _ in on_cycle), default=None)

    def cost(self, node, own, known):
        if node in known:
            return known[node]
        out, joins = self.follows(node)
        known[node] = (1 if own == "weight" else joins) + sum(
            times * max([self.cost(m, own, known) for m in nodes], default=0) for times, nodes in out)
        return known[node]

    def entries(self):
        top = len(self.stack) - 1
        for kind in ("Cast", "Send"):
            for tag in self.tags(0):
                yield (0, "up", kind, tag)
        yield (0, "up", "Timer", 0)
        for kind in ("Cast", "Send", "Leave"):
            yield (top, "down", kind, 0)


def keeps(m, message):
    """Whether an argument is the message that a handler was entered with, its tail, or a join onto it."""
    if m["what"] == "named":
        return m["name"][0] == message
    if m["what"] == "tail":
        return keeps(m["message"], message)
    return m["what"] == "join" and keeps(m["second"], message)


def joins_of(e):
    inside = [e[k] for k in ("message", "first", "second", "row") if k in e] + e.get("parts", []) + list(e.get("index", []))
    if "queue" in e and e["queue"][1]:
        inside.append(e["queue"][1])
    return (e["what"] == "join") + sum(joins_of(x) for x in inside)


def parts_of(s):
    parts = [s["value"]] if "value" in s else []
    parts += s.get("index", []) + s.get("arguments", [])
    if s.get("with"):
        parts += s["with"][1]
    if "queue" in s and s["queue"][1]:
        parts.append(s["queue"][1])
    return parts


def first(faults, causes):
    if faults:
        line, col, rank = min(faults)
        refuse(causes[rank], (line, col))


def layers_judged(layers, places, brought, judge):
    """The faults of all layers: the file's own, and those that places take from the library, at the places' names."""
    faults = []
    own = {layer["name"][0] for layer in layers}
    for layer in layers:
        faults += judge(layer)
    for place in places:
        word, at = place["name"]
        if word not in own and word in brought:
            faults += [(at[0], at[1], rank) for _, _, rank in judge(brought[word])]
    return faults


def check(text):
    """What `check` says of the bytes of a file."""
    try:
        return "accepted %d" % len(stack_of(text))
    except Refused as refused:
        return str(refused)


def weight_of(stack):
    """How many tasks follow from an entry of a stack without cycles at most."""
    graph, known = Graph(stack), {}
    return max(graph.cost(node, "weight", known) for node in graph.entries())


def stack_of(text):
    if len(text) > LARGEST:
        raise Refused("file: too large")
    layers, places = Parser(text).file()
    texts = library()
    brought = {word: Parser(texts[word] + b"stack { x; }").file()[0][0] for word in {p["name"][0] for p in places} if word in texts}
    faults = layers_judged(layers, places, brought, lambda layer: Names(layer).judge())
    seen = set()
    for i, layer in enumerate(layers):
        word, at = layer["name"]
        if word in seen:
            faults.append((*at, 1))
        seen.add(word)
        if i >= 64:
            faults.append((*at, 2))
    stack = []
    for i, place in enumerate(places):
        word, at = place["name"]
        if i >= 24:
            faults.append((*at, 2))
        layer = next((layer for layer in layers if layer["name"][0] == word), brought.get(word))
        if layer is None:
            faults.append((*at, 0))
            continue
        stack.append((layer, place))
        given = set()
        for (param, where), _ in place["given"]:
            if param in given:
                faults.append((*where, 1))
            given.add(param)
            d = next((d for d in layer["declared"] if d["name"][0] == param), None)
            if d is None or d["what"] != "param":
                faults.append((*where, 0))
        for size, most in sizes_of(layer):
            value = value_of(layer, place, size)
            if value is not None and not 1 <= value <= most:
                faults.append((*at, 2))
    first(faults, ("unknown", "twice", "limit"))
    faults = layers_judged(layers, places, brought, lambda layer: Types(layer).judge())
    first(faults, ("kind", "arity", "direction", "header", "initial"))
    graph = Graph(stack)
    cycle = graph.first_cycle()
    if cycle:
        raise Refused(f"file: cycle {cycle[0]} {KINDS[cycle[1]]}")
    weight = weight_of(stack)
    if weight > 65536:
        raise Refused(f"file: too many {min(weight, 4294967295)}")
    known = {}
    if max(graph.cost(node, "joins", known) for node in graph.entries()) > 1024:
        raise Refused("file: joins")
    return stack
