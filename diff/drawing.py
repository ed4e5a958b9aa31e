"""Random layer files whose handlers write cells and queues and look at them again: what guards are made of.

`file(r)` answers the bytes of a file that is accepted. Its layers are typed as they are drawn; what is left to chance is refused now and then, and
drawn again.
"""
import reading

OPERATORS = ["+", "-", "*", "==", "!=", "<", "<=", ">", ">=", "and", "or", "&", "|", "^"]
COMPARISONS = ["==", "==", "!=", "<", "<=", ">", ">="]
NUMBERS = [0, 0, 1, 1, 2, 3, 4, 8, 4294967295, 8192]


class Layer:
    """A layer that is being drawn: its cells, queues and headers, and the names that a handler sees. A busy one does much with one cell and one queue."""

    def __init__(self, r, name):
        self.r, self.name, self.fresh, self.busy = r, name, 0, r.random() < 0.5
        self.ints = [(f"c{i}", r.choice((0, 0, 0, 1, 1, 2))) for i in range(1 if self.busy else r.randint(1, 3))]
        self.queues = [self.queue(i) for i in range(1 if self.busy else r.randint(0, 2))]
        self.headers = [(f"h{i}", [f"f{j}" for j in range(r.choice((0, 1, 1, 2)))], r.random() < 0.2) for i in range(r.randint(0, 3))]
        self.params = [f"p{i}" for i in range(r.randint(0, 1))]
        self.numbers, self.messages = [], {}

    def queue(self, i):
        items = [(f"x{j}", "int") for j in range(self.r.choice((0, 1, 1, 2)))]
        sort = self.r.choice(("msg", "part", "part", None))
        if sort or not items:
            items.append(("w", sort or "part"))
        return f"q{i}", self.r.random() < 0.4, self.r.choice(("3", "4", "6") if self.busy else ("1", "2", "3", "4")), items

    def chance(self, odds):
        return self.r.random() < odds

    def local(self):
        self.fresh += 1
        return f"a{self.fresh}"

    # Numbers and messages.

    def number(self, deep):
        if deep == 0 or self.chance(0.35):
            return self.leaf(deep)
        kind = self.r.random()
        if kind < 0.7:
            return f"({self.number(deep - 1)} {self.r.choice(OPERATORS)} {self.number(deep - 1)})"
        if kind < 0.8:
            return f"{self.r.choice(('not', 'bit', 'count', 'lowest'))}({self.number(deep - 1)})"
        if kind < 0.9:
            return f"size({self.any_message(deep - 1)})"
        return f"pick({self.number(deep - 1)},{self.number(deep - 1)},{self.number(deep - 1)})"

    def leaf(self, deep):
        kind = self.r.random()
        if kind < 0.25:
            return str(self.r.choice(NUMBERS))
        if kind < 0.45 and self.numbers:
            return self.r.choice(self.numbers)
        if kind < 0.55:
            return self.r.choice(["me", "n", "ltime"] + self.params)
        if kind < 0.85 or not self.queues:
            return self.cell(deep)
        return self.looked_up(deep)

    def small(self, deep):
        return self.number(max(0, deep - 1))

    def index(self, deep):
        """Mostly one of few, so that reads meet writes."""
        if self.chance(0.6) or deep == 0:
            return self.r.choice(["0", "0", "1", "me"] + self.numbers[:2])
        return self.small(deep)

    def cell(self, deep):
        name, shape = self.r.choice(self.ints)
        return name + "".join(f"[{self.index(deep)}]" for _ in range(shape))

    def of_queue(self, queue, deep):
        return queue[0] + (f"[{self.index(deep)}]" if queue[1] else "")

    def looked_up(self, deep):
        queue = self.r.choice(self.queues)
        labels = [word for word, sort in queue[3] if sort == "int"]
        if labels and self.chance(0.6):
            return f"at({self.of_queue(queue, deep)},{self.index(deep)}).{self.r.choice(labels)}"
        return f"len({self.of_queue(queue, deep)})"

    def message(self, deep, sort):
        held = [q for q in self.queues if q[3][-1][1] == sort]
        named = [word for word, own in self.messages.items() if own == sort]
        if held and deep > 0 and self.chance(0.25):
            return f"held({self.of_queue(self.r.choice(held), deep)},{self.index(deep)})"
        if sort == "part":
            if named and self.chance(0.4):
                return self.r.choice(named)
            if self.chance(0.1) or not (self.messages or held) or deep == 0:
                return "nothing"
            if self.chance(0.2):
                return f"cut({self.any_message(0)},0,{self.r.choice((1, 4096, 8192))})"
            return f"cut({self.any_message(deep - 1)},{self.small(deep)},{self.small(deep)})"
        return self.whole(deep, named)

    def any_message(self, deep):
        sorts = [sort for sort in ("msg", "part") if sort == "part" or "msg" in self.messages.values()]
        return self.message(deep, self.r.choice(sorts))

    def whole(self, deep, named):
        if not named:
            return f"held({next(self.of_queue(q, 0) for q in self.queues if q[3][-1][1] == 'msg')},0)"
        if deep == 0 or self.chance(0.5):
            return self.r.choice(named)
        if self.chance(0.4):
            return f"tail({self.message(deep - 1, 'msg')},{self.small(deep)})"
        return f"join({self.message(deep - 1, 'part')},{self.message(deep - 1, 'msg')})"

    # Statements.

    def block(self, deep, sends):
        """Statements, and what is sent among them: at the end, or in a block further in."""
        kept = list(self.numbers), dict(self.messages)
        lines = [self.statement(deep) for _ in range(self.r.choice((2, 3, 5, 7) if self.busy else (0, 1, 2, 3)))]
        if deep > 0 and sends and self.chance(0.5):
            lines.append(self.inner(deep - 1, sends))
        else:
            lines += [send() for send in sends]
        lines += [self.statement(deep) for _ in range(self.r.choice((0, 1, 2) if self.busy else (0, 0, 1)))]
        self.numbers, self.messages = kept
        return "{ " + " ".join(lines) + " }"

    def inner(self, deep, sends):
        kind = self.r.random()
        if kind < 0.5:
            return f"if {self.condition()} {self.block(deep, sends)}"
        if kind < 0.62:
            return f"if two {self.condition()} {self.block(deep, sends)} else {self.block(deep, sends)}"
        if kind < 0.72 or not self.queues:
            return f"if rare {self.condition()} {self.block(0, [])} else {self.block(deep, sends)}"
        return self.taking(deep, sends)

    def seen(self):
        """What a layer can read of itself."""
        kind = self.r.random()
        if kind < 0.3:
            return f"size({self.any_message(2)})"
        return self.looked_up(2) if self.queues and kind < 0.7 else self.cell(2)

    def condition(self):
        kind = self.r.random()
        if kind < 0.4:
            return f"({self.seen()} {self.r.choice(COMPARISONS)} {self.leaf(1)})"
        if kind < 0.6:
            return f"({self.seen()} {self.r.choice(COMPARISONS)} {self.seen()})"
        if kind < 0.85:
            return f"({self.number(2)} {self.r.choice(COMPARISONS)} {self.number(2)})"
        return self.number(3)

    def statement(self, deep):
        kind = self.r.random()
        if kind < 0.2:
            name, shape = self.r.choice(self.ints)
            return f"set {name}{''.join(f'[{self.index(2)}]' for _ in range(shape))} = {self.number(self.r.choice((0, 1, 2)))};"
        if kind < (0.5 if self.busy else 0.3):
            return self.naming()
        if kind < 0.8 and self.queues:
            return self.pushing() if deep == 0 or self.chance(0.65) else self.taking(deep - 1, [])
        if kind < 0.98:
            return f"if {self.r.choice(('', '', 'rare '))}{self.condition()} {{ }}"
        return f"each {self.local()} below {self.number(1)} max 2 {{ }}" if self.chance(0.3) else ""

    def naming(self):
        """What is named isn't compared with anything, and a run goes on after it."""
        value, name = self.seen() if self.busy else self.number(2), self.local()
        self.numbers.append(name)
        return f"let {name} = {value};"

    def pushing(self):
        queue = self.r.choice(self.queues)
        items = [self.number(2) if sort == "int" else self.message(2, sort) for _, sort in queue[3]]
        return f"push {self.of_queue(queue, 2)} ({', '.join(items)}) else {{ }}"

    def taking(self, deep, sends):
        queue = self.r.choice(self.queues)
        head, names = self.of_queue(queue, 2), [self.local() for _ in queue[3]]
        kept = list(self.numbers), dict(self.messages)
        for name, (_, sort) in zip(names, queue[3]):
            if sort == "int":
                self.numbers.append(name)
            else:
                self.messages[name] = sort
        block = self.block(deep, sends)
        self.numbers, self.messages = kept
        return f"take {head} ({', '.join(names)}) {block} else {{ }}"

    # Emissions and handlers.

    def send(self, direction, kind, message):
        """An emission of a message, mostly of the one that the handler was entered with."""
        def made():
            part = self.chance(0.15) and direction == "down"
            headers = [h for h in self.headers if h[2] == part] if direction == "down" else []
            if part and not headers:
                part, headers = False, [h for h in self.headers if not h[2]]
            sort, head = "part" if part else "msg", ""
            own = message if self.messages[message] == sort and self.chance(0.5) else self.message(2, sort)
            if headers and (part or self.chance(0.8)):
                name, fields, _ = self.r.choice(headers)
                head = f" with {name}({', '.join(self.number(1) for _ in fields)})"
            return f"{direction} {kind}({self.number(1)}, {own}){head};"
        return made

    def signal(self, direction):
        kind = self.r.choice(("Ack", "Timer", "Stable"))
        return lambda: f"{direction} {kind}({', '.join(self.number(2) for _ in range(1 if kind == 'Timer' else 2))});"

    def sends(self, direction, kind):
        """What a handler sends: mostly its message on, and now and then something else."""
        sends = [self.send(direction, kind, "m")]
        if self.chance(0.15):
            sends.append(self.send(direction, self.r.choice(("Cast", "Send")), "m"))
        if self.chance(0.1):
            sends.insert(self.r.randint(0, 1), self.send("up" if direction == "down" else "down", self.r.choice(("Cast", "Send")), "m"))
        if self.chance(0.1):
            sends.append(self.signal(direction))
        return sends

    def handler(self, direction, kind, header):
        self.numbers, self.messages = ["o"], {"m": "part" if header and header[2] else "msg"}
        head = ""
        if header:
            names = [self.local() for _ in header[1]]
            self.numbers += names
            head = f" with {header[0]}({', '.join(names)})"
        sends = self.sends(direction, kind) if self.messages["m"] == "msg" else [self.signal(direction)]
        if self.chance(0.3):
            head += f" common {self.condition()}"
        elif self.chance(0.04):
            head += " rare"
        return f"  {direction} {kind}(o, m){head} {self.block(2, sends)}\n"

    def signalled(self, direction, kind):
        names = ["o", "z"][:1 if kind == "Timer" else 2]
        self.numbers, self.messages = list(names), {}
        return f"  {direction} {kind}({', '.join(names)}) {self.block(1, [self.signal(direction)] if self.chance(0.3) else [])}\n"

    def declared(self):
        for name in self.params:
            yield f"param {name} = {self.r.choice((0, 1, 2, 5))};"
        for name, shape in self.ints:
            yield f"state int {name}{('', '[n]', '[n*n]')[shape]};"
        for name, array, size, items in self.queues:
            yield f"state queue {name}{'[n]' if array else ''}[{size}] of ({', '.join(f'{word}: {sort}' for word, sort in items)});"
        for name, fields, ends in self.headers:
            yield f"header {name}({', '.join(fields)}) {'ends' if ends else 'passes'};"

    def text(self):
        declared = "".join(f"  {line}\n" for line in self.declared())
        handlers = [self.handler("down", kind, None) for kind in ("Cast", "Send") if self.chance(0.85)]
        handlers += [self.handler("up", kind, h) for kind in ("Cast", "Send") for h in [None] + self.headers if self.chance(0.8)]
        handlers += [self.signalled(d, kind) for d in ("up", "down") for kind in ("Ack", "Timer", "Stable") if self.chance(0.15)]
        return f"layer {self.name} {{\n{declared}{''.join(handlers)}}}\n"


def drawn(r):
    layers = [Layer(r, f"l{i}") for i in range(r.choice((1, 1, 2, 3)))]
    texts = [layer.text() for layer in layers]
    names = [layer.name for layer in layers] + (list(reading.library()) if r.random() < 0.3 else [])
    places = [r.choice(names) for _ in range(r.choice((1, 1, 2, 3, 4)))]
    return ("".join(texts) + "stack { " + "".join(f"{word}; " for word in places) + "}\n").encode()


def file(r, most_weight=600):
    """A file that is accepted and not heavy."""
    while True:
        text = drawn(r)
        try:
            if reading.weight_of(reading.stack_of(text)) <= most_weight:
                return text
        except reading.Refused:
            pass
