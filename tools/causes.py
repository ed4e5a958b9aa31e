"""What the causes mean for which a stack file is refused: a sentence for each, and the place that it is of.

Files are read as diff/reading.py reads them, which was written apart from the program. Where the two don't agree, the sentence says less.
"""
import difflib
import os
import re
import sys

sys.path.insert(0, os.path.join(os.path.dirname(os.path.abspath(__file__)), "..", "diff"))
import reading  # noqa: E402
import unexpected  # noqa: E402

WORD = re.compile(rb"[A-Za-z0-9_]+")
MEANT = {"true": "1", "false": "0", "self": "me", "rank": "me", "N": "n", "members": "n"}
MEANT.update({word: "the first argument of `up Timer(t)`" for word in ("time", "now", "clock")})
MEANT.update({word: "the first argument of `up Cast(o, m)`" for word in ("sender", "origin", "from")})
# A longer text isn't read again, which would take seconds, and a cause is said as it is.
LONGEST_READ = 300_000
MOST_STEPS = 8
PLAIN = {
    "token": "no token begins here",
    "unexpected": "no file goes on with what stands here",
    "unknown": "there is no such name here",
    "twice": "this stands here a second time",
    "limit": "a limit is passed here",
    "kind": "another sort of value is wanted here",
    "arity": "another number of arguments is wanted here",
    "direction": "`with` doesn't go with this event",
    "header": "this header doesn't fit what it is pushed on, or a part goes up",
    "initial": "an initial value can't be made of this",
}
ARGUMENTS = {kind: "a peer and a message" for kind in reading.CARRIES}
ARGUMENTS.update({kind: "two numbers" for kind in reading.TWO_NUMBERS})


def found(text, cause):
    """What is meant by the cause for which the text of a stack file is refused: line, column and a sentence, the first two None where it has no place."""
    words = cause.split()
    if cause == "too large":
        return None, None, f"a stack file has at most {reading.LARGEST:,} bytes, and this one has {len(text):,}"
    if cause == "joins":
        return None, None, "one event can bring about over 1,024 joins: a loop's `max` multiplies those in it"
    if words[:2] == ["too", "many"]:
        return None, None, f"one event can bring about {counted_tasks(int(words[2]))} tasks, and 65,536 is the most: a loop's `max` multiplies what is sent in it"
    if words[0] == "cycle":
        return cycle(text, int(words[1]), words[2])
    line, col = (int(part) for part in words[1].split(":"))
    if len(text) > LONGEST_READ:
        return line, col, PLAIN[words[0]]
    return line, col, SENTENCES[words[0]](text, (line, col))


def counted_tasks(weight):
    return "4,294,967,295 or more" if weight == 4_294_967_295 else f"{weight:,}"


def offset(text, at):
    """The number of bytes before a place."""
    line, col = at
    start = 0
    for _ in range(line - 1):
        start = text.index(b"\n", start) + 1
    return start + col - 1


def listed(words, last="or"):
    """Words with commas between, and one word before the last."""
    words = [f"`{word}`" for word in words]
    return words[0] if len(words) == 1 else ", ".join(words[:-1]) + f" {last} {words[-1]}"


def like(word, known, near=0.7):
    """What may be meant by a word."""
    if word in MEANT:
        return f"; is {MEANT[word] if ' ' in MEANT[word] else '`' + MEANT[word] + '`'} meant?"
    near = difflib.get_close_matches(word, sorted(known), 1, near)
    return f"; is `{near[0]}` meant?" if near else ""


def token(text, at):
    """Why no token is here."""
    rest = text[offset(text, at):]
    here = rest[:1]
    after_digit = text[:offset(text, at)][-1:].isdigit()
    word = WORD.match(rest)
    if after_digit and word:
        return "a letter stands directly after a number: a name begins with a letter, and numbers are decimal"
    if here.isdigit():
        digits = re.match(rb"[0-9]+", rest).group().decode()
        return f"`{digits[:40]}` has a leading zero" if digits[0] == "0" else f"`{digits[:40]}` is over 4294967295, the largest number"
    if here == b"_":
        return "a word begins with a letter, and not with `_`"
    if word:
        return f"a word has at most 32 bytes, and this one has {len(word.group())}"
    if rest[:2] in (b"//", b"/*"):
        return "a comment begins with `#`, and goes to the end of its line"
    special = {b"!": "there is no `!` but in `!=`: `not(x)` is 1 where x is 0", b"/": "there is no division", b"%": "there is no remainder; the rank after one's own is `pick(((me + 1) == n), 0, (me + 1))`"}
    special.update({quote: "there are no texts in quotes: a layer passes bodies on, and what it tells other layers are numbers in headers" for quote in (b'"', b"'", b"`")})
    if here in special:
        return special[here]
    if rest[:3] == b"\xef\xbb\xbf":
        return "the file begins with a byte order mark: it is to be saved without one"
    return f"{letter(rest)} is no sign of the language"


def letter(rest):
    """The letter at the front of a text, or its byte where that is none."""
    for count in range(1, 5):
        try:
            sign = rest[:count].decode()
        except UnicodeDecodeError:
            continue
        if sign.isprintable():
            return f"`{sign}`"
    return f"the byte {rest[:1].hex()}"


class Names(reading.Names):
    """The names of a layer, with what is seen at one place and where each name was brought in."""

    def __init__(self, layer, at):
        super().__init__(layer)
        self.at, self.visible, self.brought, self.first = at, None, {}, None
        self.judge()

    def use(self, name, locals_):
        if name[1] == self.at:
            self.visible = set(locals_)
        super().use(name, locals_)

    def bring(self, name, locals_):
        if name[1] == self.at:
            known = self.own.get(name[0])
            self.first = known["name"][1] if known else self.brought.get(name[0])
        self.brought[name[0]] = name[1]
        super().bring(name, locals_)


def layer_at(layers, at):
    """The layer in which a place is."""
    return [layer for layer in layers if layer["name"][1] <= at][-1]


def every(tree):
    """All parts of a tree, itself included."""
    if isinstance(tree, dict):
        yield tree
        for part in tree.values():
            yield from every(part)
    elif isinstance(tree, (list, tuple)):
        for part in tree:
            yield from every(part)


def layers_known(layers):
    return {layer["name"][0] for layer in layers} | set(reading.library())


def unknown(text, at):
    layers, places = reading.Parser(text).file()
    word = WORD.match(text[offset(text, at):]).group().decode()
    for place in places:
        if place["name"][1] == at:
            return f"there is no layer `{word}` in this file or in the library" + like(word, layers_known(layers))
        if any(name[1] == at for name, _ in place["given"]):
            return f"the layer `{place['name'][0]}` has no param `{word}`" + params_said(layers, place["name"][0])
    layer = layer_at(layers, at)
    for part in every(layer):
        if part.get("label", (0, 0))[1] == at:
            queue = next((d for d in layer["declared"] if d["name"][0] == part["queue"][0][0] and d["what"] == "queue"), None)
            items = [name[0] for name, _ in queue["items"]] if queue else []
            return f"rows of `{part['queue'][0][0]}` have no item `{word}`" + (f", but {listed(items, 'and')}" if items else "")
        if part.get("with") and part["with"][0][1] == at:
            headers = [d["name"][0] for d in layer["declared"] if d["what"] == "header"]
            return f"the layer `{layer['name'][0]}` has no header `{word}`" + like(word, headers, 0.6)
    return f"there is no `{word}` here" + elsewhere(layer, word, at)


def params_said(layers, name):
    layer = next((layer for layer in layers if layer["name"][0] == name), None)
    if layer is None:
        layer = reading.Parser(reading.library()[name] + b"stack { x; }").file()[0][0]
    params = [d["name"][0] for d in layer["declared"] if d["what"] == "param"]
    return f"; it has {listed(params, 'and')}" if params else "; it has none"


def elsewhere(layer, word, at):
    """Where a name that isn't visible at a place may come from."""
    names = Names(layer, at)
    seen = set(names.own) | (names.visible or set())
    let = next((part for part in every(layer) if part.get("what") == "let" and part["name"][0] == word and part["at"] <= at), None)
    if let and any(part.get("at") == at for part in every(let["value"])):
        return ": a `let` brings its name in after its own expression"
    if word in names.brought:
        line, col = names.brought[word]
        return f": the one at {line}:{col} is of another block or handler, or comes later"
    return like(word, seen) or f"; the layer `{layer['name'][0]}` declares none, and it is no name of this handler"


def twice(text, at):
    layers, places = reading.Parser(text).file()
    word = WORD.match(text[offset(text, at):]).group().decode()
    place = next((place for place in places if any(name[1] == at for name, _ in place["given"])), None)
    if place:
        return f"this place gives the param `{word}` a value already"
    first = next((layer["name"][1] for layer in layers if layer["name"][0] == word), None)
    if any(layer["name"][1] == at for layer in layers):
        return f"there is a layer `{word}` already, at {first[0]}:{first[1]}"
    layer = layer_at(layers, at)
    for handler in layer["handlers"]:
        if handler["at"] == at:
            return handler_twice(layer, handler)
    for d in layer["declared"]:
        if any(name[1] == at for name in d.get("fields", [])) or any(name[1] == at for name, _ in d.get("items", [])):
            return f"`{word}` stands twice in one {'header' if d['what'] == 'header' else 'row'}"
    names = Names(layer, at)
    declared = names.own.get(word)
    first = names.first or (declared and declared["name"][1])
    return f"`{word}` means something here already" + (f": it is brought in at {first[0]}:{first[1]}" if first else "")


def handler_twice(layer, handler):
    def key(h):
        return h["dir"], h["kind"], h["with"] and h["with"][0][0]

    first = next(h for h in layer["handlers"] if key(h) == key(handler))
    header = f" with `{handler['with'][0][0]}`" if handler["with"] else " without a header"
    return f"there is a handler for `{handler['dir']} {handler['kind']}`{header} already, at {first['at'][0]}:{first['at'][1]}"


def limit(text, at):
    layers, places = reading.Parser(text).file()
    for k, place in enumerate(places):
        if place["name"][1] == at:
            return f"a stack has at most 24 places, and this is place {k + 1}" if k >= 24 else size_at_place(layers, place)
    if any(layer["name"][1] == at for layer in layers):
        return "a file has at most 64 layers, and this is the 65th"
    layer = layer_at(layers, at)
    for d in layer["declared"]:
        if d["name"][1] == at:
            return "a layer has at most " + {"param": "16 params", "header": "7 headers"}.get(d["what"], "16 cells")
        if any(name[1] == at for name in d.get("fields", [])):
            return "a header has at most 4 fields"
        for name, sort in d.get("items", []):
            if name[1] == at:
                return "a row has at most 4 numbers" if sort == "int" else "a message stands last in its row, and is the only one"
        if d["what"] == "queue" and d["size"][2] == at:
            return "a queue has room for 1 to 64 rows"
    if any(handler["at"] == at for handler in layer["handlers"]):
        return "a layer has at most 64 handlers"
    if any(part.get("what") == "each" and part["most"][2] == at for part in every(layer)):
        return "a loop goes 1 to 32 times at most"
    return "a handler has at most 64 locals, its arguments and loops included"


def size_at_place(layers, place):
    """Which size of a layer is out of its bounds at a place."""
    word = place["name"][0]
    layer = next((layer for layer in layers if layer["name"][0] == word), None)
    if layer is None:
        layer = reading.Parser(reading.library()[word] + b"stack { x; }").file()[0][0]
    for name, most in reading.sizes_of(layer):
        value = reading.value_of(layer, place, name)
        if value is not None and not 1 <= value <= most:
            what = "room of a queue" if most == 64 else "most rounds of a loop"
            return f"the param `{name}` of `{word}` is {value} here, and as the {what} it is 1 to {most}"
    return f"a limit is passed within `{word}`"


class Types(reading.Types):
    """What each part at one place of a layer is read as."""

    def __init__(self, layer, at):
        super().__init__(layer)
        self.at, self.asked, self.locals = at, [], {}
        self.judge()

    def note(self, part, wanted, locals_):
        if part["at"] == self.at:
            self.asked.append(wanted)
            self.locals = locals_

    def number(self, e, locals_):
        self.note(e, "a number", locals_)
        super().number(e, locals_)

    def message(self, m, locals_):
        self.note(m, "a message", locals_)
        super().message(m, locals_)

    def argument(self, a, wanted, locals_):
        names = {"int": "a number", "msg": "a message", "part": "a part"}
        self.note(a, names[wanted[0]], locals_)
        super().argument(a, wanted, locals_)

    def statement(self, s, locals_):
        self.note(s, "", locals_)
        super().statement(s, locals_)


SORTS = {"int": "a number", "msg": "a message", "part": "a part, which is bytes alone", None: "no value"}
CELLS = ["a cell of one number", "a cell with a number for each member: `{0}[..]` is one of them", "a square array: `{0}[..][..]` is one of its numbers"]


def category(layer, word, locals_):
    """What a name stands for."""
    if word in locals_:
        return "`" + word + "` is " + SORTS[locals_[word]]
    d = next((d for d in layer["declared"] if d["name"][0] == word), None)
    if d is None:
        return f"`{word}` is no cell"
    if d["what"] == "int":
        return f"`{word}` is " + CELLS[d["shape"]].format(word)
    if d["what"] == "queue":
        return f"`{word}` is " + (f"a queue for each member: `{word}[..]` is one of them" if d["array"] else "a queue")
    return f"`{word}` is a {d['what']}"


def kind(text, at):
    layers, places = reading.Parser(text).file()
    library = library_fault(places, at)
    if library:
        return library
    layer = layer_at(layers, at)
    if any(d["at"] == at for d in layer["declared"]):
        return "the room of a queue is a number or a param"
    types = Types(layer, at)
    parts = [part for part in every(layer) if part.get("at") == at and "what" in part]
    statement = next((part for part in parts if part["what"] in ("set", "push", "take", "emit")), None)
    if statement and statement["what"] == "set":
        return set_said(layer, statement["name"][0], types.locals)
    if statement and statement["what"] in ("push", "take"):
        return f"`{statement['what']}` is of one queue, and {category(layer, statement['queue'][0][0], types.locals)}"
    if statement or any(handler["at"] == at for handler in layer["handlers"]):
        name = (statement or next(h for h in layer["handlers"] if h["at"] == at))["with"][0][0]
        return f"`with` names a header, and {category(layer, name, types.locals)}"
    outer = next((part for part in every(layer) if part.get("what") == "join" and at in (part["first"]["at"], part["second"]["at"])), None)
    if outer:
        return f"`join` puts a part before a message, and {described(layer, parts[0], types.locals)}"
    if parts and parts[0]["what"] in OF_QUEUES:
        return queue_said(layer, parts[0], types.locals)
    if parts and parts[0]["what"] == "tail":
        return f"`tail` is of a message, and {described(layer, parts[0]['message'], types.locals)}"
    if parts and parts[0].get("index"):
        return f"`{parts[0]['name'][0]}[..]` is of an array, and {category(layer, parts[0]['name'][0], types.locals)}"
    wanted = f"{types.asked[0]} is wanted here" if types.asked and types.asked[0] else "another sort is wanted here"
    return f"{wanted}, and {described(layer, parts[0], types.locals)}" if parts else wanted


def set_said(layer, word, locals_):
    """What is at fault with a cell that is set."""
    if word in locals_:
        return f"`set` changes a cell, and `{word}` is a name of this handler"
    d = next((d for d in layer["declared"] if d["name"][0] == word), None)
    if d and d["what"] == "int":
        return f"{category(layer, word, locals_)}, and it is set as that"
    return f"`set` changes a cell of numbers, and {category(layer, word, locals_)}"


def described(layer, part, locals_):
    """What an expression or a message is."""
    what = part["what"]
    if what == "named":
        return category(layer, part["name"][0], locals_)
    if what in ("cut", "nothing"):
        return f"`{what}` is a part, which is bytes alone"
    if what in ("tail", "join", "held"):
        return f"`{what}` is a message"
    return "this is a number"


OF_QUEUES = {"len": "a number", "at": "a number, and this item is none: `held(q, k)` is a row's message", "held": "a message, and these rows have none"}


def queue_said(layer, part, locals_):
    """What is at fault with `len`, `at` or `held`."""
    word = part["queue"][0][0]
    d = next((d for d in layer["declared"] if d["name"][0] == word), None)
    if d and d["what"] == "queue" and d["array"] == (part["queue"][1] is not None):
        return f"`{part['what']}` is {OF_QUEUES[part['what']]}"
    return f"`{part['what']}` is of one queue, and {category(layer, word, locals_)}"


def library_fault(places, at):
    """What is said of a fault that stands at the name of a place."""
    place = next((place for place in places if place["name"][1] == at), None)
    return f"the fault is within `{place['name'][0]}`" if place else None


def needs(kind_word):
    return f"`{kind_word}` has {ARGUMENTS.get(kind_word, 'one number')}"


def arity(text, at):
    layer = layer_at(reading.Parser(text).file()[0], at)
    part = next(part for part in every(layer) if part.get("at") == at and ("kind" in part or part.get("what") in ("push", "take")))
    if "kind" not in part:
        queue = next((d for d in layer["declared"] if d["name"][0] == part["queue"][0][0]), {})
        items = [name[0] for name, _ in queue.get("items", [])]
        count = len(part["arguments"] if part["what"] == "push" else part["names"])
        return f"a row of `{part['queue'][0][0]}` has {counted(len(items), 'item')}, {listed(items, 'and')}, and here {stand(count)}"
    count = len(part["arguments"] if "arguments" in part else part["names"])
    wanted = 2 if part["kind"] in ARGUMENTS else 1
    if count != wanted:
        return f"{needs(part['kind'])}, and here {stand(count)}"
    name, fields = part["with"]
    header = next((d for d in layer["declared"] if d["name"][0] == name[0]), {})
    return f"the header `{name[0]}` has {counted(len(header.get('fields', [])), 'field')}, and here {stand(len(fields))}"


def counted(count, word):
    return f"{count or 'no'} {word}" + ("" if count == 1 else "s")


def stand(count):
    return f"stands {count}" if count == 1 else f"stand {count or 'none'}"


def direction(text, at):
    layer = layer_at(reading.Parser(text).file()[0], at)
    part = next(part for part in every(layer) if part.get("at") == at and "kind" in part)
    if part["kind"] not in reading.CARRIES:
        return f"`{part['kind']}` carries no message, so it has no header: `with` goes with `Cast` and `Send`"
    if "block" in part:
        return "a handler going down takes no header off: `with` stands where an event comes `up`"
    return "what goes up gets no header: `with` pushes one on what goes `down`"


def header(text, at):
    layer = layer_at(reading.Parser(text).file()[0], at)
    part = next(part for part in every(layer) if part.get("at") == at and part.get("what") == "emit")
    if part["dir"] == "up":
        return "a part, which is bytes alone, can't go up: above, headers are to be popped"
    if part["with"] and Types(layer, at).ends(part["with"]):
        return f"after `{part['with'][0][0]}`, which `ends`, come bytes alone, and this is a message with the headers of the layers above"
    name = f"`{part['with'][0][0]}`, which `passes`," if part["with"] else "`none`, the header without a `with`,"
    return f"after {name} come the headers of the layers above, and this is a part, which has none: it wants a header that `ends`"


def initial(text, at):
    return "an initial value is made of numbers, params, `me`, `n`, `ltime` and operations on them: cells have no values yet"


def graph_of(text):
    """The graph of the stack of a text whose names and types are good, and the layers that the text itself has."""
    layers, places = reading.Parser(text).file()
    own, texts = {layer["name"][0]: layer for layer in layers}, reading.library()
    brought = {word: reading.Parser(texts[word] + b"stack { x; }").file()[0][0] for word in {place["name"][0] for place in places} - own.keys()}
    return reading.Graph([({**brought, **own}[place["name"][0]], place) for place in places]), own


def way_round(graph, start):
    """The shortest way from an event at a place back to it; None where there is none."""
    before, left = {}, [start]
    for node in left:
        for follower in [follower for _, nodes in graph.follows(node)[0] for follower in nodes]:
            if follower == start:
                way = [node]
                while way[-1] != start:
                    way.append(before[way[-1]])
                return way[::-1]
            if follower not in before:
                before[follower] = node
                left.append(follower)
    return None


def step_told(graph, own, node):
    """An event at a place, with its header, and the line of its handler, where that is in the file."""
    place, direction, kind, tag = node
    name = graph.stack[place][0]["name"][0]
    handler = graph.handler(place, direction, kind, tag)
    line = f", line {handler['at'][0]}" if handler and name in own else "" if handler else ", which passes it on"
    header = f" with `{graph.headers[place if direction == 'up' else place + 1][tag - 1]['name'][0]}`" if tag else ""
    return f"{direction} {kind}{header} at place {place} (`{name}`{line})"


def round_told(text, place, kind_word):
    """The shortest way round of an event of this kind that passes this place, step by step."""
    graph, own = graph_of(text)
    ways = [way_round(graph, node) for node in graph.nodes() if node[0] == place and node[2] == kind_word]
    steps = [step_told(graph, own, node) for node in min(filter(None, ways), key=len)]
    more = ["..", steps[-1]] if len(steps) > MOST_STEPS else []
    seen = "; of its headers only the next layer's is looked at" if kind_word in reading.CARRIES else ""
    return ", then ".join(steps[:MOST_STEPS - 1] + more if more else steps) + f", and so on{seen}"


def cycle(text, place, kind_word):
    said = "can come back to it without end"
    if len(text) > LONGEST_READ:
        return None, None, f"a {kind_word} that passes place {place}, counted from 0, {said}: layers send it round between up and down"
    name, at = reading.Parser(text).file()[1][place]["name"]
    return *at, f"a {kind_word} that passes place {place}, `{name}`, {said}: {round_told(text, place, kind_word)}"


SENTENCES = {
    "token": token,
    "unexpected": lambda text, at: unexpected.sentence(text, at),
    "unknown": unknown,
    "twice": twice,
    "limit": limit,
    "kind": kind,
    "arity": arity,
    "direction": direction,
    "header": header,
    "initial": initial,
}
