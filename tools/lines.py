"""What is at fault with a line of a script, a plan or a report: a sentence, and the column that it is of."""
import difflib
import re

from words import is_plain

LONGEST = 4_194_304
MOST_LINES = 100_000
LONGEST_REPORT = 67_108_864
LARGEST = 4_294_967_295
EVENTS = {
    "cast": ("M", "HEX"),
    "send": ("M", "D", "HEX"),
    "leave": ("M",),
    "tick": ("M", "TIME"),
    "give": ("K", "M"),
    "raw": ("M", "HEX"),
    "state": ("M",),
}
REQUESTS = ("cast", "send", "leave")
GROUP = ("group", "G", "stamp", "S", "members", "N")
REPORTED = "deliver view out end visits block announce timer packet refused absent state cell wire lost deaf >".split()


class Fault(Exception):
    """A sentence and the number of bytes before what it is of."""

    def __init__(self, front, sentence):
        super().__init__(sentence)
        self.front, self.sentence = front, sentence


def said_lines(text):
    """The lines that say something, each with its number."""
    return [(k + 1, line) for k, line in enumerate(text.split(b"\n")) if line and not line.startswith(b"#")]


def first_line(text):
    """The number of the first line that says something."""
    return next((number for number, _ in said_lines(text)), 1)


def members_of(text):
    """How many members the first line says; None where it isn't in form."""
    said = said_lines(text)
    words = said[0][1].decode("latin-1").split(" ") if said else []
    return int(words[5]) if len(words) == 6 and is_plain(words[5], 1, 32) else None


def line_at(text, number):
    every = text.split(b"\n")
    return every[number - 1] if number <= len(every) else b""


def script_found(text, cause):
    """What is meant by the cause for which the text of a script is refused, as `found` of causes.py says it."""
    return second_found(text, cause, script_line)


def plan_found(text, cause):
    return second_found(text, cause, plan_line)


def second_found(text, cause, judge):
    if cause == "too long":
        return None, None, too_long(text)
    what, number = cause.split()
    line = line_at(text, int(number))
    if what == "member":
        return member_found(text, int(number), line)
    try:
        spaced(line)
        judge(text, int(number), words_of(line))
    except Fault as fault:
        return int(number), fault.front + 1, fault.sentence
    return int(number), 1, "this line is out of form"


def too_long(text):
    count = text.count(b"\n") + (not text.endswith(b"\n"))
    if len(text) > LONGEST:
        return f"it has {len(text):,} bytes, and {LONGEST:,} is the most"
    more = ": a node's journal is replayed in parts no longer than that, so let it make fewer turns" if b"\ntick " in text[:2000] else ""
    return f"it has {count:,} lines, and {MOST_LINES:,} is the most{more}"


def words_of(line):
    """The words of a line, each with the number of bytes before it."""
    words, front = [], 0
    for word in line.split(b" "):
        words.append((front, word.decode("latin-1")))
        front += len(word) + 1
    return words


def spaced(line):
    """Raises a fault where words don't have one space between them."""
    if line.endswith(b"\r"):
        raise Fault(len(line) - 1, "the line ends with a carriage return: lines end with a line feed alone")
    if b"\t" in line:
        raise Fault(line.index(b"\t"), "words have one space between them, and no tab")
    if line.startswith(b" "):
        raise Fault(0, "a line begins without a space")
    if line.endswith(b" "):
        raise Fault(len(line.rstrip(b" ")), "no space stands at the end of a line")
    if b"  " in line:
        raise Fault(line.index(b"  ") + 1, "words have one space between them")
    comment = re.search(rb" #", line)
    if comment:
        raise Fault(comment.start() + 1, "a comment is a line of its own, with `#` at its beginning")


def fits(form, words, head):
    """Raises a fault where words, each with its place, don't have a form; `head` is how the whole line is written."""
    for name, (front, word) in zip(form, words):
        fault = WORDS[name](word) if name in WORDS else None if word == name else f"`{name}` is wanted here"
        if fault:
            raise Fault(front, f"{fault}: `{head}`" if name not in ("HEX", "PEER") else fault)
    if len(words) < len(form):
        end = words[-1][0] + len(words[-1][1]) if words else 0
        raise Fault(end, f"the line is too short: `{head}`")
    if len(words) > len(form):
        raise Fault(words[len(form)][0], f"the line is too long: `{head}`")


def number(low, high):
    """Why a word is no number within bounds."""
    def judge(word):
        if is_plain(word, low, high):
            return None
        if re.fullmatch("0[0-9]+", word):
            return f"`{word}` has a leading zero"
        return f"a number from {low} to {high} is wanted here" if high < LARGEST else "a number is wanted here"
    return judge


def bytes_said(word):
    """Why a word is no bytes."""
    if word == "-" or re.fullmatch("([0-9a-f]{2})+", word):
        return f"at most 65,507 bytes are said by a word, and this one says {len(word) // 2:,}" if len(word) > 131_014 else None
    if re.fullmatch("[0-9a-f]+", word):
        return "bytes are two digits each, and this is an odd number of digits"
    if re.fullmatch("[0-9a-fA-F]+", word):
        return f"hexadecimal digits are written small: `{word.lower()}`"
    if re.fullmatch("0[xX][0-9a-fA-F]*", word):
        return "bytes are written as their digits alone, without `0x`"
    if 0 < len(word) <= 40:
        return f"bytes are written as hexadecimal digits, two each: `{word}` is `{word.encode('latin-1').hex()}`"
    return "bytes are written as hexadecimal digits, two each, and `-` is none"


def peer(word):
    """Why a word is no address with a port."""
    octets, sign, port = word.partition(":")
    parts = octets.split(".")
    if len(parts) != 4 or not all(is_plain(part, 0, 255) for part in parts):
        return "an address is four numbers from 0 to 255, as in `127.0.0.1:47110`: names aren't looked up"
    return None if sign and is_plain(port, 0, 65535) else "a port from 0 to 65535 stands after the address, as in `127.0.0.1:47110`"


WORDS = {name: number(0, LARGEST) for name in ("G", "S", "M", "K", "TIME")}
WORDS.update({"N": number(1, 32), "D": number(0, 31), "HEX": bytes_said, "PEER": peer})


def like(word, known):
    near = difflib.get_close_matches(word.lower(), known, 1)
    return f"; is `{near[0]}` meant?" if near else ""


def event(words, verbs, head=""):
    """Raises a fault where words are no event of these verbs."""
    if not words:
        return
    front, verb = words[0]
    if verb == ">":
        raise Fault(front, "these are lines of a journal: its script is what stands after `> `, with the plan's first line before it")
    if verb == "group":
        raise Fault(front, "the group's line is the first, and stands once")
    if verb not in verbs:
        raise Fault(front, f"`{verb}` is no event: a line begins with {', '.join(verbs[:-1])} or {verbs[-1]}" + like(verb, verbs))
    form = EVENTS[verb]
    said = " ".join("T" if name == "TIME" else name for name in form)
    fits(form, words[1:] if len(words) > 1 else [(front + len(verb), "")], f"{head}{verb} {said}")


def group(words):
    if words == [(0, "")]:
        raise Fault(0, "nothing is said here: the first line is `group G stamp S members N`")
    if words[0][1] != "group":
        raise Fault(0, "the first line is `group G stamp S members N`, N being the number of members")
    fits(GROUP, words, "group G stamp S members N")


def script_line(text, number, words):
    """Raises a fault where a line of a script is out of form."""
    if number <= first_line(text):
        group(words)
    event(words, list(EVENTS))


def plan_line(text, number, words):
    """Raises a fault where a line of a plan is out of form."""
    said = [k for k, _ in said_lines(text)]
    place = said.index(number) if number in said else len(said)
    if place == 0:
        group(words)
    members = members_of(text) or 0
    if place <= members:
        if words[0][1] != "peer":
            raise Fault(0, f"a line for each member comes first, in order, and member {place - 1} has none: `peer {place - 1} A.B.C.D:PORT`")
        if len(words) > 1 and words[1][1] != str(place - 1):
            raise Fault(words[1][0], f"peers come in the order of members, and this is the line of member {place - 1}")
        fits(("peer", "M", "PEER"), words, f"peer {place - 1} A.B.C.D:PORT")
    if words[0][1] != "turn":
        if words[0][1] == "peer":
            raise Fault(0, f"the group has {members} members, and each has its peer already")
        raise Fault(0, "after the peers a line is `turn T` and a cast, send or leave line")
    if len(words) > 1:
        turn_number(text, number, words[1])
    event(words[2:], list(REQUESTS), "turn T ")
    raise Fault(words[-1][0] + len(words[-1][1]), "the line is too short: `turn T` and a cast, send or leave line")


def turn_number(text, number, word):
    front, turn = word
    fault = WORDS["TIME"](turn)
    if fault:
        raise Fault(front, fault + ": `turn T`")
    before = [line.decode("latin-1").split(" ")[1] for k, line in said_lines(text) if k < number and line.startswith(b"turn ")]
    if before and int(turn) < int(before[-1]):
        raise Fault(front, f"turns don't fall, and turn {before[-1]} stands before this one")


def member_found(text, number, line):
    """The member of a line that the group doesn't have."""
    words = words_of(line)
    if words[0][1] == "turn":
        words = words[2:]
    place = 1 + EVENTS[words[0][1]].index("M")
    return number, words[place][0] + 1, f"there is no member {words[place][1]}: the group has the members 0 to {members_of(text) - 1}"


def report_found(text, cause):
    """What is meant by the cause for which the text of a report is refused."""
    if cause == "too large":
        return None, None, f"a report has at most {LONGEST_REPORT:,} bytes, and this one has {len(text):,}"
    number = int(cause.split()[1])
    line = line_at(text, number)
    front, sentence = 0, "this line is out of form"
    try:
        report_line(text, number, line)
    except Fault as fault:
        front, sentence = fault.front, fault.sentence
    return number, front + 1, sentence


REPORT_FORMS = {
    "deliver": (("M", "KIND", "P", "HEX"), "deliver M cast P HEX"),
    "view": (("M", "LTIME", "MASK"), "view M LTIME MASK"),
    "out": (("M",), "out M"),
    "end": (("COUNT",), "end N"),
    "visits": (("COUNT",), "visits V"),
}
WORDS.update({name: number(0, LARGEST) for name in ("P", "LTIME", "MASK")})
WORDS["COUNT"] = number(0, 18_446_744_073_709_551_615)
WORDS["KIND"] = lambda word: None if word in ("cast", "send") else "`cast` or `send` is wanted here"


def report_line(text, number, line):
    """Raises a fault where a line of a report is out of form or out of place."""
    ended = [k for k, row in enumerate(text.split(b"\n")[:number - 1]) if row.startswith(b"end ")]
    if line == b"" and number > text.count(b"\n"):
        raise Fault(0, "the report ends without its line `end N`" if not ended else "this line is out of form")
    if line == b"":
        raise Fault(0, "a report has no empty lines")
    if line.endswith(b"\r"):
        raise Fault(len(line) - 1, "the line ends with a carriage return: lines end with a line feed alone")
    words = words_of(line)
    verb = words[0][1]
    if ended and verb == "end":
        raise Fault(0, f"`end N` stands once, and is in line {ended[0] + 1} already: of reports that are put together the last one's stays")
    if ended and not (verb == "visits" and number == ended[0] + 2):
        raise Fault(0, f"the report has ended in line {ended[0] + 1}")
    if verb in ("group", "layer", "stack"):
        what = "a script: `replay` makes a report of it" if verb == "group" else "a layer file: `replay` makes a report of it and a script"
        raise Fault(0, f"`{verb}` begins no line of a report; this looks like {what}")
    if verb not in REPORTED:
        raise Fault(0, f"`{verb}` begins no line of a report" + like(verb, REPORTED))
    if verb == "visits" and not ended:
        raise Fault(0, "`visits V` stands after `end N`")
    if verb in REPORT_FORMS:
        form, head = REPORT_FORMS[verb]
        fits(form, words[1:], head)
