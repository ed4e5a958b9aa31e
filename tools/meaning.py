"""What a refusal means: the line of the file that it names with a caret, and a sentence."""
import os
import socket

import causes
import lines
from words import NoJob, Table

LONGEST_READ = 80_000_000
LONGEST_SHOWN = 160
ACTS = ("check", "set", "push", "take", "out")
ROWS = "the queues of this stack would keep over 8,192 rows with messages at a member of this group: smaller queues or fewer members keep less"


def clean(text):
    """A text without what a terminal would act on."""
    return "".join(letter if letter.isprintable() or letter == "\t" else "?" for letter in text)


def bytes_of(path):
    """The bytes of a file that can be read a second time; None where it can't."""
    if not os.path.isfile(path):
        return None
    with open(path, "rb") as file:
        return file.read(LONGEST_READ)


def pointed(path, text, line, col, sentence):
    """The sentence after its place in a file, and the line of that place with a caret below it."""
    head = f"{clean(path)}:{line}:{col}: {sentence}\n"
    every = text.split(b"\n")
    row = every[line - 1].rstrip(b"\r") if line <= len(every) else b""
    if not row.strip():
        return head
    front, back = (clean(part.decode("utf-8", "replace")) for part in (row[:col - 1], row[col - 1:]))
    if len(front) > LONGEST_SHOWN:
        front = ".." + front[len(front) - LONGEST_SHOWN:]
    if len(back) > LONGEST_SHOWN:
        back = back[:LONGEST_SHOWN] + ".."
    blank = "".join("\t" if letter == "\t" else " " for letter in front)
    return f"{head}{front}{back}\n{blank}^\n"


def told(path, text, found):
    """What was found of a file: a sentence, and where it has one its place."""
    line, col, sentence = found
    if line is None:
        return f"{clean(path)}: {sentence}\n"
    return pointed(path, text, line, col, sentence)


def words_told(table, words):
    """Why words are refused, and how the job is written or, where none is named, which there are."""
    fault = table.fault(words)
    named = [job for job in table.jobs.values() if job.name in words[:1]]
    usage = "\n".join(f"    {job.usage()}" for job in named or table.jobs.values())
    said = clean(fault) if fault else "these words are no job" if table.program == "stackc" else "these words are refused"
    return f"{table.program}: {said}\n{usage}\n    {table.program} --help says what the words mean\n"


def fault_told(path):
    """Why a file couldn't be read."""
    try:
        with open(path, "rb") as file:
            file.read(1)
        return ""
    except OSError as fault:
        return f"{clean(path)}: {fault.strerror}\n"


def listen_fault(place):
    """Why nobody can listen at an address; nothing where that goes well now."""
    host, _, port = place.rpartition(":")
    with socket.socket(socket.AF_INET, socket.SOCK_DGRAM) as tried:
        try:
            tried.bind((host, int(port)))
        except OSError as fault:
            return fault.strerror
    return ""


def link_told(places, given):
    """Which own member of a node can't listen, where, and what the system says of that; or that one couldn't, or that receives failed."""
    text = bytes_of(places["PLAN"]) or b""
    words = [line.decode("latin-1").split() for line in text.split(b"\n") if line.startswith(b"peer ")]
    peers = {number: place for _, number, place in words}
    for member in given["--me"].split(","):
        fault = member in peers and listen_fault(peers[member])
        if fault:
            return f"stackc: member {member} can't listen at {peers[member]}: {fault}\n"
    borne = given.get("--patience", "0")
    return f"stackc: a member of `--me {clean(given['--me'])}` couldn't listen at its address, or more than {clean(borne)} receives failed (`--patience`)\n"


def member_told(table, places, given, line):
    """Where the members of a node's words aren't those of its plan; nothing where the plan itself is at fault."""
    text = bytes_of(places["PLAN"])
    if text is None or line != lines.first_line(text):
        return ""
    members = lines.members_of(text)
    return f"stackc: `--me {clean(given['--me'])}`: the group of {clean(places['PLAN'])} has the members 0 to {members - 1}\n"


def line_told(line, count):
    """What is wrong with a line of a file of traces that has n."""
    if line == 1:
        return "a file of traces begins with the line `bypasses 1`"
    if line > count:
        return "the file ends before its line `end`"
    return "this line is no operation of this stack, and the next case, or the end, doesn't begin so"


def act_told(rows, heading, act):
    """Where the act of this number stands after the heading of its case, and what is wrong there."""
    for line in range(rows.index(heading) + 1, len(rows)):
        word = rows[line].split(" ")[0]
        if word in ("entry", "end"):
            return line + 1, 1, f"the stack's own trace of `{heading}` goes on here"
        if word in ACTS:
            if act == 0:
                return line + 1, 1, f"the stack's own trace of `{heading}` does something else here, or the same of other values"
            act -= 1
    raise ValueError("no such act")


def traces_told(path, cause):
    """Why a file of traces is refused: at the line, or at the heading of the case."""
    text = bytes_of(path)
    if text is None:
        return ""
    if cause == "too large":
        return f"{clean(path)}: a file of traces has at most 33,554,432 bytes\n"
    every = text.split(b"\n")
    if cause.startswith("line "):
        line = int(cause.split()[1])
        return pointed(path, text, line, 1, line_told(line, len(every) - (not every[-1])))
    heading, _, act = cause.partition(" op ")
    return pointed(path, text, *act_told([row.decode("latin-1") for row in every], heading, int(act)))


def refused(table, said, words):
    """What a refusal of a file, a script or a plan means."""
    job, places, given = table.read(words)
    what, _, cause = said.partition(": ")
    if what == "bypass":
        return traces_told(given["--with"], cause)
    name = job.places[-1] if what == "script" else job.places[0]
    if job.name == "node" and cause.startswith("member "):
        of_words = member_told(table, places, given, int(cause.split()[1]))
        if of_words:
            return of_words
    if cause == "rows":
        return f"{clean(places['FILE'])}: {ROWS}\n"
    text = bytes_of(places.get(name, ""))
    if text is None:
        return ""
    find = {"FILE": causes.found, "SCRIPT": lines.script_found, "ACTS": lines.script_found, "PLAN": lines.plan_found, "REPORT": lines.report_found}[name]
    found = find(text, cause)
    return told(places[name], text, found) if found else ""


def meaning(status, said, words, program="stackc"):
    """What is added after the line that a program said when it ended with a status."""
    table = Table(program)
    if status == 2 and said == "words: refused":
        return words_told(table, words)
    try:
        if status in (1, 3, 9) and said.startswith(("file: ", "script: ", "bypass: ")):
            return refused(table, said, words)
        if status == 4 and said == "read fault":
            _, places, given = table.read(words)
            return next(filter(None, (fault_told(path) for path in [*places.values(), *filter(None, [given.get("--with")])])), "")
        if status == 6 and said == "link fault":
            _, places, given = table.read(words)
            return link_told(places, given)
    except NoJob:
        pass
    return ""
