"""The words of the programs as the tables jobs.tsv and programs.tsv have them, and why words are refused."""
import difflib
import os

HERE = os.path.dirname(os.path.abspath(__file__))


# What is no job of stackc, and which program does it.
OTHERS = {word: f"; `{program}` is a program of its own" for word, program in (("fmt", "layerfmt"), ("format", "layerfmt"), ("chart", "runchart"), ("draw", "runchart"), ("hunt", "stackhunt"), ("bound", "stackcheck"))}
OTHERS |= {program: "; it is a program of its own" for program in ("layerfmt", "runchart", "stackhunt", "stackcheck")}


class NoJob(Exception):
    """Why words are no job."""


class Job:
    """A job, or a program that has one alone: the words at its places, its options with the words for their values, second values by the option before them,
    the options that it needs, those that it doesn't take together, and those whose numbers don't fall."""

    def __init__(self, program, name, form, says):
        self.program, self.name, self.form, self.says = program, name, form, says
        self.places, self.options, self.seconds, self.needed, self.apart, self.ascend = [], {}, {}, [], [], []
        words = form.split()
        while words:
            word = words.pop(0)
            if not word.startswith(("--", "[--")):
                self.places.append(word)
                continue
            option = word.strip("[]")
            self.options[option] = None if word.endswith("]") else words.pop(0)
            if self.options[option] and not self.options[option].endswith("]") and word.startswith("["):
                self.seconds[option] = words.pop(0).rstrip("]")
            elif self.options[option]:
                self.options[option] = self.options[option].rstrip("]")
            if not word.startswith("["):
                self.needed.append(option)

    def usage(self):
        return " ".join(filter(None, (self.program, self.name, self.form)))


def rows_of(program):
    """The rows of a program's table."""
    its = program == "stackc"
    with open(os.path.join(HERE, "jobs.tsv" if its else "programs.tsv"), encoding="utf-8") as file:
        for line in file:
            if line.startswith("#"):
                continue
            what, name, form, says = line.rstrip("\n").split("\t")
            if what == "program":
                its = name == program
            if its:
                yield what, name, form, says


class Table:
    """Of a program: its jobs by name, or the one that it is, without a name; the words by name with their forms and what they are; notes; and the statuses."""

    def __init__(self, program="stackc"):
        self.program, self.jobs, self.words, self.notes, self.statuses = program, {}, {}, [], []
        for what, name, form, says in rows_of(program):
            if what == "job":
                self.jobs[name] = Job(program, name, form, says)
            elif what == "program":
                self.jobs[""] = Job(program, "", form, says)
            elif what == "apart":
                self.jobs[name].apart.append((*form.split(), says))
            elif what == "ascend":
                self.jobs[""].ascend.append((name, form, says))
            elif what == "word":
                self.words[name] = (form.split(), says)
            elif what == "note":
                self.notes.append(says)
            else:
                self.statuses.append((name, form, says))

    def options(self, own=None):
        """All options of any job, each with the word for its value; where jobs differ, as one of them has it."""
        options = {option: value for job in self.jobs.values() for option, value in job.options.items()}
        return {**options, **own.options} if own else options

    def named(self, words):
        """The job that the first word names which is one's name; None where there is none."""
        return next((self.jobs[word] for word in words if word in self.jobs), None)

    def job_of(self, places):
        """The job, and the words at its places."""
        if "" in self.jobs:
            return self.jobs[""], places
        if not places:
            raise NoJob("no job is named")
        if places[0] not in self.jobs:
            raise NoJob(f"`{places[0]}` is no job" + (OTHERS.get(places[0]) or nearest(places[0], self.jobs)))
        return self.jobs[places[0]], places[1:]

    def read(self, words):
        """The job of words with the words at its places and its options; raises NoJob where they are none."""
        own = self.named(words)
        places, given = cut(words, self.options(own), own)
        job, places = self.job_of(places)
        for option in given:
            if option not in job.options:
                raise NoJob(f"`{job.name}` has no `{option}`")
        names = job.places + [second for option, second in job.seconds.items() if option in given]
        if len(places) > len(names):
            raise NoJob(f"`{places[len(names)]}` is a word too many")
        if len(places) < len(names):
            name = names[len(places)]
            raise NoJob(f"{name} is missing: {self.words[name][1]}")
        for option in job.needed:
            if option not in given:
                raise NoJob(f"`{option} {job.options[option]}` is missing: {self.words[job.options[option]][1]}")
        for option, value in given.items():
            if job.options[option]:
                fits(option, value, self.words[job.options[option]][0])
        for name, value in zip(names[len(job.places):], places[len(job.places):]):
            fits(name, value, self.words[name][0])
        for option, other, says in job.apart:
            name, _, value = other.partition("=")
            if option in given and given.get(name) == value:
                raise NoJob(f"`{option}` doesn't go with `{name} {value}`: {says}")
        for low, high, says in job.ascend:
            if low in given and high in given and int(given[low]) > int(given[high]):
                raise NoJob(f"`{low} {given[low]}` is over `{high} {given[high]}`: {says}")
        return job, dict(zip(names, places)), given

    def fault(self, words):
        """Why words are no job; None where they are one."""
        try:
            self.read(words)
        except NoJob as fault:
            return str(fault)
        return None


def nearest(word, known):
    """A word of those known that is much like this one, as a question."""
    found = difflib.get_close_matches(word, list(known), 1)
    return f"; is `{found[0]}` meant?" if found else ""


def cut(words, options, own=None):
    """The words at their places, and the options with their values; of the job that is named, only its own."""
    places, given, left = [], {}, list(words)
    while left:
        word = left.pop(0)
        if not is_text(word):
            raise NoJob("a word isn't UTF-8")
        if word == "--":
            return places + left, given
        if not word.startswith("-") or word == "-":
            places.append(word)
            continue
        option, sign, value = word.partition("=")
        if option in ("--prove", "--trial", "--help", "--version"):
            raise NoJob(f"`{option}` stands before the job")
        if option not in options:
            raise NoJob(f"there is no option `{option}`" + nearest(option, options))
        if own and own.name and option not in own.options:
            raise NoJob(f"`{own.name}` has no `{option}`")
        if option in given:
            raise NoJob(f"`{option}` is given twice")
        given[option] = value_of(option, value if sign else None, options[option], left)
    return places, given


def value_of(option, value, wanted, left):
    """The value of an option: after `=`, or the next word."""
    if wanted is None:
        if value is not None:
            raise NoJob(f"`{option}` has no value")
        return None
    if value is not None:
        return value
    if left and left[0][:1] == "-" and left[0][1:].isdigit():
        raise NoJob(f"`{option}` is a number in plain digits, and none is below 0")
    if not left or (left[0].startswith("-") and left[0] != "-"):
        raise NoJob(f"`{option}` needs a value after it: `{option} {wanted}`")
    return left.pop(0)


def is_text(word):
    """Whether a word is UTF-8."""
    return not any("\udc80" <= letter <= "\udcff" for letter in word)


def is_plain(word, low, high):
    """Whether a word is a number without a sign or zeros in front, within bounds."""
    digits = word.isascii() and word.isdigit() and (word == "0" or word[0] != "0")
    return digits and len(word) <= 20 and low <= int(word) <= high


def fits(option, value, form):
    """Raises NoJob where a value doesn't have the form of its word."""
    if form[0] in ("file", "text"):
        return
    if form[0] == "one":
        if value not in form[1:]:
            meant = "; `sender` asks for the order of each sender's casts" if value.lower() in ("fifo", "order") and "sender" in form else ""
            raise NoJob(f"`{option}` is " + " or ".join(f"`{word}`" for word in form[1:]) + f", and not `{value}`" + meant)
        return
    low, high = int(form[1]), int(form[2])
    if form[0] == "number":
        if not is_plain(value, low, high):
            raise NoJob(f"`{option}` is a number from {low} to {high} in plain digits, and not `{value}`")
        return
    members = value.split(",")
    if not all(is_plain(member, low, high) for member in members):
        raise NoJob(f"`{option}` is numbers from {low} to {high} with commas between, and not `{value}`")
    if any(int(left) >= int(right) for left, right in zip(members, members[1:])):
        raise NoJob(f"the numbers of `{option}` ascend, and those of `{value}` don't")
