"""Logs of members, and their judge.

A logged member writes what it is called with into NAME.script and what came out of it into NAME.report:

    with log.open("0", layers, members=3, me=0) as member: ...

The script is one of the program `stackc`: `stackc replay LAYERS 0.script --wire` has this member's datagrams and deliveries, to the byte, since the
program's steps and the library's are steps of the same definition. `judge` says so, or where they differ.
"""
from __future__ import annotations

import builtins
import subprocess
import tempfile
from collections.abc import Callable, Iterable, Iterator
from dataclasses import dataclass

from juqhanep.member import Member
from juqhanep.outputs import Announce, Block, Cast, Datagram, Out, Output, Send, Timer, View, members_of
from juqhanep.refusals import Closed, Gone, Stray, TooBig, Unfit

LONGEST_LINE = 65_507
"""Bytes that a line of a script may have at most; the library refuses more than this, too."""


def hexed(body: bytes) -> str:
    """Bytes as scripts and reports have them."""
    return body.hex() or "-"


class LoggedMember(Member):
    """A member that writes each call and what came of it. Its `name` is set before it is opened."""

    def __init__(self, layers: bytes, members: int, me: int, group: int, stamp: int, bypass: bool, name: str):
        """As `log.open`."""
        super().__init__(layers, members, me, group, stamp, bypass)
        self._packets = self._calls = 0
        self._script = builtins.open(f"{name}.script", "w", encoding="ascii")
        self._report = builtins.open(f"{name}.report", "w", encoding="ascii")
        self._script.write(f"group {group} stamp {stamp} members {members}\n")

    def cast(self, body: bytes) -> list[Output]:
        return self._log(f"cast {self.me} {hexed(body)}", body, super().cast, body)

    def send(self, rank: int, body: bytes) -> list[Output]:
        if not 0 <= rank < 32:
            raise ValueError("a script has ranks 0 to 31")
        return self._log(f"send {self.me} {rank} {hexed(body)}", body, super().send, rank, body)

    def leave(self) -> list[Output]:
        return self._log(f"leave {self.me}", b"", super().leave)

    def tick(self, moment: int) -> list[Output]:
        return self._log(f"tick {self.me} {moment % 2**32}", b"", super().tick, moment)

    def receive(self, datagram: bytes) -> list[Output]:
        return self._log(f"raw {self.me} {hexed(datagram)}", datagram, super().receive, datagram)

    def _log(self, line: str, body: bytes, call, *given) -> list[Output]:
        if self._script.closed or len(body) > LONGEST_LINE:
            return call(*given)
        self._script.write(line + "\n")
        self._calls += 1
        try:
            outputs = call(*given)
        except Unfit as refusal:
            self._report.write(f"refused {self.me} {refused(refusal)}\n")
            raise
        for output in outputs:
            self._packets += isinstance(output, Datagram)
            self._report.writelines(f"{line}\n" for line in lines_of(output, self.me, self._packets))
        return outputs

    def flush(self) -> None:
        """What was logged is on its way to the disk."""
        self._script.flush()
        self._report.flush()

    def close(self) -> None:
        """Ends the member and its log."""
        super().close()
        if not self._script.closed:
            self._report.write(f"end {self._calls}\n")
            self._script.close()
            self._report.close()


def lines_of(output: Output, me: int, packet: int) -> list[str]:
    """The lines of an output of a member: those of a report; of a datagram, which has this number, its wire, and whom it goes to."""
    match output:
        case Cast(peer, body):
            return [f"deliver {me} cast {peer} {hexed(body)}"]
        case Send(peer, body):
            return [f"deliver {me} send {peer} {hexed(body)}"]
        case Datagram(to, body):
            return [f"wire {packet} {hexed(body)}", f"sent {packet} {to}"]
        case Block(number):
            return [f"block {me} {number}"]
        case Announce(ranks):
            return [f"announce {me} {ranks}"]
        case Timer(moment):
            return [f"timer {me} {moment}"]
        case View(number, mask):
            return [f"view {me} {number} {mask}"]
        case Out():
            return [f"out {me}"]
    return []


def refused(refusal: Unfit) -> str:
    """The word of a refusal in a report."""
    match refusal:
        case Gone():
            return "out"
        case TooBig():
            return "big"
        case Stray():
            return refusal.cause
    raise refusal


def open(name: str, layers: bytes | str, *, members: int, me: int, group: int = 1, stamp: int = 1, bypass: bool = True) -> LoggedMember:
    """Opens a member as `Member.open` does, whose calls go into NAME.script and NAME.report."""
    text = layers.encode() if isinstance(layers, str) else bytes(layers)
    return LoggedMember(text, members, me, group, stamp, bypass, name)


@dataclass
class Verdict:
    """What a log is, beside its replay: how many calls and lines were compared, and the first line that differs, from 1, with what is due there and
    what the log has."""

    calls: int
    lines: int
    line: int | None = None
    due: str | None = None
    got: str | None = None

    @property
    def agrees(self) -> bool:
        return self.line is None

    def __str__(self) -> str:
        if self.agrees:
            return f"agrees: {self.calls} calls, {self.lines} lines"
        return f"differs: line {self.line}: due is {self.due or 'nothing'}, and the log has {self.got or 'nothing'}"


def due(report: Iterable[str], members: int) -> Iterator[str]:
    """The lines that logs should have, of the report of a replay with wires: in place of a packet with its headers, which no datagram tells as such, whom
    it goes to."""
    first = (1 << members) - 1
    masks: dict[str, int] = {}
    to = 0
    for line in report:
        words = line.split(" ")
        match words[0]:
            case "packet":
                mask = masks.get(words[2], first)
                to = mask & ~(1 << int(words[2])) if words[3] == "all" else 1 << members_of(mask)[int(words[3])]
            case "wire":
                yield line
                yield f"sent {words[1]} {to}"
            case "view":
                masks[words[1]] = int(words[3])
                yield line
            case _:
                yield line


Replayed = Callable[[str, str], list[str]]
"""What gives the report of a script: of the name of its layer file, and its text."""


def whole_lines(path: str) -> list[str]:
    """The lines of a file, but for a last one that was cut off."""
    with builtins.open(path, encoding="ascii") as file:
        return file.read().split("\n")[:-1]


def replay(stackc: str, layers: str, script: str, mode: str = "bypass") -> list[str]:
    """The report of a script, by a program, in the mode of the member."""
    with tempfile.NamedTemporaryFile("w", suffix=".script", encoding="ascii") as file:
        file.write(script)
        file.flush()
        words = [stackc, "replay", layers, file.name, "--wire", "--run", mode]
        ran = subprocess.run(words, stdout=subprocess.PIPE, stderr=subprocess.PIPE, check=False)
    if ran.returncode:
        raise RuntimeError(f"{stackc} ended with {ran.returncode}: {ran.stderr.decode().strip()}")
    return ran.stdout.decode().splitlines()


def judge(layers: str, name: str, replayed: Replayed) -> Verdict:
    """Compares the log NAME of a member over the layer file `layers` with its replay, such as `replay` of a program. A log that a crash cut off should be
    the replay's beginning; one that was closed should be all of it."""
    script, report = whole_lines(f"{name}.script"), whole_lines(f"{name}.report")
    members = int(script[0].split(" ")[5])
    lines = list(due(replayed(layers, "".join(line + "\n" for line in script)), members))
    if not (report and report[-1].startswith("end ")):
        lines = lines[: len(report)]
    for at in range(max(len(lines), len(report))):
        wanted, got = ((some[at] if at < len(some) else None) for some in (lines, report))
        if wanted != got:
            return Verdict(len(script) - 1, len(report), at + 1, wanted, got)
    return Verdict(len(script) - 1, len(report))
