"""Members in this process, over a network that is a list: what comes out, what is refused, and what logs say."""
import asyncio
import os
import random
import socket
import sys
import tempfile
import threading
import unittest

sys.path.insert(0, os.path.join(os.path.dirname(os.path.abspath(__file__)), ".."))
import juqhanep
from juqhanep import Cast, Closed, Datagram, Gone, Member, NoMember, Out, Refused, Send, Stray, TooBig, View, log, udp

ORDER = "stack { bottom; mnak; pt2pt; pt2ptw; local; total; }"
VIEWS = "stack { bottom; mnak; pt2pt; pt2ptw; local; total; suspect; elect; sync; intra; top; }"


def free_ports(count):
    """Addresses of the loopback on which nothing listens."""
    sockets = [socket.socket(socket.AF_INET, socket.SOCK_DGRAM) for _ in range(count)]
    for one in sockets:
        one.bind(("127.0.0.1", 0))
    addresses = [one.getsockname() for one in sockets]
    for one in sockets:
        one.close()
    return addresses


class Net:
    """Members whose datagrams arrive in a random order, or are lost."""

    def __init__(self, members, seed=1, lose=0.0):
        self.members, self.random, self.lose = members, random.Random(seed), lose
        self.under_way, self.told = [], {member.me: [] for member in members}

    def do(self, me, call, *given):
        try:
            outputs = call(*given)
        except (Stray, Gone):
            return
        for output in outputs:
            if isinstance(output, Datagram):
                self.under_way += [(to, output.bytes) for to in output.ids if self.random.random() >= self.lose]
            else:
                self.told[me].append(output)

    def run(self):
        while self.under_way:
            me, datagram = self.under_way.pop(self.random.randrange(len(self.under_way)))
            self.do(me, self.members[me].receive, datagram)

    def play(self, events):
        """So many random casts, sends and ticks of one clock."""
        for moment in range(events):
            me = self.random.randrange(len(self.members))
            member = self.members[me]
            what = self.random.random()
            if what < 0.4:
                self.do(me, member.cast, self.random.randbytes(self.random.randrange(40)))
            elif what < 0.6:
                self.do(me, member.send, self.random.randrange(4), self.random.randbytes(self.random.randrange(40)))
            else:
                self.do(me, member.tick, moment * 20)
            self.run()


class OfOneMember(unittest.TestCase):
    def test_version(self):
        self.assertRegex(juqhanep.version(), r"^juqhanep \S+, (not )?proved, commit \S+, kit ")

    def test_it_delivers_to_itself(self):
        with Member.open(ORDER, members=1, me=0) as member:
            told = [output for output in member.cast(b"hi") if isinstance(output, Cast)]
            self.assertEqual(told, [Cast(0, b"hi")])

    def test_refused_files(self):
        with self.assertRaises(Refused) as caught:
            Member.open("stack { bottom;\n nolayer; }", members=3, me=0)
        it = caught.exception
        self.assertEqual((it.cause, it.line, it.column, it.number, it.sentence), ("unknown", 2, 2, None, "file: unknown 2:2"))
        with self.assertRaises(Refused) as caught:
            Member.open("layer a { up Timer(t) { up Timer(t); down Timer(t); } down Timer(t) { up Timer(t); } } stack { a; a; }", members=3, me=0)
        it = caught.exception
        self.assertEqual((it.cause, it.line, it.number, it.sentence), ("cycle", None, 0, "file: cycle 0 Timer"))
        with self.assertRaises(Refused) as caught:
            Member.open(" " * 1_048_577, members=3, me=0)
        self.assertEqual((caught.exception.cause, caught.exception.sentence), ("too large", "file: too large"))

    def test_no_member(self):
        for members, me in ((0, 0), (33, 0), (3, 3), (3, -1), (259, 0)):
            with self.assertRaises(NoMember):
                Member.open(ORDER, members=members, me=me)

    def test_refused_inputs_change_nothing(self):
        with Member.open(ORDER, members=2, me=0) as one, Member.open(ORDER, members=2, me=0) as same:
            with self.assertRaises(TooBig):
                one.cast(bytes(8193))
            for datagram, cause in ((b"", "short"), (bytes(18), "short"), (bytes(19), "form"), (b"\xe5" + bytes(18), "group"), (b"\xe5" + bytes(3) + b"\1" + bytes(14), "stamp")):
                with self.assertRaises(Stray) as caught:
                    one.receive(datagram)
                self.assertEqual(caught.exception.cause, cause)
            self.assertEqual(one.cast(bytes(8192)), same.cast(bytes(8192)))
            self.assertEqual(one.common, same.common)

    def test_closed(self):
        member = Member.open(ORDER, members=1, me=0)
        member.close()
        member.close()
        for call, given in ((member.cast, (b"",)), (member.send, (0, b"")), (member.leave, ()), (member.tick, (0,)), (member.receive, (b"",))):
            self.assertRaises(Closed, call, *given)

    def test_it_stays_on_its_thread(self):
        with Member.open(ORDER, members=1, me=0) as member:
            caught = []

            def call():
                try:
                    member.tick(0)
                except RuntimeError as error:
                    caught.append(error)

            thread = threading.Thread(target=call)
            thread.start()
            thread.join()
            self.assertEqual(len(caught), 1)


class OfGroups(unittest.TestCase):
    def test_one_order(self):
        members = [Member.open(ORDER, members=3, me=me, bypass=me != 1) for me in range(3)]
        net = Net(members)
        for turn in range(20):
            for member in members:
                net.do(member.me, member.cast, b"%d of %d" % (turn, member.me))
                net.do(member.me, member.tick, turn * 100)
            net.run()
        for moment in range(2000, 6000, 100):
            for member in members:
                net.do(member.me, member.tick, moment)
            net.run()
        casts = [[output for output in net.told[me] if isinstance(output, Cast)] for me in range(3)]
        self.assertEqual(len(casts[0]), 60)
        self.assertEqual(casts[0], casts[1])
        self.assertEqual(casts[0], casts[2])

    def test_a_view_without_the_silent(self):
        members = [Member.open(VIEWS, members=3, me=me) for me in range(3)]
        net = Net(members)
        for moment in range(0, 2000, 50):
            for member in members[:2]:
                net.do(member.me, member.tick, moment)
            net.under_way = [(to, datagram) for to, datagram in net.under_way if to != 2]
            net.run()
        self.assertEqual(members[0].view, View(1, 3))
        self.assertEqual((members[1].view.ids, members[1].view.rank(1)), ([0, 1], 1))
        self.assertEqual(members[2].view, View(0, 7))

    def test_who_leaves_alone_is_out(self):
        with Member.open(VIEWS, members=1, me=0) as member:
            told = member.leave()
            for moment in range(0, 1000, 100):
                if member.view:
                    told += member.tick(moment)
            if member.view is None:
                self.assertEqual(told[-1], Out())
                self.assertRaises(Gone, member.cast, b"")


class OfLogs(unittest.TestCase):
    def setUp(self):
        self.folder = tempfile.TemporaryDirectory(prefix="juqhanep-")
        self.addCleanup(self.folder.cleanup)
        self.layers = os.path.join(self.folder.name, "a.layers")
        with open(self.layers, "w", encoding="ascii") as file:
            file.write(VIEWS)

    def logged(self, seed, lose):
        """The names of the logs of a group's members, after a random run."""
        names = [os.path.join(self.folder.name, str(me)) for me in range(3)]
        members = [log.open(name, VIEWS, members=3, me=me, group=7, stamp=seed, bypass=me != 2) for me, name in enumerate(names)]
        Net(members, seed, lose).play(300)
        for member in members:
            member.close()
        return names

    def judged(self, name, mode="bypass"):
        """A log beside its replay by the program."""
        return log.judge(self.layers, name, lambda layers, script: log.replay(os.environ["STACKC"], layers, script, mode))

    @unittest.skipUnless("STACKC" in os.environ, "no program")
    def test_the_replay_is_the_log(self):
        for seed, lose in ((1, 0.0), (2, 0.1), (3, 0.3)):
            for me, name in enumerate(self.logged(seed, lose)):
                verdict = self.judged(name, "layered" if me == 2 else "bypass")
                self.assertTrue(verdict.agrees, f"{name}, seed {seed}: {verdict}")
                self.assertGreater(verdict.calls, 100)

    @unittest.skipUnless("STACKC" in os.environ, "no program")
    def test_a_change_is_found(self):
        name = self.logged(4, 0.1)[0]
        with open(f"{name}.report", encoding="ascii") as file:
            lines = file.read().split("\n")
        at = next(k for k, line in enumerate(lines) if line.startswith("wire "))
        for changed in ([lines[at][:-1] + ("0" if lines[at][-1] != "0" else "1")], []):
            with open(f"{name}.report", "w", encoding="ascii") as file:
                file.write("\n".join(lines[:at] + changed + lines[at + 1 :]))
            verdict = self.judged(name)
            self.assertEqual((verdict.agrees, verdict.line), (False, at + 1))

    @unittest.skipUnless("STACKC" in os.environ, "no program")
    def test_a_log_that_was_cut_off(self):
        name = self.logged(5, 0.1)[0]
        with open(f"{name}.report", encoding="ascii") as file:
            text = file.read()
        with open(f"{name}.report", "w", encoding="ascii") as file:
            file.write(text[: len(text) // 2])
        self.assertTrue(self.judged(name).agrees)


class OverUdp(unittest.TestCase):
    def test_casts_arrive(self):
        addresses = free_ports(2)
        with Member.open(ORDER, members=2, me=0) as one, Member.open(ORDER, members=2, me=1) as two:
            with udp.Group(one, addresses) as here, udp.Group(two, addresses) as there:
                here.cast(b"hi")
                here.send(1, b"you")
                told = []
                for _ in range(100):
                    told += there.wait(0.05) + here.wait(0.0)
                    if Cast(0, b"hi") in told and Send(0, b"you") in told:
                        break
                self.assertIn(Cast(0, b"hi"), told)
                self.assertIn(Send(0, b"you"), told)
                here.socket.sendto(b"nothing", addresses[1])
                there.wait(0.05)
                self.assertEqual(there.strays["short"], 1)

    def test_casts_arrive_by_asyncio(self):
        async def both():
            addresses = free_ports(2)
            with Member.open(ORDER, members=2, me=0) as one, Member.open(ORDER, members=2, me=1) as two:
                async with udp.AsyncGroup(one, addresses) as here, udp.AsyncGroup(two, addresses) as there:
                    await here.cast(b"hi")
                    await there.cast(b"ho")
                    return [{output.body for output in [await anext(group), await anext(group)]} for group in (here, there)]

        self.assertEqual(asyncio.run(asyncio.wait_for(both(), 20)), [{b"hi", b"ho"}] * 2)


if __name__ == "__main__":
    unittest.main()
