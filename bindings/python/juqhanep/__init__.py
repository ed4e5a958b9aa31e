"""A member of a group, in this process.

    from juqhanep import Cast, Datagram, Member

    with Member.open(layers, members=3, me=0) as member:
        for output in member.cast(b"hi"):
            match output:
                case Datagram(to, bytes): ...        # send these bytes to each member whose bit is set in `to`
                case Cast(peer, body): ...           # deliver

The member owns no socket, no clock and no thread. `juqhanep.udp` drives one over UDP; `juqhanep.log` writes what it was called with, and judges it.
"""
from juqhanep.library import version
from juqhanep.member import Member
from juqhanep.outputs import Announce, Block, Cast, Datagram, Nowhere, Out, Output, Quiet, Send, Timer, View
from juqhanep.refusals import Closed, Gone, NoMember, Refused, Stray, TooBig, TooManyRows, Unfit

__all__ = [
    "Announce", "Block", "Cast", "Closed", "Datagram", "Gone", "Member", "NoMember", "Nowhere", "Out", "Output", "Quiet", "Refused", "Send",
    "Stray", "Timer", "TooBig", "TooManyRows", "Unfit", "View", "version",
]
