#!/usr/bin/env python3
"""Hands a member of the program in $STACKC datagrams of both forms, whole, cut off, changed and long, and compares what it makes of each, in both modes; and
compares the form in which a cast is sent."""
from program import runs

# A layer whose casts have a constant and a variable field.
SAID = """layer said {
  header said(a, b) passes;
  down Cast(p, m) { down Cast(p, m) with said(5, me); }
  up Cast(o, m) with said(a, b) { up Cast(o, m); }
}
stack { said; }
"""
FRONT = "0000000100000002000000000000000700ff"
FULL = bytes.fromhex("e5" + FRONT + "01" + "00000005" + "00000009") + b"hi"
SHORT = bytes.fromhex("e6" + FRONT + "00" + "00000009") + b"hi"
# Places at which a byte is put into the short form, and what is made of it: of two causes the first.
CHANGES = [
    ((0, 4), 9, "refused 1 form"),
    ((4, 8), 9, "refused 1 group"),
    ((8, 16), 9, "refused 1 stamp"),
    ((16, 17), 3, "refused 1 view"),
    ((17, 18), 4, "refused 1 sender"),
    ((18, 19), 2, "refused 1 dest"),
    ((18, 19), 1, "deliver 1 send 0 000000096869"),
    *(((19,), plan, "refused 1 plan") for plan in range(1, 256)),
]
# A layer of one number below one whose header closes the chain; nothing is told of a cast that is taken.
CLOSING = "layer low { header said(a) passes; } layer high { header last() ends; } stack { low; high; }\n"
CAST = bytes.fromhex("e5" + FRONT + "01" + "00000009" + "01") + b"hi"
LIBRARY = "stack { bottom; mnak; local; total; }\n"
ORDERED = bytes.fromhex("e5" + FRONT + "0100000001" + "0100000000" + "00" + "010000000000000000") + b"a"
ORDERED_SHORT = bytes.fromhex("e6" + FRONT + "00" + "000000000000000000000000") + b"a"


def delivered(body):
    return f"deliver 1 cast 0 {body.hex() or '-'}"


def prefixes(whole, causes, is_told=True):
    """Each beginning of a datagram with what is made of it: the cause up to a length, and what is delivered beyond, if that is told."""
    for length in range(len(whole) + 1):
        cause = next((f"refused 1 {cause}" for end, cause in causes if length < end), None)
        yield whole[:length], cause or (delivered(whole[causes[-1][0]:length]) if is_told else None)


def changed(places, byte):
    return bytes(byte if place in places else own for place, own in enumerate(SHORT))


# The same layer, which keeps the second field of what it takes; casts whose first field is the plan's constant, the second of which is a member's own, and a cast
# with another one, which fits no plan.
KEEPS = SAID.replace("  header", "  state int kept;\n  header").replace("{ up Cast(o, m); }", "{ set kept = b; up Cast(o, m); }")
OTHER = bytes.fromhex("e5" + FRONT + "01" + "00000006" + "00000007") + b"hi"
OWN = FRONT[:32] + "02ff"
WIRES = {"layered": f"e5{OWN}0100000005000000026869", "bypass": f"e6{OWN}00000000026869"}
VISITS = {"layered": (2, 2), "bypass": (0, 1)}

CASES = [
    ("the full form", SAID, prefixes(FULL, [(19, "short"), (28, "chain")])),
    ("the short form", SAID, prefixes(SHORT, [(19, "short"), (20, "plan"), (24, "chain")])),
    ("a changed short form", SAID, ((changed(places, byte), made) for places, byte, made in CHANGES)),
    ("a chain that is closed", CLOSING, prefixes(CAST, [(19, "short"), (25, "chain")], is_told=False)),
    ("an undeclared header", CLOSING, [(CAST[:19] + b"\2" + CAST[20:], "refused 1 chain"), (b"\xe6" + CAST[1:], "refused 1 plan")]),
    ("long bodies", SAID, [(FULL + bytes(8190), delivered(b"hi" + bytes(8190))), (FULL + bytes(8191), "refused 1 body"), (FULL + bytes(65_477), "refused 1 body")]),
    ("four layers in full", LIBRARY, [(ORDERED, delivered(b"a"))]),
    ("four layers short", LIBRARY, [(ORDERED_SHORT, delivered(b"a"))]),
]


def forms(made, mode):
    """A cast as it is sent, and the field that is kept of each form; only what fits no plan is a step that visits a layer where members run by bypasses."""
    for data, kept in ((FULL, 9), (SHORT, 9), (OTHER, 7)):
        made.put("a.script", f"group 1 stamp 2 members 3\ncast 2 6869\nraw 1 {data.hex()}\nstate 1\n")
        visits = VISITS[mode][data == OTHER]
        lines = ["packet 1 2 all said.said(5,2) 6869", f"wire 1 {WIRES[mode]}", delivered(b"hi"), "state 1 0 7", f"cell 1 0 said.kept {kept}", "end 3", f"visits {visits}"]
        made.compare(f"a cast, and {data.hex()}, {mode}", made.run(["replay", "a.layers", "a.script", "--run", mode, "--wire", "--count"]), (0, "".join(f"{line}\n" for line in lines), ""))


def main():
    with runs("datagrams") as made:
        made.put("a.layers", KEEPS)
        for mode in WIRES:
            forms(made, mode)
        for what, layers, datagrams in CASES:
            given, wanted = zip(*datagrams)
            made.put("a.layers", layers)
            made.put("a.script", "group 1 stamp 2 members 3\n" + "".join(f"raw 1 {data.hex() or '-'}\n" for data in given))
            for mode in ("layered", "bypass"):
                status, out, said = made.run(["replay", "a.layers", "a.script", "--run", mode])
                made.compare(f"{what}, {mode}", (status, out.splitlines(), said), (0, [*filter(None, wanted), f"end {len(given)}"], ""))


if __name__ == "__main__":
    main()
