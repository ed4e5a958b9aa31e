#!/usr/bin/env python3
"""Has the program in $STACKC replay a cast of 8,192 bytes, which goes out in eight packets that are given back to front, and compares the report."""
from program import runs

BODY = "61" * 1024
SCRIPT = "".join(["group 1 stamp 1 members 2\n", f"cast 0 {BODY * 8}\n", *(f"give {packet} 1\n" for packet in range(8, 0, -1))])
# The parts; what is asked for again while the first part is missing; and the whole cast.
REPORT = "".join([
    *(f"packet {k + 1} 0 all bottom.net(1)/mnak.num({k})/frag.{'last' if k == 7 else 'some'}() {BODY}\n" for k in range(8)),
    *(f"packet {16 - k} 1 0 bottom.net(1)/mnak.nak(0,{k}) -\n" for k in range(7, 0, -1)),
    f"deliver 1 cast 0 {BODY * 8}\n",
    "end 9\n",
])


def main():
    with runs("fragments") as made:
        made.put("a.layers", "stack { bottom; mnak; frag; }\n")
        made.put("a.script", SCRIPT)
        for mode in ("layered", "bypass"):
            made.compare(f"eight parts, {mode}", made.run(["replay", "a.layers", "a.script", "--run", mode]), (0, REPORT, ""))


if __name__ == "__main__":
    main()
