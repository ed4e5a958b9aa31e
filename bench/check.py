#!/usr/bin/env python3
"""Times `stackc check` on large files, good and bad, and on files at their limits.

Run it from any folder: bench/check.py [BYTES]. It builds the program by ./stackc where that is needed, and prints for each kind of
file what the program answers and its processor time, for half as many bytes and for all of them: the least of three runs. For all
library layers, and for files of 20,000 and 40,000 bytes of ordinary layers, it prints the instructions too, where there is valgrind.
"""
import os
import re
import resource
import shutil
import subprocess
import sys
import tempfile

TOP = os.path.dirname(os.path.dirname(os.path.abspath(__file__)))
LIBRARY = "bottom mnak pt2pt pt2ptw mflow frag collect stable local total suspect elect sync intra top".split()

HANDLER = """  up Cast(o, m) with h{}(seq) common (seq == next[o]) {{
    if (seq == next[o]) {{
      set next[o] = (seq + 1);
      up Cast(o, m);
    }} else {{
      push early[o] (seq, m) else {{ set lost = (lost + 1); }}
      each i below len(early[o]) max 16 {{ if (at(early[o], i).seq > lost) {{ set lost = at(early[o], i).seq; }} }}
    }}
  }}
"""


def layer(number, padding):
    """A layer of the usual kinds of statements, with a last handler of as many more bytes as are wished."""
    text = f"layer l{number} {{\n  param keep = 8;\n  state int lost;\n  state int next[n];\n"
    text += "  state queue early[n][keep] of (seq: int, m: msg);\n"
    text += "".join(f"  header h{i}(seq) passes;\n" for i in range(7))
    text += "".join(HANDLER.format(i) for i in range(7))
    step = "    set lost = ((lost + t) & 255); if (lost > 7) { up Timer(lost); }\n"
    return text + "  up Timer(t) {\n" + step * (padding // len(step)) + "  }\n}\n"


def ordinary(size):
    base = len(layer(0, 0))
    count = min(64, max(1, size // (2 * base)))
    tail = "stack { l0; }\n"
    return "".join(layer(i, size // count - base - 80) for i in range(count)) + tail


def filled(front, piece, back):
    return lambda size: front + piece * ((size - len(front) - len(back)) // len(piece)) + back


def numbered(front, piece, back, width):
    return lambda size: front + "".join(piece.format(i) for i in range((size - len(front) - len(back)) // width)) + back


KINDS = {
    "ordinary layers": ordinary,
    "open parentheses": filled("layer a { up Timer(t) { let x = ", "(", ""),
    "a long expression's worth of statements": filled("layer a { state int k; up Timer(t) {", "set k = ((k+t)*(k-t));", "} } stack { a; }"),
    "locals of one block": numbered("layer a { up Timer(t) {", "let x{:06} = t;", "} } stack { a; }", 16),
    "locals of one block, used": numbered("layer a { up Timer(t) { let x000000 = t;", "let y{0:06} = x000000;", "} } stack { a; }", 22),
    "handlers of one layer": filled("layer a {", "up Timer(t) { } ", "} stack { a; }"),
    "declarations of one layer": numbered("layer a {", "state int k{:06};", "} stack { a; }", 18),
    "declarations of one layer, one name": filled("layer a {", "state int k;", "} stack { a; }"),
    "layers": numbered("", "layer a{:06} {{}}", "stack { a000000; }", 16),
    "places": filled("layer a { param keep = 1; state queue q[keep] of (x: int); } stack { ", "a;", "}"),
    "places of a large layer": lambda size: layer(0, size // 2) + "stack { " + "l0;" * (size // 6) + "}",
    "places of a library layer": filled("stack { ", "mnak;", "}"),
    "a row of items": numbered("layer a { state queue q[1] of (x: int", ", y{:06}: int", "); } stack { a; }", 14),
    "a header of fields": numbered("layer a { header h(x", ", y{:06}", ") passes; } stack { a; }", 9),
    "arguments": filled("layer a { up Timer(t) { up Timer(t", ", t", "); } } stack { a; }"),
    "params of a place": numbered("layer a { } stack { a(x = 1", ", y{:06} = 1", "); }", 13),
}


def limits():
    """24 places of layers with 64 handlers each, every one of which sends much."""
    text = ""
    for number in range(24):
        text += f"layer w{number} {{\n" + "".join(f"  header h{i}(v) passes;\n" for i in range(7))
        for kind in ("Cast", "Send"):
            for i in range(7):
                text += f"  up {kind}(o, m) with h{i}(v) {{ up {kind}(o, m); }}\n"
            text += f"  down {kind}(p, m) {{ down {kind}(p, m) with h{number % 7}(p); }}\n"
        text += "}\n"
    return text + "stack { " + " ".join(f"w{number};" for number in range(24)) + " }\n"


def written(text, folder):
    path = os.path.join(folder, "timed.layers")
    with open(path, "w", encoding="ascii") as file:
        file.write(text)
    return [f"{TOP}/crates/stackc/out/stackc", "check", path]


def timed(text, folder):
    """What the program says of a text, and its processor time in seconds, the least of three runs."""
    words = written(text, folder)
    times = []
    for _ in range(3):
        before = resource.getrusage(resource.RUSAGE_CHILDREN)
        ran = subprocess.run(words, stdout=subprocess.PIPE, stderr=subprocess.PIPE, check=False)
        after = resource.getrusage(resource.RUSAGE_CHILDREN)
        times.append(after.ru_utime + after.ru_stime - before.ru_utime - before.ru_stime)
    return (ran.stdout + ran.stderr).decode().strip(), min(times)


def counted(text, folder):
    """How many instructions the program takes for a text, from its start to its end, if valgrind can tell."""
    if not shutil.which("valgrind"):
        return "not counted"
    counting = ["valgrind", "--tool=callgrind", f"--callgrind-out-file={folder}/counted"]
    ran = subprocess.run(counting + written(text, folder), stdout=subprocess.DEVNULL, stderr=subprocess.PIPE, check=False)
    found = re.search(r"refs:\s*([\d,]+)", ran.stderr.decode())
    return f"{found.group(1)} instructions" if found else "not counted"


def main():
    most = int(sys.argv[1]) if len(sys.argv) > 1 else 1_000_000
    subprocess.run([f"{TOP}/stackc"], stderr=subprocess.DEVNULL, check=False)
    with tempfile.TemporaryDirectory() as folder:
        library = "stack { " + "; ".join(LIBRARY) + "; }\n"
        print("all library layers: %s, %.3f s" % timed(library, folder) + ", " + counted(library, folder))
        for size in (20_000, 40_000):
            text = ordinary(size)
            print(f"ordinary layers, {len(text)} bytes: " + counted(text, folder))
        print("24 places: %s, %.3f s" % timed(limits(), folder))
        for name, make in KINDS.items():
            for size in (most // 2, most):
                text = make(size)
                print(f"{name}, {len(text)} bytes: " + "%s, %.3f s" % timed(text, folder))


main()
