#!/usr/bin/env python3
"""Hands the program in $STACKC files, scripts and reports at each of their limits and beyond, and compares the causes for which it refuses them."""
from program import runs

LIBRARY = "stack { bottom; mnak; pt2pt; pt2ptw; mflow; frag; collect; stable; local; total; suspect; elect; sync; intra; top; }"
# Stack files, and why each is refused: the first cause, at its place; nothing where it is accepted.
FILES = [
    ("", "unexpected 1:1"),
    ("$", "token 1:1"),
    ("stack { }", "unexpected 1:9"),
    ("stack { a; } layer", "unexpected 1:14"),
    ("stack { a; } 012", "token 1:14"),
    ("stack { a; }", "unknown 1:9"),
    ("layer a {\n  down Cast(p, m) { set z = 1; }\n}\nstack { a; }", "unknown 2:25"),
    ("layer a { }\nstack { a(x = 1); }", "unknown 2:11"),
    ("layer a { state int k; }\nstack { a(k = 1); }", "unknown 2:11"),
    ("layer a { down Cast(p, m) { let x = (x + 1); } }\nstack { a; }", "unknown 1:38"),
    ("layer a { up Timer(t) { each i below i max 2 { } } }\nstack { a; }", "unknown 1:38"),
    ("layer a { state int k; state queue q[1] of (x: int);\n  up Timer(t) { take q (y) { set k = y; } else { set k = y; } } }\nstack { a; }", "unknown 2:58"),
    ("layer a { up Cast(o, m) with h(v) { } }\nstack { a; }", "unknown 1:30"),
    ("layer a { state int k; state queue q[1] of (x: int);\n  up Timer(t) { set k = at(q, 0).y; } }\nstack { a; }", "unknown 2:34"),
    ("layer a { up Timer(t) { if (t > 0) { let x = t; } up Timer(x); } }\nstack { a; }", "unknown 1:60"),
    ("layer a { }\nlayer a { }\nstack { a; }", "twice 2:7"),
    ("layer a { param x = 1; }\nstack { a(x = 1, x = 2); }", "twice 2:18"),
    ("layer a { state int k; header k() passes; }\nstack { a; }", "twice 1:31"),
    ("layer a { header h(x, x) passes; }\nstack { a; }", "twice 1:23"),
    ("layer a { state queue q[1] of (x: int, x: msg); }\nstack { a; }", "twice 1:40"),
    ("layer a { up Cast(o, m) { }\n  down Cast(o, m) { }\n  up Cast(p, w) { } }\nstack { a; }", "twice 3:3"),
    ("layer a { state int k; up Timer(t) { let k = t; } }\nstack { a; }", "twice 1:42"),
    ("layer a { state queue q[1] of (x: int, y: int); up Timer(t) { take q (z, z) { } else { } } }\nstack { a; }", "twice 1:74"),
    ("layer a { state queue q[0] of (x: int); }\nstack { a; }", "limit 1:25"),
    ("layer a { state queue q[65] of (x: int); }\nstack { a; }", "limit 1:25"),
    ("layer a { up Timer(t) { each i below t max 33 { } } }\nstack { a; }", "limit 1:44"),
    ("layer a { param keep = 64; state queue q[keep] of (x: int); }\nstack { a; a(keep = 65); }", "limit 2:12"),
    ("layer a { param keep = 0; state queue q[keep] of (x: int); }\nstack { a(keep = 1); a; }", "limit 2:22"),
    ("layer a { state queue q[1] of (m: msg, x: int); }\nstack { a; }", "limit 1:32"),
    ("layer a { state queue q[1] of (a: int, b: int, c: int, d: int, e: int, f: int); }\nstack { a; }", "limit 1:64"),
    ("layer a { header h(a, b, c, d, e) passes; }\nstack { a; }", "limit 1:32"),
    ("stack { mnak(keep = 65); }", "limit 1:9"),
    ("layer a { state queue q[1] of (x: int); up Timer(t) { set q = 1; } }\nstack { a; }", "kind 1:55"),
    ("layer a { state int k; down Cast(p, m) { set k = m; } }\nstack { a; }", "kind 1:50"),
    ("layer a { down Cast(p, m) { down Cast(m, m); } }\nstack { a; }", "kind 1:39"),
    ("layer a { down Cast(p, m) { down Cast(p, p); } }\nstack { a; }", "kind 1:42"),
    ("layer a { state int k[n]; up Timer(t) { up Timer(k); } }\nstack { a; }", "kind 1:50"),
    ("layer a { state int k; state queue q[k] of (x: int); }\nstack { a; }", "kind 1:24"),
    ("layer a { state int k; up Timer(t) { set k = len(k); } }\nstack { a; }", "kind 1:46"),
    ("layer a { header h() ends; up Cast(o, m) with h() { up Cast(o, tail(m, 1)); } }\nstack { a; }", "kind 1:64"),
    ("layer a { down Cast(p, m) { down Cast(p, join(m, m)); } }\nstack { a; }", "kind 1:47"),
    ("layer a { down Cast(p, m) { down Cast(p); } }\nstack { a; }", "arity 1:29"),
    ("layer a { down Cast(p) { } }\nstack { a; }", "arity 1:11"),
    ("layer a { header h(x) passes; down Cast(p, m) { down Cast(p, m) with h(); } }\nstack { a; }", "arity 1:49"),
    ("layer a { header h() passes; up Cast(o, m) with h(x) { } }\nstack { a; }", "arity 1:30"),
    ("layer a { state queue q[1] of (x: int); up Timer(t) { push q (t, t) else { } } }\nstack { a; }", "arity 1:55"),
    ("layer a { header h() passes; up Cast(o, m) { up Cast(o, m) with h(); } }\nstack { a; }", "direction 1:46"),
    ("layer a { header h() passes; down Cast(p, m) with h() { } }\nstack { a; }", "direction 1:30"),
    ("layer a {\n  header h() ends;\n  down Cast(p, m) { down Cast(p, m) with h(); }\n}\nstack { a; }", "header 3:21"),
    ("layer a { down Cast(p, m) { down Cast(p, nothing); } }\nstack { a; }", "header 1:29"),
    ("layer a { up Cast(o, m) { up Cast(o, cut(m, 0, 1)); } }\nstack { a; }", "header 1:27"),
    ("layer a { state int k; state int l = (k + 1); }\nstack { a; }", "initial 1:38"),
    ("layer a { down Cast(p, m) { down Cast(p); set z = 1; } }\nstack { a; }", "unknown 1:47"),
    ("layer a { state int k; state int k; up Timer(t) { set z = 1; } }\nstack { b; }", "twice 1:34"),
    ("layer a { down Cast(p, m) { up Cast(p, join(p, m)); down Cast(p); } }\nstack { a; }", "kind 1:45"),
    ("layer a { header h(x) passes; up Cast(o, m) { up Cast(o, m) with h(); } }\nstack { a; }", "arity 1:47"),
    ("layer echo { down Cast(p, m) { up Cast(p, m); } up Cast(o, m) { down Cast(o, m); } } stack { echo; echo; }", "cycle 0 Cast"),
    ("layer fan { up Cast(o, m) { each i below 16 max 16 { up Cast(o, m); } } } stack { fan; fan; fan; fan; }", "too many 69905"),
    ("layer much { state int k; down Cast(p, m) { each i below 32 max 32 { each j below 32 max 32 { set k = size(join(nothing, m)); } }\n  set k = size(join(nothing, m)); } } stack { much; }", "joins"),
    ("layer a23456789b123456789c123456789d12 { } stack { a23456789b123456789c123456789d12; }", ""),
    ("layer a23456789b123456789c123456789d123 { } stack { a; }", "token 1:7"),
    ("layer a { param x = 4294967295; } stack { a; }", ""),
    ("layer a { param x = 4294967296; } stack { a; }", "token 1:21"),
    ("layer a { # ? }\n param x = 12a; }\nstack{a;}", "token 2:14"),
    ("layer a { # ? }\n param x = 12; }\nstack{a;}", ""),
    ("layer a { }\nstack { a; } ?", "token 2:14"),
    ("layer a { state int k; down Cast(p, m) { each i below 32 max 32 { each j below 32 max 32 { set k = size(join(nothing, m)); } } } } stack { a; }", ""),
    ("layer f { up Cast(o, m) { each i below 16 max 16 { up Cast(o, m); } } } layer g { up Cast(o, m) { each i below 15 max 15 { up Cast(o, m); } } } stack { g; f; f; f; }", ""),
    ("layer f { up Cast(o, m) { each i below 16 max 16 { up Cast(o, m); } } } layer g { up Cast(o, m) { each i below 15 max 15 { up Cast(o, m); } } } stack { f; g; f; f; }", "too many 65537"),
]
# The parts of a text (its first line, what stands before and after two digits in each of its lines, its last one), the most lines that it may have, and the
# column of the first that is too many.
COUNTS = [
    ("", "layer a", " { }", "stack { a00; }", 64, 7),
    ("layer a {", "param p", " = 1;", "} stack { a; }", 16, 7),
    ("layer a {", "state int c", ";", "} stack { a; }", 16, 11),
    ("layer a {", "header h", "() ends;", "} stack { a; }", 7, 8),
    ("layer a { header h(x", ", x", "", ") ends; } stack { a; }", 3, 3),
    ("layer a { state queue q[64] of (x: int", ", x", ": int", ", m: msg); } stack { a; }", 3, 3),
    ("layer a { up Timer(t) {", "let x", " = t;", "} } stack { a; }", 63, 5),
    ("layer a00 { } stack {", "a00;  #", "", "}", 24, 1),
]
COUNTER = """layer cnt {
  state int k;
  state int e[n];
  header num(seq) passes;
  down Cast(p, m) { down Cast(p, m) with num(k); set k = (k + 1); }
  up Cast(o, m) with num(seq) common (seq == e[o]) { set e[o] = (seq + 1); up Cast(o, m); }
}
stack { cnt; }
"""
# A layer that keeps 320 rows with messages for each member: too many for 26 members.
ROWS = f"layer all {{ {' '.join(f'state queue {name}[n][64] of (m: msg);' for name in 'abcde')} }} stack {{ all; }}\n"
GROUP = "group 1 stamp 7 members 3\n"
MOST_BYTES = 4_194_304
LARGEST_REPORT = 67_108_864
# A stack file, a script over it, and why the script is refused.
SCRIPTS = [
    (ROWS, "group 1 stamp 7 members 25\n", ""),
    (ROWS, "group 1 stamp 7 members 26\n", "rows"),
    (ROWS, "group 1 stamp 1 members 32\n", "rows"),
    (COUNTER, "", "line 1"),
    (COUNTER, GROUP + "cast 0 6\n", "line 2"),
    (COUNTER, GROUP + "cast 0 -\n\nfall 0\n", "line 4"),
    (COUNTER, GROUP + "cast 3 61\n", "member 2"),
    (COUNTER, "\n" * 100_001, "too long"),
    (COUNTER, "\n" * 4_194_305, "too long"),
]
# Line feeds of a script, bytes of a comment after them, and whether it is short enough.
LENGTHS = [
    (100_000, 0, True),
    (100_001, 0, False),
    (99_999, 1, True),
    (100_000, 1, False),
    (1, MOST_BYTES - len(GROUP), True),
    (1, MOST_BYTES - len(GROUP) + 1, False),
]
# Texts that are no reports, and the first line that isn't one of a report.
REPORTS = [("", 1), ("end 0\nend 0\n", 2), ("out 32\nend 0\n", 1), ("timer\nend 0\n\n", 3), ("state\n", 2)]


def lines(first, front, back, last, count):
    return "\n".join([first, *(f"{front}{k:02}{back}" for k in range(count)), last])


def handlers(count):
    """A layer of so many handlers, a line each, no two of which are of one event."""
    kinds = ("Timer", "Suspect", "Elect", "Block", "BlockOk", "Flushed", "View", "Leave", "Cast", "Send")
    every = [f"\nup {kind}(x) with h{header}() {{ }}" for kind in kinds for header in range(7)]
    return f"layer a {{{''.join(f' header h{header}() passes;' for header in range(7))}{''.join(every[:count])} }} stack {{ a; }}"


def all_files():
    yield from FILES
    for *parts, most, column in COUNTS:
        yield lines(*parts, most), ""
        yield lines(*parts, most + 1), f"limit {most + 2}:{column}"
    yield handlers(64), "direction 2:1"
    yield handlers(65), "limit 66:1"
    yield "stack { bottom; }".ljust(1_048_576), ""
    yield "stack { bottom; }".ljust(1_048_577), "too large"
    yield " " * 1_048_577, "too large"


def main():
    with runs("refusals") as made:
        for text, cause in all_files():
            made.put("a.layers", text)
            status, _, said = made.run(["check", "a.layers"])
            made.compare(text[:200], (status, said), (1, f"file: {cause}\n") if cause else (0, ""))
        made.put("a.layers", LIBRARY)
        made.compare("the library", made.run(["check", "a.layers"]), (0, "accepted 15\n", ""))

        made.put("a.layers", "stack { nothere; }")
        made.put("a.script", "group\n")
        for words in (["replay", "a.layers", "a.script"], ["explain", "a.layers", "a.script"]):
            made.compare(" ".join(words), made.run(words), (1, "", "file: unknown 1:9\n"))
        for file, script, cause in SCRIPTS:
            made.put("a.layers", file)
            made.put("a.script", script)
            for words in (["replay", "a.layers", "a.script", "--run", "layered"], ["explain", "a.layers", "a.script"]):
                made.compare(f"{words[0]} {script[:80]!r}", made.run(words), (3, "", f"script: {cause}\n") if cause else (0, "end 0\n", ""))
        made.put("a.layers", COUNTER)
        for line_feeds, comment, fits in LENGTHS:
            made.put("a.script", GROUP + "\n" * (line_feeds - 1) + "#" * comment)
            made.compare(f"a script of {line_feeds} line feeds", made.run(["replay", "a.layers", "a.script"]), (0, "end 0\n", "") if fits else (3, "", "script: too long\n"))
        made.put("a.script", f"{GROUP}cast 0 {'66' * 8193}\n")
        made.compare("a cast that is too big", made.run(["replay", "a.layers", "a.script", "--run", "layered"]), (0, "refused 0 big\nend 1\n", ""))

        for text, line in REPORTS:
            made.put("a.report", text)
            made.compare(f"audit {text!r}", made.run(["audit", "a.report", "--law", "total"]), (1, "", f"file: line {line}\n"))
        for size, left in ((LARGEST_REPORT, (0, "holds\n", "")), (LARGEST_REPORT + 1, (1, "", "file: too large\n"))):
            made.put("a.report", f"timer {'1' * (size - 12)}\nend 0")
            made.compare(f"a report of {size} bytes", made.run(["audit", "a.report", "--law", "total"]), left)


if __name__ == "__main__":
    main()
