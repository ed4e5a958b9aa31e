#!/usr/bin/env python3
"""Files of traces: what is accepted, what is refused and by which line, over a small layer whose traces are written out here."""
from program import runs

LAYERS = """layer tally {
  state int k;
  state int seen[n];
  header num(v) passes;
  down Cast(p, m) {
    let next = (k + 1);
    set k = next;
    down Cast(p, join(cut(m, 0, 1), m)) with num(next);
  }
  up Cast(o, m) with num(v) {
    let before = seen[o];
    if (before < v) {
      set seen[o] = (v + 1);
      let after = seen[o];
      set k = (before + after);
      up Cast(o, m);
    }
  }
}
stack { tally; }
"""
SCRIPT = "group 1 stamp 1 members 2\ncast 0 61\ngive 1 1\ncast 1 62\ngive 2 0\nsend 0 1 63\ngive 3 1\nstate 0\nstate 1\n"
PACKED = """bypasses 1
entry cast case 1
bind t.0 = (0.k + 1)
set 0.k = t.0
bind t.1 = peer
bind t.2 = t.0
note m.0 = join(cut(body,0,1),body)
out down Cast(t.1,m.0) tally.num(t.2)
entry send case 1
out down Send(peer,body) tally.none()
entry plan 0 case 1
bind t.0 = 0.seen[peer]
check (t.0 < in.0)
set 0.seen[peer] = (in.0 + 1)
bind t.1 = 0.seen[peer]
set 0.k = (t.0 + t.1)
bind t.2 = peer
out up Cast(t.2,body)
entry plan 1 case 1
out up Send(peer,body)
end
"""
SEND = "out down Send(peer,body) tally.none()\n"
LONGEST_FILE = 33_554_432


def with_change(old, new):
    assert PACKED.count(old) == 1, old
    return PACKED.replace(old, new)


def brackets(deep):
    """A note that no operation names, of a message in n brackets."""
    return with_change(SEND, f"note m.0 = {'tail(' * deep}body{',0)' * deep}\n{SEND}")


def operations(many):
    """A case of n operations: binds that no operation names, and the one that is due."""
    return with_change(SEND, "".join(f"bind t.{k} = peer\n" for k in range(many - 1)) + SEND)


def padded(size):
    """A last line without its end, so long that the file has n bytes."""
    return PACKED + " " * (size - len(PACKED))


# A file, and what is said of it: nothing where it is accepted.
CASES = [
    ("as packed", PACKED, ""),
    ("without its last line feed", PACKED[:-1], ""),
    ("a bind written out in its place", with_change("set 0.k = t.0\n", "set 0.k = (0.k + 1)\n"), ""),
    ("a bind that isn't named", with_change(SEND, f"bind t.0 = (peer * 2)\n{SEND}"), ""),
    ("a literal one higher", with_change("(in.0 + 1)", "(in.0 + 2)"), "entry plan 0 case 1 op 1"),
    ("a check after a set", with_change("check (t.0 < in.0)\nset 0.seen[peer] = (in.0 + 1)\n", "set 0.seen[peer] = (in.0 + 1)\ncheck (t.0 < in.0)\n"), "entry plan 0 case 1 op 0"),
    ("a check left out", with_change("check (t.0 < in.0)\n", ""), "entry plan 0 case 1 op 0"),
    ("a note left out", with_change("note m.0 = join(cut(body,0,1),body)\n", ""), "line 7"),
    ("equal cells read across a write", with_change("set 0.k = (t.0 + t.1)", "set 0.k = (t.0 + t.0)"), "entry plan 0 case 1 op 2"),
    ("a cell read after a write", with_change("bind t.2 = t.0\n", "bind t.2 = (0.k + 1)\n"), "entry cast case 1 op 1"),
    ("a trace that ends early", with_change("bind t.2 = peer\nout up Cast(t.2,body)\n", ""), "entry plan 0 case 1 op 3"),
    ("a trace that goes on", with_change(SEND, SEND + SEND), "entry send case 1 op 1"),
    ("another first line", with_change("bypasses 1", "bypasses 2"), "line 1"),
    ("an entry that isn't due", with_change("entry send case 1", "entry send case 2"), "line 9"),
    ("a number that isn't bound", with_change("set 0.k = t.0\n", "set 0.k = t.1\n"), "line 4"),
    ("a leading nought", with_change("(in.0 + 1)", "(in.0 + 01)"), "line 14"),
    ("a literal that is too large", with_change("(in.0 + 1)", "(in.0 + 4294967296)"), "line 14"),
    ("brackets 200 deep", brackets(200), ""),
    ("brackets 201 deep", brackets(201), "line 10"),
    ("4,096 operations", operations(4096), ""),
    ("4,097 operations", operations(4097), f"line {9 + 4097}"),
    ("a line after the end", PACKED + "end\n", "line 22"),
    ("no bytes", "", "line 1"),
    ("as long as may be", padded(LONGEST_FILE), "line 22"),
    ("longer than may be", padded(LONGEST_FILE + 1), "too large"),
]
WORDS = [
    (["replay", "tally.layers", "one.script", "--with", "good.bypasses", "--run", "layered"], 2, "words: refused\n"),
    (["check", "tally.layers", "--with", "good.bypasses"], 2, "words: refused\n"),
    (["replay", "tally.layers", "one.script", "--with", "none.bypasses"], 4, "read fault\n"),
    (["replay", "tally.layers", "bad.script", "--with", "none.bypasses"], 3, "script: line 1\n"),
    (["replay", "bad.layers", "one.script", "--with", "none.bypasses"], 1, "file: unexpected 1:1\n"),
]


def cut_off(at):
    """What is said of the packed file's first bytes: the line in which it is cut is none, or the one after it is missing."""
    text = PACKED[:at]
    if at >= len(PACKED) - 1:
        return ""
    whole = text.count("\n")
    rest = text[text.rfind("\n") + 1:]
    return f"line {whole + 1 + (rest in PACKED.splitlines() or rest in FRONTS)}"


# Fronts of its lines that are lines themselves.
FRONTS = {"out down Cast(t.1,m.0)", "out down Send(peer,body)", "bind t.0 = 0", "bind t.1 = 0"}


def main():
    with runs("packs") as made:
        for name, text in (("tally.layers", LAYERS), ("one.script", SCRIPT), ("bad.script", "cast\n"), ("bad.layers", "x"), ("good.bypasses", PACKED)):
            made.put(name, text)
        made.compare("what pack writes", made.run(["pack", "tally.layers"]), (0, PACKED, ""))
        _, report, _ = made.run(["replay", "tally.layers", "one.script", "--count", "--wire"])

        def with_traces(what, text, said):
            made.put("traces.bypasses", text)
            wanted = (9, "", f"bypass: {said}\n") if said else (0, report, "")
            made.compare(what, made.run(["replay", "tally.layers", "one.script", "--with", "traces.bypasses", "--count", "--wire"]), wanted)

        for case in CASES:
            with_traces(*case)
        for at in range(len(PACKED)):
            with_traces(f"cut off at byte {at}", PACKED[:at], cut_off(at))
        for words, status, said in WORDS:
            made.compare(" ".join(words), made.run(words), (status, "", said))


if __name__ == "__main__":
    main()
