"""Bypasses that are worked out by hand: layer files, each with lines that its text has, one after another."""

COUNTER = """layer cnt {
  state int k;
  state int e[n];
  header num(seq) passes;
  down Cast(p, m) { down Cast(p, m) with num(k); set k = (k + 1); }
  up Cast(o, m) with num(seq) common (seq == e[o]) { set e[o] = (seq + 1); up Cast(o, m); }
}
stack { cnt; }
"""
COUNTER_TEXT = """entry cast fused
do bind t.0 = peer
do bind t.1 = 0.k
do set 0.k = (0.k + 1)
do out down Cast(t.0,body) cnt.num(t.1)
entry send fused
do out down Send(peer,body) cnt.none()
plan 0 cast cnt.num(?)
entry plan 0 fused
when (in.0 == 0.e[peer])
do set 0.e[peer] = (in.0 + 1)
do bind t.0 = peer
do out up Cast(t.0,body)
plan 1 send cnt.none()
entry plan 1 fused
do out up Send(peer,body)
end 4 fused 0 absent
"""
REPEATER = """layer rep { down Cast(p, m) { each i below 2 max 2 { down Cast(p, m); } } down Send(p, m) { each i below 1 max 1 { down Send(p, m); } } }
stack { rep; }
"""
REPEATER_TEXT = """entry cast absent loop 0
entry send absent loop 0
end 0 fused 2 absent
"""
LITERAL = """layer lit { header h(v) passes; down Cast(p, m) { down Cast(p, m) with h((2 + 3)); }
  up Cast(o, m) with h(v) common %s { if (v == 5) { up Cast(o, m); } } }
stack { lit; }
"""
LITERAL_TEXT = """entry cast fused
do bind t.0 = peer
do bind t.1 = 5
do out down Cast(t.0,body) lit.h(t.1)
entry send fused
do out down Send(peer,body) lit.none()
plan 0 cast lit.h(5)
entry plan 0 fused
%sdo bind t.0 = peer
do out up Cast(t.0,body)
plan 1 send lit.none()
entry plan 1 fused
do out up Send(peer,body)
end 4 fused 0 absent
"""
FLIP = """layer flip {
  state int k;
  header a(x) passes;
  header b(x) passes;
  down Cast(p, m) {
    set k = (k + 1);
    if two ((k & 1) == 1) { down Cast(p, m) with a(k); } else { down Cast(p, m) with b(k); }
  }
}
stack { flip; }
"""
FLIP_TEXT = """entry cast fused
let v.0 = (0.k + 1)
when ((v.0 & 1) == 1)
do set 0.k = (0.k + 1)
do bind t.0 = peer
do bind t.1 = 0.k
do out down Cast(t.0,body) flip.a(t.1)
entry cast second fused
let v.0 = (0.k + 1)
when (((v.0 & 1) == 1) == 0)
do set 0.k = (0.k + 1)
do bind t.0 = peer
do bind t.1 = 0.k
do out down Cast(t.0,body) flip.b(t.1)
entry send fused
do out down Send(peer,body) flip.none()
plan 0 cast flip.a(?)
entry plan 0 absent rare 0
plan 1 send flip.none()
entry plan 1 fused
do out up Send(peer,body)
plan 2 cast flip.b(?)
entry plan 2 absent rare 0
end 4 fused 2 absent
"""
KEPT = "stack { bottom; mnak; local; total; }\n"
KEPT_TEXT = """entry cast fused
let v.0 = 3.out
when (me == 0)
when (len(1.kept) < 64)
when (v.0 == 3.next)
do bind t.0 = peer
do bind t.1 = me
do bind t.2 = 3.out
do set 3.out = (3.out + 1)
do bind t.3 = t.0
do bind t.4 = me
do push 1.kept (body local.none()/total.num(t.1,t.2))
do bind t.5 = t.3
do bind t.6 = 1.out
do set 1.out = (1.out + 1)
do set 3.next = (3.next + 1)
do bind t.7 = t.1
do bind t.8 = t.5
do bind t.9 = 1
do out up Cast(t.7,body)
do out down Cast(t.8,body) bottom.net(t.9)/mnak.num(t.6)/local.none()/total.num(t.1,t.2)
"""
ALIAS = """layer alias {
  state int k = 1;
  state int e[n];
  header a() passes;
  header b() passes;
  down Cast(p, m) {
    set e[(k & 1)] = 5;
    set k = (k + 1);
    if (e[0] == 5) { down Cast(p, m) with a(); } else { down Cast(p, m) with b(); }
  }
}
stack { alias; }
"""
ALIAS_TEXT = """entry cast fused
let v.0 = pick(((0 == (0.k & 1)) and (0 < n)),5,0.e[0])
when (v.0 == 5)
do set 0.e[(0.k & 1)] = 5
do set 0.k = (0.k + 1)
do bind t.0 = peer
do out down Cast(t.0,body) alias.a()
"""
JOINER = """layer joiner {
  state queue q[4] of (x: int, p: part);
  down Cast(p, m) {
    push q (7, cut(m, 0, 2)) else { }
    take q (x, w) { down Cast(x, join(w, m)); } else { }
  }
}
stack { joiner; }
"""
JOINER_TEXT = """entry cast fused
let v.0 = (len(0.q) + 1)
when (len(0.q) < 4)
when (v.0 > 0)
do push 0.q (7,cut(body,0,2))
do take 0.q row.0
do bind t.0 = row.0.x
do out down Cast(t.0,join(row.0,body)) joiner.none()
"""
KEEPER = """layer keeper {
  state queue from[n][4] of (p: int);
  down Cast(p, m) {
    push from[p] (p) else { }
    take from[0] (x) { down Cast(x, m); } else { }
  }
}
stack { keeper; }
"""
KEEPER_TEXT = """entry cast fused
let v.0 = (len(0.from[0]) + (0 == peer))
when ((peer < n) and (len(0.from[peer]) < 4))
when (v.0 > 0)
do push 0.from[peer] (peer)
do take 0.from[0] row.0
do bind t.0 = row.0.p
do out down Cast(t.0,body) keeper.none()
"""
LEAVER = """layer leaver {
  state queue q[4] of (p: part);
  header parts() ends;
  down Cast(p, m) { down Cast(p, held(q, 0)) with parts(); take q (w) { } else { } }
}
stack { leaver; }
"""
LEAVER_TEXT = """entry cast fused
when (len(0.q) > 0)
do bind t.0 = peer
do take 0.q row.0
do out down Cast(t.0,held(0.q,0)) leaver.parts()
"""
COUNTING = """layer rows {
  state int k;
  state queue q[4] of (x: int, m: msg);
  down Cast(p, m) {
    if (len(q) == 0) {
      push q (k, m) else { }
      if (len(q) == 1) { if (at(q, 0).x == 7) { down Cast(p, m); } }
    }
  }
}
stack { rows; }
"""
COUNTING_TEXT = """entry cast fused
let v.0 = (len(0.q) + 1)
let v.1 = pick((0 < (len(0.q) + 1)),pick((0 == len(0.q)),0.k,at(0.q,0).x),0)
when (len(0.q) == 0)
when (len(0.q) < 4)
when (v.0 == 1)
when (v.1 == 7)
do push 0.q (0.k,body)
do bind t.0 = peer
do out down Cast(t.0,body) rows.none()
"""
HELD = """layer few {
  state queue q[4] of (p: part);
  down Cast(p, m) {
    if (size(held(q, 0)) < 100) {
      take q (w) { if (size(held(q, 0)) < 9) { down Cast(p, m); } } else { }
    }
  }
}
stack { few; }
"""
HELD_TEXT = """entry cast fused
let v.0 = pick((0 < (len(0.q) - 1)),size(held(0.q,1)),0)
when (size(held(0.q,0)) < 100)
when (len(0.q) > 0)
when (v.0 < 9)
do take 0.q row.0
"""
ROWS = (
    (COUNTER, COUNTER_TEXT), (REPEATER, REPEATER_TEXT), (LITERAL % "((v == 5) and (1 < 2))", LITERAL_TEXT % ""),
    (LITERAL % "(1 == 2)", LITERAL_TEXT % "when 0\n"), (FLIP, FLIP_TEXT), (KEPT, KEPT_TEXT), (ALIAS, ALIAS_TEXT), (JOINER, JOINER_TEXT),
    (KEEPER, KEEPER_TEXT), (LEAVER, LEAVER_TEXT), (COUNTING, COUNTING_TEXT), (HELD, HELD_TEXT),
)


def differences(synth):
    """Prints each of these files whose text hasn't these lines; answers 1 where there is one."""
    wrong = [(file, text, said) for file, text in ROWS for said in [synth(file.encode())] if text not in said]
    for file, text, said in wrong:
        print(f"of\n{file}\nthis was to be told:\n{text}\nbut this was:\n{said}")
    print(f"{len(ROWS)} texts, {len(wrong)} differences")
    return 1 if wrong else 0
