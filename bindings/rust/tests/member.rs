//! A group in one process, and what is refused.
use juqhanep::{Group, Lent, Member, OpenError, Output, Refusal, Stray};

const LAYERS: &[u8] = b"stack { bottom; mnak; local; total; }";

#[test]
fn a_cast_arrives() {
    let mut ends: Vec<Member> = (0..2).map(|me| Member::open(LAYERS, Group::of(2), me).unwrap()).collect();
    let outputs: Vec<Output> = ends[0].cast(b"hi").unwrap().collect();
    assert!(outputs.contains(&Output::Cast { peer: 0, body: b"hi".to_vec() }));
    let datagrams = outputs.iter().filter_map(|output| match output {
        Output::Datagram { to: 2, bytes, .. } => Some(bytes.clone()),
        _ => None,
    });
    let mut delivered = Vec::new();
    for bytes in datagrams {
        let mut outputs = ends[1].receive(&bytes).unwrap();
        while let Some(lent) = outputs.next_lent() {
            if let Lent::Cast { peer, body } = lent {
                delivered.push((peer, body.to_vec()));
            }
        }
    }
    assert_eq!(delivered, [(0, b"hi".to_vec())]);
}

#[test]
fn what_is_refused() {
    let refused = Member::open(b"stack { bottom; nolayer; }", Group::of(2), 0).err();
    assert!(matches!(refused, Some(OpenError::Refused { cause: 4, a: 1, b: 17, ref sentence }) if sentence == "file: unknown 1:17"), "{refused:?}");
    assert_eq!(Member::open(LAYERS, Group::of(2), 2).err(), Some(OpenError::NoMember));
    assert_eq!(Member::open(LAYERS, Group::of(0), 0).err(), Some(OpenError::NoMember));
    let mut member = Member::open(LAYERS, Group::of(2), 0).unwrap();
    assert_eq!(member.cast(&[0; 8193]).err(), Some(Refusal::TooBig));
    assert_eq!(member.receive(b"").err(), Some(Refusal::Stray(Stray::Short)));
    assert!(member.cast(b"").is_ok());
}

#[test]
fn it_says_what_it_is() {
    assert!(juqhanep::version().starts_with("juqhanep "));
}
