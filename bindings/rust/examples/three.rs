//! Three members in one process; the network is a queue.
use std::collections::VecDeque;

use juqhanep::{Group, Member, Output};

fn main() -> Result<(), Box<dyn std::error::Error>> {
    let layers = b"stack { bottom; mnak; local; total; }";
    let mut members = (0..3).map(|me| Member::open(layers, Group::of(3), me)).collect::<Result<Vec<_>, _>>()?;
    let mut network = VecDeque::new();
    let mut take = |me: usize, outputs: Vec<Output>, network: &mut VecDeque<(usize, Vec<u8>)>| {
        for output in outputs {
            match output {
                Output::Datagram { to, bytes, .. } => network.extend((0..3).filter(|id| to >> id & 1 == 1).map(|id| (id, bytes.clone()))),
                Output::Cast { peer, body } => println!("member {me}: a cast of {peer}: {}", String::from_utf8_lossy(&body)),
                other => println!("member {me}: {other:?}"),
            }
        }
    };
    for (me, body) in [(1, "yo"), (0, "hi")] {
        take(me, members[me].cast(body.as_bytes())?.collect(), &mut network);
    }
    while let Some((me, bytes)) = network.pop_front() {
        take(me, members[me].receive(&bytes)?.collect(), &mut network);
    }
    println!("{}", Member::open(b"stack { nolayer; }", Group::of(3), 0).err().map_or(String::new(), |error| error.to_string()));
    Ok(())
}
