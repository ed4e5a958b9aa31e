//! One member of a group, in your own process: safe Rust over the library of `include/juqhanep.h`, which owns no socket, no
//! clock and no thread.
//!
//! ```no_run
//! use juqhanep::{Group, Member, Output};
//! # fn send_to(_to: u32, _bytes: &[u8]) {}
//! let layers = b"stack { bottom; mnak; local; total; }";
//! let mut member = Member::open(layers, Group::of(3), 0).unwrap();
//! for output in member.cast(b"hi").unwrap() {
//!     match output {
//!         Output::Datagram { to, bytes, .. } => send_to(to, &bytes),
//!         Output::Cast { peer, body } => println!("{peer}: {body:?}"),
//!         _ => {}
//!     }
//! }
//! ```
//!
//! What the library asks of its caller is kept here: a handle stays in its place (a `Box`), one call at a time (`&mut self`),
//! on one thread (`Member` isn't `Send`), and slices that are what they say.

mod calls;

use std::ffi::CStr;
use std::fmt;

use calls::{Event, Fault, Handle};

/// With a room of this size each output fits.
const LONGEST_DATAGRAM: usize = 8619;
const LONGEST_SENTENCE: usize = 64;

/// A group whose members have the ids 0 to `members` - 1. All are opened with the same layers, group and stamp.
#[derive(Clone, Copy, Debug, PartialEq, Eq)]
pub struct Group {
    pub group: u32,
    pub stamp: u32,
    pub members: u8,
    /// Whether the member runs by the stack's bypasses, or layer by layer.
    pub bypass: bool,
}

impl Group {
    /// A group of this many members, which run by bypasses.
    pub fn of(members: u8) -> Group {
        Group { group: 1, stamp: 1, members, bypass: true }
    }
}

/// Why a member isn't opened.
#[derive(Clone, Debug, PartialEq, Eq)]
pub enum OpenError {
    /// A group has 1 to 32 members, and this one is none of them.
    NoMember,
    /// The layer file is refused: its first fault, by the numbers of `juqhanep.h`, its line and column (of a cycle its
    /// place, of a weight the weight), and as `stackc check` says it.
    Refused { cause: u32, a: u32, b: u32, sentence: String },
    /// A member of this group might keep over 8,192 rows with messages.
    TooManyRows,
    Memory,
}

impl fmt::Display for OpenError {
    fn fmt(&self, f: &mut fmt::Formatter<'_>) -> fmt::Result {
        match self {
            OpenError::NoMember => f.write_str("the group has no such member"),
            OpenError::Refused { sentence, .. } => f.write_str(sentence),
            OpenError::TooManyRows => f.write_str("its layers may keep too many rows with messages"),
            OpenError::Memory => f.write_str("no memory"),
        }
    }
}

impl std::error::Error for OpenError {}

/// Why an input was refused; then the member is as before.
#[derive(Clone, Copy, Debug, PartialEq, Eq)]
pub enum Refusal {
    /// The member is in no view any more.
    Out,
    /// The body has over 8,192 bytes.
    TooBig,
    /// The datagram is no packet for this member.
    Stray(Stray),
}

/// Why a datagram is no packet for a member: the first of these.
#[derive(Clone, Copy, Debug, PartialEq, Eq)]
pub enum Stray {
    Short,
    Form,
    Group,
    Stamp,
    View,
    Sender,
    Dest,
    Plan,
    Chain,
    Body,
}

impl fmt::Display for Refusal {
    fn fmt(&self, f: &mut fmt::Formatter<'_>) -> fmt::Result {
        match self {
            Refusal::Out => f.write_str("the member is in no view"),
            Refusal::TooBig => f.write_str("the body is too long"),
            Refusal::Stray(cause) => write!(f, "the datagram is no packet for this member: {cause:?}"),
        }
    }
}

impl std::error::Error for Refusal {}

/// What came out of a step.
#[derive(Clone, Debug, PartialEq, Eq)]
pub enum Output {
    /// A cast of the member of this rank is to be delivered.
    Cast { peer: u32, body: Vec<u8> },
    /// A send of the member of this rank is to be delivered.
    Send { peer: u32, body: Vec<u8> },
    Block(u32),
    /// A next view is announced: the ranks of this one that will be in it, as bits.
    Announce { ranks: u32 },
    /// A tick is asked for at this moment.
    Timer(u32),
    /// These bytes are to be sent to each member whose id has its bit in `to`; they are short under a plan, or in full.
    Datagram { to: u32, plan: Option<u32>, bytes: Vec<u8> },
    /// A send had no other member to go to.
    Nowhere,
    /// An event left the stack that means nothing outside of it.
    Quiet,
    /// The member is now in the view of these ids, as bits, before which this many came.
    View { number: u32, ids: u32 },
    /// The member is in no view any more.
    Out,
}

/// The same with bytes that are lent until the next one is asked for.
#[derive(Clone, Copy, Debug, PartialEq, Eq)]
pub enum Lent<'a> {
    Cast { peer: u32, body: &'a [u8] },
    Send { peer: u32, body: &'a [u8] },
    Block(u32),
    Announce { ranks: u32 },
    Timer(u32),
    Datagram { to: u32, plan: Option<u32>, bytes: &'a [u8] },
    Nowhere,
    Quiet,
    View { number: u32, ids: u32 },
    Out,
}

impl Lent<'_> {
    /// The output with bytes of its own.
    pub fn to_output(&self) -> Output {
        match *self {
            Lent::Cast { peer, body } => Output::Cast { peer, body: body.to_vec() },
            Lent::Send { peer, body } => Output::Send { peer, body: body.to_vec() },
            Lent::Block(number) => Output::Block(number),
            Lent::Announce { ranks } => Output::Announce { ranks },
            Lent::Timer(moment) => Output::Timer(moment),
            Lent::Datagram { to, plan, bytes } => Output::Datagram { to, plan, bytes: bytes.to_vec() },
            Lent::Nowhere => Output::Nowhere,
            Lent::Quiet => Output::Quiet,
            Lent::View { number, ids } => Output::View { number, ids },
            Lent::Out => Output::Out,
        }
    }
}

/// A member at work. It isn't `Send`: a handle stays on its thread.
pub struct Member {
    handle: Box<Handle>,
    room: Vec<u8>,
}

impl Member {
    /// Opens a member of a group, in the group's first view, over the stack that a layer file means.
    pub fn open(layers: &[u8], group: Group, me: u8) -> Result<Member, OpenError> {
        let mut handle = Box::new(Handle::NONE);
        let mut fault = Fault::default();
        let mut sentence = [0; LONGEST_SENTENCE];
        let Group { group, stamp, members, bypass } = group;
        // SAFETY: the handle is none and stays in its box; pointers are those of slices with their lengths.
        let status = unsafe {
            calls::juq_open(
                &mut *handle, layers.as_ptr(), layers.len(), bypass, group, stamp, members, me, &mut fault, sentence.as_mut_ptr(),
                sentence.len(),
            )
        };
        match status {
            0 => Ok(Member { handle, room: vec![0; LONGEST_DATAGRAM] }),
            2 => Err(OpenError::NoMember),
            3 => Err(OpenError::Refused {
                cause: fault.cause,
                a: fault.a,
                b: fault.b,
                sentence: String::from_utf8_lossy(&sentence[..fault.length.min(LONGEST_SENTENCE)]).into_owned(),
            }),
            4 => Err(OpenError::TooManyRows),
            _ => Err(OpenError::Memory),
        }
    }

    /// The application casts a body to the whole view.
    pub fn cast(&mut self, body: &[u8]) -> Result<Outputs<'_>, Refusal> {
        // SAFETY: here and below: the handle has a member and stays in its box; a slice is its pointer and length.
        let status = unsafe { calls::juq_cast(&mut *self.handle, body.as_ptr(), body.len()) };
        self.answer(status)
    }

    /// It sends a body to the member of a rank.
    pub fn send(&mut self, rank: u32, body: &[u8]) -> Result<Outputs<'_>, Refusal> {
        let status = unsafe { calls::juq_send(&mut *self.handle, rank, body.as_ptr(), body.len()) };
        self.answer(status)
    }

    /// It asks to leave the group.
    pub fn leave(&mut self) -> Result<Outputs<'_>, Refusal> {
        let status = unsafe { calls::juq_leave(&mut *self.handle) };
        self.answer(status)
    }

    /// The member's clock shows a moment.
    pub fn tick(&mut self, moment: u32) -> Result<Outputs<'_>, Refusal> {
        let status = unsafe { calls::juq_tick(&mut *self.handle, moment) };
        self.answer(status)
    }

    /// A datagram came.
    pub fn receive(&mut self, datagram: &[u8]) -> Result<Outputs<'_>, Refusal> {
        let status = unsafe { calls::juq_receive(&mut *self.handle, datagram.as_ptr(), datagram.len()) };
        self.answer(status)
    }

    fn answer(&mut self, status: u32) -> Result<Outputs<'_>, Refusal> {
        const STRAYS: [Stray; 10] = [
            Stray::Short, Stray::Form, Stray::Group, Stray::Stamp, Stray::View, Stray::Sender, Stray::Dest, Stray::Plan, Stray::Chain,
            Stray::Body,
        ];
        match status {
            0 | 1 => Ok(Outputs { common: status == 1, member: self }),
            18 => Err(Refusal::TooBig),
            32..=41 => Err(Refusal::Stray(STRAYS[status as usize - 32])),
            _ => Err(Refusal::Out),
        }
    }

    fn next(&mut self) -> Option<Lent<'_>> {
        let mut event = Event::default();
        // SAFETY: as above; the room is the vector's.
        let status = unsafe { calls::juq_next(&mut *self.handle, &mut event, self.room.as_mut_ptr(), self.room.len()) };
        (status == 1).then(|| {
            let bytes = &self.room[..event.length];
            match event.kind {
                1 => Lent::Cast { peer: event.peer, body: bytes },
                2 => Lent::Send { peer: event.peer, body: bytes },
                3 => Lent::Block(event.number),
                4 => Lent::Announce { ranks: event.to },
                5 => Lent::Timer(event.number),
                6 => Lent::Datagram { to: event.to, plan: event.plan.checked_sub(1), bytes },
                7 => Lent::Nowhere,
                8 => Lent::Quiet,
                9 => Lent::View { number: event.number, ids: event.to },
                _ => Lent::Out,
            }
        })
    }
}

impl Drop for Member {
    fn drop(&mut self) {
        // SAFETY: as above.
        unsafe { calls::juq_close(&mut *self.handle) };
    }
}

/// What came out of a step, one by one. Outputs that aren't taken are let go by the next step.
pub struct Outputs<'a> {
    /// Whether the step was common, so that the stack's bypass makes it.
    pub common: bool,
    member: &'a mut Member,
}

impl Outputs<'_> {
    /// The next output, its bytes lent: it takes no memory.
    pub fn next_lent(&mut self) -> Option<Lent<'_>> {
        self.member.next()
    }
}

impl Iterator for Outputs<'_> {
    type Item = Output;

    fn next(&mut self) -> Option<Output> {
        self.next_lent().map(|lent| lent.to_output())
    }
}

/// What the library says that it is: its version, whether it is proved, its commit and its kit.
pub fn version() -> &'static str {
    // SAFETY: the library's text is a constant that a zero ends.
    unsafe { CStr::from_ptr(calls::juq_version()) }.to_str().unwrap_or("")
}
