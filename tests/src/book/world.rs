//! What a host lends, what it calls, and the second implementation behind the same calls.

use crate::report::shown;
use crate::second::book::{self, Answer, Order, Part, HEAD, RECORD};
use std::fmt;

/// Bytes on both sides of each buffer, which no call may touch. Lending one byte too many takes one of these. The
/// number is odd, so that nothing that is lent starts at an even address.
pub const GUARD: usize = 13;

/// The buffers of a host: head, books and time list.
#[derive(Clone, PartialEq, Eq)]
pub struct World {
    buffers: [Vec<u8>; 4],
}

#[derive(Clone, Copy, Debug, PartialEq, Eq)]
pub enum Buffer {
    Head,
    Open,
    Finished,
    List,
}

pub const BUFFERS: [Buffer; 4] = [Buffer::Head, Buffer::Open, Buffer::Finished, Buffer::List];

/// Bytes that are lent of each buffer.
#[derive(Clone, Copy, PartialEq, Eq)]
pub struct Lengths {
    pub head: usize,
    pub open: usize,
    pub finished: usize,
    pub list: usize,
}

impl Lengths {
    /// Whole books with a list of the same places as the open one.
    pub fn places(open: usize, finished: usize) -> Lengths {
        Lengths { head: HEAD, open: open * RECORD, finished: finished * RECORD, list: open * 4 }
    }

    pub fn of(&self, buffer: Buffer) -> usize {
        [self.head, self.open, self.finished, self.list][buffer as usize]
    }

    pub fn set(&mut self, buffer: Buffer, length: usize) {
        let place = match buffer {
            Buffer::Head => &mut self.head,
            Buffer::Open => &mut self.open,
            Buffer::Finished => &mut self.finished,
            Buffer::List => &mut self.list,
        };
        *place = length;
    }
}

/// Slices as a call gets them.
pub struct Lent<'a> {
    pub head: &'a mut [u8],
    pub open: &'a mut [u8],
    pub finished: &'a mut [u8],
    pub list: &'a mut [u8],
}

impl World {
    /// Buffers of these lengths that hold a pattern, as memory that nobody cleared.
    pub fn new(room: &Lengths) -> World {
        let pattern = |length: usize| (0..length + 2 * GUARD).map(|at| (at as u8).wrapping_mul(37) | 1).collect();
        World { buffers: BUFFERS.map(|buffer| pattern(room.of(buffer))) }
    }

    pub fn room(&self, buffer: Buffer) -> usize {
        self.buffers[buffer as usize].len() - 2 * GUARD
    }

    /// The bytes of a buffer, without the guards.
    pub fn bytes(&self, buffer: Buffer) -> &[u8] {
        let all = &self.buffers[buffer as usize];
        &all[GUARD..all.len() - GUARD]
    }

    /// The first numbers of the time list.
    pub fn listed(&self, count: usize) -> Vec<u32> {
        let places = self.bytes(Buffer::List).chunks_exact(4).take(count);
        places.map(|four| u32::from_be_bytes([four[0], four[1], four[2], four[3]])).collect()
    }

    pub fn put(&mut self, buffer: Buffer, at: usize, bytes: &[u8]) {
        self.buffers[buffer as usize][GUARD + at..][..bytes.len()].copy_from_slice(bytes);
    }

    pub fn lend(&mut self, lengths: &Lengths) -> Lent<'_> {
        let [head, open, finished, list] = &mut self.buffers;
        Lent {
            head: &mut head[GUARD..][..lengths.head],
            open: &mut open[GUARD..][..lengths.open],
            finished: &mut finished[GUARD..][..lengths.finished],
            list: &mut list[GUARD..][..lengths.list],
        }
    }

    /// The first byte that differs, in words.
    pub fn difference(&self, expected: &World) -> Option<String> {
        BUFFERS.into_iter().find_map(|buffer| {
            let (ours, expected) = (&self.buffers[buffer as usize], &expected.buffers[buffer as usize]);
            if ours == expected {
                return None;
            }
            let at = ours.iter().zip(expected).position(|(one, other)| one != other)?;
            let place = at as i64 - GUARD as i64;
            Some(format!("{buffer:?} byte {place} is {:#04x}, expected {:#04x}", ours[at], expected[at]))
        })
    }

    pub fn copy_from(&mut self, other: &World) {
        for (buffer, source) in self.buffers.iter_mut().zip(&other.buffers) {
            buffer.copy_from_slice(source);
        }
    }
}

#[derive(Clone, Copy, Debug, PartialEq, Eq)]
pub enum Kind {
    Open,
    Join,
    Prepare,
    Fulfil,
    Abort,
    Time,
    Lookup,
}

pub const KINDS: [Kind; 7] = [Kind::Open, Kind::Join, Kind::Prepare, Kind::Fulfil, Kind::Abort, Kind::Time, Kind::Lookup];

/// A call and its fields, in the order of 01's example.
#[derive(Clone)]
pub struct Call {
    pub kind: Kind,
    pub fields: Vec<Vec<u8>>,
}

impl Call {
    pub fn new(kind: Kind, fields: &[&[u8]]) -> Call {
        Call { kind, fields: fields.iter().map(|field| field.to_vec()).collect() }
    }

    /// A call as the lines of 01's example have it: a word and its fields.
    pub fn line(line: &str) -> Call {
        let mut words = line.split(' ');
        let word = words.next().unwrap_or_default();
        let kind = KINDS.into_iter().find(|kind| format!("{kind:?}").to_uppercase() == word);
        Call { kind: kind.expect("a word of the example"), fields: words.map(|field| field.as_bytes().to_vec()).collect() }
    }
}

impl fmt::Display for Call {
    fn fmt(&self, f: &mut fmt::Formatter) -> fmt::Result {
        write!(f, "{}", format!("{:?}", self.kind).to_uppercase())?;
        self.fields.iter().try_for_each(|field| match std::str::from_utf8(field) {
            Ok(text) if (1..=60).contains(&field.len()) && text.bytes().all(|byte| byte.is_ascii_graphic()) => {
                write!(f, " {text}")
            }
            _ => write!(f, " {}", shown(field)),
        })
    }
}

/// What a call gives back besides the lent bytes.
#[derive(Clone, Copy, Debug, PartialEq, Eq)]
pub struct Outcome {
    pub answer: Answer,
    /// Of a lookup: the book (1 open, 2 finished, 0 refused) in bits 32-63, the offset in bits 0-31.
    pub place: u64,
}

/// One call of the second implementation.
pub fn second(lent: Lent, call: &Call) -> Outcome {
    let Lent { head, open, finished, list } = lent;
    let text = |at: usize| &call.fields[at][..];
    let answer = match call.kind {
        Kind::Open => book::open(head, open, finished, text(0), text(1)),
        Kind::Join => book::join(head, open, finished, text(0), text(1)),
        Kind::Prepare => book::prepare(head, open, finished, &order(call)),
        Kind::Fulfil => book::fulfil(head, open, finished, text(0), text(1), text(2)),
        Kind::Abort => book::abort(head, open, finished, text(0), text(1), text(2)),
        Kind::Time => book::time(head, open, finished, list, text(0)),
        Kind::Lookup => {
            let found = book::lookup(head, open, finished, text(0));
            return Outcome { answer: found.answer, place: packed(found.part) };
        }
    };
    Outcome { answer, place: 0 }
}

fn order(call: &Call) -> Order<'_> {
    let text = |at: usize| &call.fields[at][..];
    Order {
        id: text(0),
        payer: text(1),
        payee: text(2),
        currency: text(3),
        amount: text(4),
        condition: text(5),
        expiration: text(6),
        packet: text(7),
    }
}

fn packed(part: Option<Part>) -> u64 {
    match part {
        None => 0,
        Some(Part::Open(slot)) => 1 << 32 | (slot * RECORD) as u64,
        Some(Part::Finished(place)) => 2 << 32 | (place * RECORD) as u64,
    }
}
