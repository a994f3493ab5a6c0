//! The exported calls of the proved library, as safe functions on slices. The only module with `unsafe`.

use crate::second::book::{Answer, HEAD, RECORD};
use crate::world::{Call, Kind, Lent, Outcome};

/// A slice that is lent to be written, or only to be read.
type Out = *mut u8;
type Text = *const u8;

/// Calls whose arguments are all lent slices: each a pointer and a length.
macro_rules! exported {
    ($($name:ident($($lent:ty),+);)+) => {
        extern "C" { $(fn $name($(_: $lent, _: usize),+) -> u64;)+ }
    };
}

exported! {
    vaik_open(Out, Out, Out, Text, Text);
    vaik_join(Out, Text, Text, Text, Text);
    vaik_prepare(Out, Out, Text, Text, Text, Text, Text, Text, Text, Text, Text);
    vaik_fulfil(Out, Out, Out, Text, Text, Text);
    vaik_abort(Out, Out, Out, Text, Text, Text);
    vaik_time(Out, Out, Out, Out, Text);
    vaik_lookup(Text, Text, Text, Text);
    vaik_lookup_place(Text, Text, Text, Text);
}

extern "C" {
    fn vaik_read_amount(text: Text, n: usize, units: *mut u64, remainder: *mut u16) -> u64;
    fn vaik_read_id(text: Text, n: usize, id: Out, id_n: usize) -> u64;
    fn vaik_read_datetime(text: Text, n: usize, instant: *mut i64) -> u64;
    fn vaik_read_condition(text: Text, n: usize, condition: Out, condition_n: usize) -> u64;
    fn vaik_write_amount(units: u64, remainder: u16, out: Out, n: usize) -> u64;
    fn vaik_write_id(id: Text, id_n: usize, out: Out, n: usize) -> u64;
    fn vaik_write_datetime(instant: i64, out: Out, n: usize) -> u64;
    fn vaik_write_condition(condition: Text, condition_n: usize, out: Out, n: usize) -> u64;
    fn vaik_code(number: u32) -> u32;
    fn vaik_head_length() -> u64;
}

/// Lends slices to an exported call: those before the semicolon to be written, the others to be read.
macro_rules! lend {
    ($name:ident($($out:expr),*; $($text:expr),*)) => {
        unsafe { $name($($out.as_mut_ptr(), $out.len(),)* $($text.as_ptr(), $text.len()),*) }
    };
}

/// "number in bits 0-15, code in bits 16-31, mark in bits 32-63"
fn unpacked(answer: u64) -> Answer {
    Answer { number: (answer & 0xffff) as u32, code: (answer >> 16 & 0xffff) as u32, mark: (answer >> 32) as u32 }
}

/// One call of the book.
pub fn call(lent: Lent, call: &Call) -> Outcome {
    let Lent { head, open, finished, list } = lent;
    let text = |at: usize| &call.fields[at][..];
    let answer = match call.kind {
        Kind::Open => lend!(vaik_open(head, open, finished; text(0), text(1))),
        Kind::Join => lend!(vaik_join(head; open, finished, text(0), text(1))),
        Kind::Prepare => lend!(vaik_prepare(head, open; finished, text(0), text(1), text(2), text(3), text(4), text(5),
            text(6), text(7))),
        Kind::Fulfil => lend!(vaik_fulfil(head, open, finished; text(0), text(1), text(2))),
        Kind::Abort => lend!(vaik_abort(head, open, finished; text(0), text(1), text(2))),
        Kind::Time => lend!(vaik_time(head, open, finished, list; text(0))),
        Kind::Lookup => lend!(vaik_lookup(; head, open, finished, text(0))),
    };
    let place = match call.kind {
        Kind::Lookup => lend!(vaik_lookup_place(; head, open, finished, text(0))),
        _ => 0,
    };
    Outcome { answer: unpacked(answer), place }
}

/// A fault on purpose: a finished book of one record is lent as one of two, and the open fills both with zeros. It shows
/// that a sanitizer is there and sees what the library is handed.
pub fn overrun() {
    let (mut head, mut open, mut finished) = (vec![0_u8; HEAD], vec![0_u8; RECORD], vec![0_u8; RECORD]);
    let (currency, time) = (b"XTS", b"2024-01-01T00:00:00.000Z");
    unsafe {
        let lent = (finished.as_mut_ptr(), 2 * RECORD);
        vaik_open(head.as_mut_ptr(), HEAD, open.as_mut_ptr(), RECORD, lent.0, lent.1, currency.as_ptr(), 3, time.as_ptr(), 24);
    }
}

/// `before` is what the lent numbers hold at the call.
pub fn read_amount(text: &[u8], before: (u64, u16)) -> (Answer, (u64, u16)) {
    let (mut units, mut remainder) = before;
    let answer = unsafe { vaik_read_amount(text.as_ptr(), text.len(), &mut units, &mut remainder) };
    (unpacked(answer), (units, remainder))
}

/// `before` is what the lent number holds at the call.
pub fn read_datetime(text: &[u8], before: i64) -> (Answer, i64) {
    let mut instant = before;
    let answer = unsafe { vaik_read_datetime(text.as_ptr(), text.len(), &mut instant) };
    (unpacked(answer), instant)
}

pub fn read_id(text: &[u8], id: &mut [u8]) -> Answer {
    unpacked(unsafe { vaik_read_id(text.as_ptr(), text.len(), id.as_mut_ptr(), id.len()) })
}

pub fn read_condition(text: &[u8], condition: &mut [u8]) -> Answer {
    unpacked(unsafe { vaik_read_condition(text.as_ptr(), text.len(), condition.as_mut_ptr(), condition.len()) })
}

pub fn write_amount(units: u64, remainder: u16, out: &mut [u8]) -> Answer {
    unpacked(unsafe { vaik_write_amount(units, remainder, out.as_mut_ptr(), out.len()) })
}

pub fn write_id(id: &[u8], out: &mut [u8]) -> Answer {
    unpacked(unsafe { vaik_write_id(id.as_ptr(), id.len(), out.as_mut_ptr(), out.len()) })
}

pub fn write_datetime(instant: i64, out: &mut [u8]) -> Answer {
    unpacked(unsafe { vaik_write_datetime(instant, out.as_mut_ptr(), out.len()) })
}

pub fn write_condition(condition: &[u8], out: &mut [u8]) -> Answer {
    unpacked(unsafe { vaik_write_condition(condition.as_ptr(), condition.len(), out.as_mut_ptr(), out.len()) })
}

pub fn code(number: u32) -> u32 {
    unsafe { vaik_code(number) }
}

pub fn head_length() -> u64 {
    unsafe { vaik_head_length() }
}
