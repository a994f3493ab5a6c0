//! The calls of the proved library, as safe functions on slices. The only module with `unsafe`.

use std::fmt;

/// What a reader answers: `ALL` for a text in form, else an offset.
#[derive(Clone, Copy, PartialEq, Eq)]
pub struct Verdict(pub u64);

pub const ALL: Verdict = Verdict(u64::MAX);

impl fmt::Debug for Verdict {
    fn fmt(&self, f: &mut fmt::Formatter) -> fmt::Result {
        match *self {
            ALL => write!(f, "in form"),
            Verdict(offset) => write!(f, "stops at {offset}"),
        }
    }
}

/// A reader's answer with the numbers it was lent, as they stand after the call.
#[derive(Clone, Copy, Debug, PartialEq, Eq)]
pub struct Seen<T> {
    pub verdict: Verdict,
    pub value: T,
}

mod c {
    extern "C" {
        pub fn probe_read_amount(s: *const u8, n: usize, units: *mut u64, remainder: *mut u16) -> u64;
        pub fn probe_write_amount(units: u64, remainder: u16, out: *mut u8, n: usize) -> u64;
        pub fn probe_read_id(s: *const u8, n: usize, out: *mut u8, out_n: usize) -> u64;
        pub fn probe_write_id(id: *const u8, id_n: usize, out: *mut u8, n: usize) -> u64;
        pub fn probe_read_datetime(s: *const u8, n: usize, ms: *mut i64) -> u64;
        pub fn probe_write_datetime(ms: i64, out: *mut u8, n: usize) -> u64;
        pub fn probe_read_condition(s: *const u8, n: usize, out: *mut u8, out_n: usize) -> u64;
        pub fn probe_write_condition(bytes: *const u8, bytes_n: usize, out: *mut u8, n: usize) -> u64;
        pub fn probe_read_name(s: *const u8, n: usize) -> u64;
        pub fn probe_read_currency(s: *const u8, n: usize) -> u64;
        pub fn probe_read_packet(s: *const u8, n: usize) -> u64;
        pub fn probe_read_code(s: *const u8, n: usize, code: *mut u16) -> u64;
        pub fn probe_sha256(m: *const u8, n: usize, out: *mut u8, out_n: usize);
    }
}

/// `before` is what the lent numbers hold at the call.
pub fn read_amount(text: &[u8], before: (u64, u16)) -> Seen<(u64, u16)> {
    let (mut units, mut remainder) = before;
    let verdict = Verdict(unsafe { c::probe_read_amount(text.as_ptr(), text.len(), &mut units, &mut remainder) });
    Seen { verdict, value: (units, remainder) }
}

pub fn write_amount(units: u64, remainder: u16, out: &mut [u8]) -> u64 {
    unsafe { c::probe_write_amount(units, remainder, out.as_mut_ptr(), out.len()) }
}

pub fn read_id(text: &[u8], out: &mut [u8]) -> Verdict {
    Verdict(unsafe { c::probe_read_id(text.as_ptr(), text.len(), out.as_mut_ptr(), out.len()) })
}

pub fn write_id(id: &[u8], out: &mut [u8]) -> u64 {
    unsafe { c::probe_write_id(id.as_ptr(), id.len(), out.as_mut_ptr(), out.len()) }
}

/// `before` is what the lent number holds at the call.
pub fn read_datetime(text: &[u8], before: i64) -> Seen<i64> {
    let mut value = before;
    let verdict = Verdict(unsafe { c::probe_read_datetime(text.as_ptr(), text.len(), &mut value) });
    Seen { verdict, value }
}

pub fn write_datetime(ms: i64, out: &mut [u8]) -> u64 {
    unsafe { c::probe_write_datetime(ms, out.as_mut_ptr(), out.len()) }
}

pub fn read_condition(text: &[u8], out: &mut [u8]) -> Verdict {
    Verdict(unsafe { c::probe_read_condition(text.as_ptr(), text.len(), out.as_mut_ptr(), out.len()) })
}

pub fn write_condition(bytes: &[u8], out: &mut [u8]) -> u64 {
    unsafe { c::probe_write_condition(bytes.as_ptr(), bytes.len(), out.as_mut_ptr(), out.len()) }
}

pub fn read_name(text: &[u8]) -> Verdict {
    Verdict(unsafe { c::probe_read_name(text.as_ptr(), text.len()) })
}

pub fn read_currency(text: &[u8]) -> Verdict {
    Verdict(unsafe { c::probe_read_currency(text.as_ptr(), text.len()) })
}

pub fn read_packet(text: &[u8]) -> Verdict {
    Verdict(unsafe { c::probe_read_packet(text.as_ptr(), text.len()) })
}

/// `before` is what the lent number holds at the call.
pub fn read_code(text: &[u8], before: u16) -> Seen<u16> {
    let mut value = before;
    let verdict = Verdict(unsafe { c::probe_read_code(text.as_ptr(), text.len(), &mut value) });
    Seen { verdict, value }
}

pub fn sha256(message: &[u8], out: &mut [u8]) {
    unsafe { c::probe_sha256(message.as_ptr(), message.len(), out.as_mut_ptr(), out.len()) }
}
