//! The book, written from 01 alone: amounts and positions are whole numbers of ten-thousandths, accounts and
//! transfers are ordinary structs, and each call reads the lent bytes, decides in 01's order, and writes back.

mod calls;
mod head;
mod shape;
mod transfer;

pub use calls::{abort, fulfil, join, lookup, open, prepare, time, Found, Order, Part};
pub use head::{Account, Head, HEAD};
pub use transfer::{Transfer, RECORD};

/// 01: "held as whole units and a remainder 0 to 9,999"; one unit has so many ten-thousandths.
pub const UNIT: i128 = 10_000;

/// 01: "a cap (at most 10^17 units)"; the shape holds positions to it as well.
pub const MOST_CAP: i128 = 10_i128.pow(17) * UNIT;

/// 01: "`999999999999999999.9999` reads, `1000000000000000000` doesn't".
pub const MOST_AMOUNT: i128 = 10_i128.pow(18) * UNIT - 1;

/// 01: "The accounts travel with the head by value, at most 32."
pub const MOST_ACCOUNTS: usize = 32;

/// 01: "an open book (1 to 1,024 records) and a finished book (1 to 65,535)".
pub const MOST_OPEN: usize = 1_024;
pub const MOST_FINISHED: usize = 65_535;

/// 01: "Each call answers a number, the API's error code, and a mark".
#[derive(Clone, Copy, Debug, PartialEq, Eq)]
pub struct Answer {
    pub number: u32,
    pub code: u32,
    pub mark: u32,
}

impl Answer {
    pub fn new(number: u32, mark: u32) -> Answer {
        Answer { number, code: code(number), mark }
    }
}

/// 01, the table under "Numbers given back", for the calls of the book.
#[derive(Clone, Copy, Debug, PartialEq, Eq)]
#[repr(u32)]
pub enum Number {
    Done = 0,
    NotInForm = 1,
    PayerUnknown = 2,
    PayeeUnknown = 3,
    PayerIsPayee = 4,
    OtherCurrency = 5,
    OtherContent = 6,
    Expired = 7,
    OpenBookFull = 8,
    FinishedBookFull = 9,
    CapPassed = 10,
    IdUnknown = 11,
    NotThePayee = 12,
    EndedAnotherWay = 13,
    FulfilmentWrong = 14,
    ClockGoesBack = 15,
    ListTooShort = 16,
    NameHeld = 17,
    AccountsFull = 18,
    CapTooHigh = 19,
    LengthsOutside = 20,
    OutOfShape = 21,
    Resend = 24,
}

/// The column "code" of the same table; 0 also for a number that the table doesn't have.
pub fn code(number: u32) -> u32 {
    match number {
        1 => 3101,
        2 => 3202,
        3 => 3203,
        4 | 5 => 3100,
        6 => 3106,
        7 => 3303,
        8 => 2005,
        9 => 2003,
        10 => 4001,
        11 => 3208,
        12..=14 => 3100,
        21 => 2001,
        _ => 0,
    }
}

/// Units and remainder as one number of ten-thousandths; none for a remainder that is not below 10,000.
fn ten_thousandths(units: i128, remainder: u16) -> Option<i128> {
    let remainder = i128::from(remainder);
    (remainder < UNIT).then_some(units * UNIT + remainder)
}

/// 01: "whole units rounded down, and a remainder 0 to 9,999. So 5.5 taken from 0 is held as -6 and 5,000."
fn units_and_remainder(value: i128) -> (i128, u16) {
    (value.div_euclid(UNIT), value.rem_euclid(UNIT) as u16)
}

/// The bytes from `at` on, as many as the array has.
fn bytes_at<const COUNT: usize>(bytes: &[u8], at: usize) -> [u8; COUNT] {
    bytes[at..at + COUNT].try_into().expect("the range has that length")
}
