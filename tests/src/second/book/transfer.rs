//! A transfer and its record of 160 bytes. 01: "Numbers are big-endian."

use super::{bytes_at, ten_thousandths, units_and_remainder, MOST_AMOUNT};

/// Bytes of a record.
pub const RECORD: usize = 160;

/// 01: "state: 2 RESERVED, 3 COMMITTED, 4 ABORTED; 0 free".
pub const RESERVED: u8 = 2;
pub const COMMITTED: u8 = 3;
pub const ABORTED: u8 = 4;

/// 01: "ended by: 0 nothing, 1 fulfilment, 2 payee's abort, 3 expiry".
pub const BY_NOTHING: u8 = 0;
pub const BY_FULFILMENT: u8 = 1;
pub const BY_PAYEE: u8 = 2;
pub const BY_EXPIRY: u8 = 3;

#[derive(Clone, Debug, PartialEq, Eq)]
pub struct Transfer {
    pub id: [u8; 16],
    pub state: u8,
    /// Account numbers from 0.
    pub payer: usize,
    pub payee: usize,
    pub ended_by: u8,
    pub error_code: u16,
    /// In ten-thousandths.
    pub amount: i128,
    pub expiration: i64,
    pub condition: [u8; 32],
    pub fulfilment: [u8; 32],
    pub packet_hash: [u8; 32],
    /// The acceptance number.
    pub number: u32,
    /// Bytes 140-159, zero unless the book is damaged; they go along when the record moves.
    pub rest: [u8; 20],
}

impl Transfer {
    /// None if the amount is not in range: no text reads to it. Inlined, so that the shape test, which asks for few
    /// of the fields, copies no others.
    #[inline(always)]
    pub fn read(record: &[u8]) -> Option<Transfer> {
        let units = u64::from_be_bytes(bytes_at(record, 24));
        let amount = ten_thousandths(i128::from(units), u16::from_be_bytes(bytes_at(record, 22)))?;
        if amount > MOST_AMOUNT {
            return None;
        }
        Some(Transfer {
            id: bytes_at(record, 0),
            state: record[16],
            payer: usize::from(record[17]),
            payee: usize::from(record[18]),
            ended_by: record[19],
            error_code: u16::from_be_bytes(bytes_at(record, 20)),
            amount,
            expiration: i64::from_be_bytes(bytes_at(record, 32)),
            condition: bytes_at(record, 40),
            fulfilment: bytes_at(record, 72),
            packet_hash: bytes_at(record, 104),
            number: u32::from_be_bytes(bytes_at(record, 136)),
            rest: bytes_at(record, 140),
        })
    }

    /// The table of 01, "The two books", from top to bottom.
    pub fn write(&self, record: &mut [u8]) {
        let (units, remainder) = units_and_remainder(self.amount);
        record[0..16].copy_from_slice(&self.id);
        record[16] = self.state;
        record[17] = self.payer as u8;
        record[18] = self.payee as u8;
        record[19] = self.ended_by;
        record[20..22].copy_from_slice(&self.error_code.to_be_bytes());
        record[22..24].copy_from_slice(&remainder.to_be_bytes());
        record[24..32].copy_from_slice(&(units as u64).to_be_bytes());
        record[32..40].copy_from_slice(&self.expiration.to_be_bytes());
        record[40..72].copy_from_slice(&self.condition);
        record[72..104].copy_from_slice(&self.fulfilment);
        record[104..136].copy_from_slice(&self.packet_hash);
        record[136..140].copy_from_slice(&self.number.to_be_bytes());
        record[140..160].copy_from_slice(&self.rest);
    }

    /// 01: "with bytes 16, 19, 20-21 and 72-103 set anew as below and the rest kept".
    pub fn end(&mut self, state: u8, ended_by: u8, error_code: u16, fulfilment: [u8; 32]) {
        self.state = state;
        self.ended_by = ended_by;
        self.error_code = error_code;
        self.fulfilment = fulfilment;
    }
}
