//! The head and its 2,080 bytes, as docs/HEAD.md has them.

use super::{bytes_at, ten_thousandths, units_and_remainder, MOST_ACCOUNTS};

/// Bytes of the head, of what stands before the accounts, and of an account place.
pub const HEAD: usize = 2_080;
const BEFORE: usize = 32;
const PLACE: usize = 64;

#[derive(Clone, Debug, PartialEq, Eq)]
pub struct Head {
    pub time: i64,
    pub currency: [u8; 3],
    pub accounts: Vec<Account>,
    /// Places of the books, as noted at opening.
    pub open_places: usize,
    pub finished_places: usize,
    /// Records in the finished book.
    pub finished: usize,
}

/// 01: "An account has a name, a cap (at most 10^17 units) and a position". Both in ten-thousandths.
#[derive(Clone, Debug, PartialEq, Eq)]
pub struct Account {
    pub name: Vec<u8>,
    pub cap: i128,
    pub position: i128,
}

impl Head {
    /// None for another length or form, or for an account whose bytes no values have.
    pub fn read(bytes: &[u8]) -> Option<Head> {
        if bytes.len() != HEAD || !zeros(&bytes[18..BEFORE]) {
            return None;
        }
        let count = usize::from(bytes[11]);
        if count > MOST_ACCOUNTS {
            return None;
        }
        let (in_use, past) = bytes[BEFORE..].split_at(count * PLACE);
        if !zeros(past) {
            return None;
        }
        let short = |at: usize| usize::from(u16::from_be_bytes(bytes_at(bytes, at)));
        Some(Head {
            time: i64::from_be_bytes(bytes_at(bytes, 0)),
            currency: bytes_at(bytes, 8),
            accounts: in_use.chunks(PLACE).map(Account::read).collect::<Option<Vec<Account>>>()?,
            open_places: short(12),
            finished_places: short(14),
            finished: short(16),
        })
    }

    /// All bytes of the head.
    pub fn write(&self, bytes: &mut [u8]) {
        bytes.fill(0);
        bytes[0..8].copy_from_slice(&self.time.to_be_bytes());
        bytes[8..11].copy_from_slice(&self.currency);
        bytes[11] = self.accounts.len() as u8;
        for (at, number) in [(12, self.open_places), (14, self.finished_places), (16, self.finished)] {
            bytes[at..at + 2].copy_from_slice(&(number as u16).to_be_bytes());
        }
        for (account, place) in self.accounts.iter().zip(bytes[BEFORE..].chunks_mut(PLACE)) {
            account.write(place);
        }
    }

    /// The account number of a name. 01: "compared byte for byte".
    pub fn account(&self, name: &[u8]) -> Option<usize> {
        self.accounts.iter().position(|account| account.name == name)
    }
}

impl Account {
    /// None if a byte past the name or past the fields is not zero, if the name's length can't be, or if a
    /// remainder is not below 10,000. All of these answer 21.
    fn read(place: &[u8]) -> Option<Account> {
        let length = usize::from(place[52]);
        if length > 32 || !zeros(&place[length..32]) || !zeros(&place[53..]) {
            return None;
        }
        let cap = u64::from_be_bytes(bytes_at(place, 32));
        let position = i64::from_be_bytes(bytes_at(place, 40));
        Some(Account {
            name: place[..length].to_vec(),
            cap: ten_thousandths(i128::from(cap), u16::from_be_bytes(bytes_at(place, 48)))?,
            position: ten_thousandths(i128::from(position), u16::from_be_bytes(bytes_at(place, 50)))?,
        })
    }

    /// Into zeros. Every position has room in 64 bits: the others are at most 10^17 units and the sum is at least
    /// 0, so that it is at least -31 * 10^17; and what a call takes away leaves the sum with the open amounts.
    fn write(&self, place: &mut [u8]) {
        let (cap, cap_remainder) = units_and_remainder(self.cap);
        let (position, remainder) = units_and_remainder(self.position);
        place[..self.name.len()].copy_from_slice(&self.name);
        place[32..40].copy_from_slice(&(cap as u64).to_be_bytes());
        place[40..48].copy_from_slice(&i64::try_from(position).expect("room in 64 bits").to_be_bytes());
        place[48..50].copy_from_slice(&cap_remainder.to_be_bytes());
        place[50..52].copy_from_slice(&remainder.to_be_bytes());
        place[52] = self.name.len() as u8;
    }
}

fn zeros(bytes: &[u8]) -> bool {
    bytes.iter().all(|byte| *byte == 0)
}
