//! 01, "Shape", sentence by sentence. "Every call but open tests this first."

use super::head::{Account, Head};
use super::transfer::{Transfer, ABORTED, BY_EXPIRY, BY_FULFILMENT, BY_NOTHING, BY_PAYEE, COMMITTED, RECORD, RESERVED};
use super::{MOST_CAP, MOST_FINISHED, MOST_OPEN};
use crate::second::name;

/// 01: "free slots are zero".
pub const FREE: [u8; RECORD] = [0; RECORD];

/// A head that goes with both books, and how many records the open book has.
pub struct Sound {
    pub head: Head,
    pub open: usize,
}

/// One pass over the bytes of both books. None for 21.
pub fn judge(head: &[u8], open: &[u8], finished: &[u8]) -> Option<Sound> {
    let head = Head::read(head)?;
    // "Book lengths are those noted at opening and within the limits"
    let noted = open.len() == head.open_places * RECORD && finished.len() == head.finished_places * RECORD;
    let within = (1..=MOST_OPEN).contains(&head.open_places) && (1..=MOST_FINISHED).contains(&head.finished_places);
    if !noted || !within || !accounts_sound(&head.accounts) || head.finished > head.finished_places {
        return None;
    }
    let (records, amounts) = open_records(open, head.accounts.len())?;
    // "open and finished together are no more than the finished book's places; positions sum to the open amounts"
    let positions: i128 = head.accounts.iter().map(|account| account.position).sum();
    if records + head.finished > head.finished_places || positions != amounts || !finished_sound(&head, finished) {
        return None;
    }
    Some(Sound { head, open: records })
}

/// 01: "with names in form, caps at most 10^17 units, no name twice, .. and positions at most 10^17 units". A
/// position has no lower limit of its own.
fn accounts_sound(accounts: &[Account]) -> bool {
    accounts.iter().enumerate().all(|(at, account)| {
        let is_new = accounts[..at].iter().all(|earlier| earlier.name != account.name);
        name::read(&account.name).is_ok() && account.cap <= MOST_CAP && is_new && account.position <= MOST_CAP
    })
}

/// 01: "each open record has state 2 and ended-by 0, free slots are zero". How many records and the sum of
/// their amounts: 1,024 of them stay far below 2^127.
fn open_records(open: &[u8], accounts: usize) -> Option<(usize, i128)> {
    let mut records = 0;
    let mut amounts = 0;
    for slot in open.chunks(RECORD).filter(|slot| *slot != FREE) {
        let transfer = Transfer::read(slot)?;
        if (transfer.state, transfer.ended_by) != (RESERVED, BY_NOTHING) || !parties_sound(&transfer, accounts) {
            return None;
        }
        records += 1;
        amounts += transfer.amount;
    }
    Some((records, amounts))
}

/// 01: "the first finished records, as many as the head says, have state 3 with ended-by 1 or state 4 with 2 or
/// 3, the rest are zero".
fn finished_sound(head: &Head, finished: &[u8]) -> bool {
    let (records, rest) = finished.split_at(head.finished * RECORD);
    let ended = |record: &[u8]| {
        Transfer::read(record).is_some_and(|transfer| {
            let ending = (transfer.state, transfer.ended_by);
            let known = matches!(ending, (COMMITTED, BY_FULFILMENT) | (ABORTED, BY_PAYEE | BY_EXPIRY));
            known && parties_sound(&transfer, head.accounts.len())
        })
    };
    records.chunks(RECORD).all(ended) && rest.chunks(RECORD).all(|place| place == FREE)
}

/// 01: "parties are existing accounts and differ".
fn parties_sound(transfer: &Transfer, accounts: usize) -> bool {
    transfer.payer < accounts && transfer.payee < accounts && transfer.payer != transfer.payee
}
