//! 01, "Rules of each call, checks in this order". The books are lent; only an accepted call writes.

use super::head::{Account, Head, HEAD};
use super::shape::{judge, FREE};
use super::transfer::{Transfer, ABORTED, BY_EXPIRY, BY_FULFILMENT, BY_NOTHING, BY_PAYEE, COMMITTED, RECORD, RESERVED};
use super::Number::{self, *};
use super::{ten_thousandths, Answer, MOST_ACCOUNTS, MOST_CAP, MOST_FINISHED, MOST_OPEN};
use crate::second::{amount, code, condition, currency, datetime, id, name, packet, sha256};

/// The mark of an accepted call, or the number and mark of another answer.
type Decision = Result<u32, (Number, u32)>;

fn answer(decision: Decision) -> Answer {
    match decision {
        Ok(mark) => Answer::new(Done as u32, mark),
        Err((number, mark)) => Answer::new(number as u32, mark),
    }
}

/// 01: "a field not in form". "Answers 1 and 21 have mark 0."
const BAD_FORM: (Number, u32) = (NotInForm, 0);
const BAD_SHAPE: (Number, u32) = (OutOfShape, 0);

/// Open: 1, 20. "Opening fills both and the account places with zeros."
pub fn open(head: &mut [u8], open: &mut [u8], finished: &mut [u8], currency: &[u8], time: &[u8]) -> Answer {
    answer(open_decided(head, open, finished, currency, time))
}

fn open_decided(head: &mut [u8], open: &mut [u8], finished: &mut [u8], currency: &[u8], time: &[u8]) -> Decision {
    let (Ok(()), Ok(time)) = (currency::read(currency), datetime::read(time)) else {
        return Err(BAD_FORM);
    };
    let (Some(open_places), Some(finished_places)) = (places(open, MOST_OPEN), places(finished, MOST_FINISHED)) else {
        return Err((LengthsOutside, 0));
    };
    // "at open another length: 20"
    if head.len() != HEAD {
        return Err((LengthsOutside, 0));
    }
    open.fill(0);
    finished.fill(0);
    let currency = currency.try_into().expect("the form has three letters");
    Head { time, currency, accounts: Vec::new(), open_places, finished_places, finished: 0 }.write(head);
    Ok(0)
}

/// How many records a book has room for; none for "lengths outside limits or no multiple of 160".
fn places(book: &[u8], most: usize) -> Option<usize> {
    let places = book.len() / RECORD;
    (book.len().is_multiple_of(RECORD) && (1..=most).contains(&places)).then_some(places)
}

/// Join: 21, 1, 19, 17, 18.
pub fn join(head: &mut [u8], open: &[u8], finished: &[u8], name: &[u8], cap: &[u8]) -> Answer {
    answer(join_decided(head, open, finished, name, cap))
}

fn join_decided(bytes: &mut [u8], open: &[u8], finished: &[u8], name: &[u8], cap: &[u8]) -> Decision {
    let mut head = judge(bytes, open, finished).ok_or(BAD_SHAPE)?.head;
    let (Ok(()), Some(cap)) = (name::read(name), amount_read(cap)) else {
        return Err(BAD_FORM);
    };
    if cap > MOST_CAP {
        return Err((CapTooHigh, 0));
    }
    if head.account(name).is_some() {
        return Err((NameHeld, 0));
    }
    if head.accounts.len() == MOST_ACCOUNTS {
        return Err((AccountsFull, 0));
    }
    // "a position, 0 at joining"
    head.accounts.push(Account { name: name.to_vec(), cap, position: 0 });
    head.write(bytes);
    Ok(0)
}

/// An amount's text as ten-thousandths.
fn amount_read(text: &[u8]) -> Option<i128> {
    let (units, remainder) = amount::read(text).ok()?;
    ten_thousandths(i128::from(units), remainder)
}

/// The fields of a prepare, as texts.
#[derive(Clone, Copy, Debug)]
pub struct Order<'a> {
    pub id: &'a [u8],
    pub payer: &'a [u8],
    pub payee: &'a [u8],
    pub currency: &'a [u8],
    pub amount: &'a [u8],
    pub condition: &'a [u8],
    pub expiration: &'a [u8],
    pub packet: &'a [u8],
}

/// The transfer that an order asks for, before its parties and its acceptance number are known. None unless
/// all eight fields are in form.
fn ordered(order: &Order) -> Option<Transfer> {
    name::read(order.payer).ok()?;
    name::read(order.payee).ok()?;
    currency::read(order.currency).ok()?;
    packet::read(order.packet).ok()?;
    Some(Transfer {
        id: id_read(order.id)?,
        state: RESERVED,
        payer: 0,
        payee: 0,
        ended_by: BY_NOTHING,
        error_code: 0,
        amount: amount_read(order.amount)?,
        expiration: datetime::read(order.expiration).ok()?,
        condition: condition_read(order.condition)?,
        fulfilment: [0; 32],
        packet_hash: sha256::hash(order.packet),
        number: 0,
        rest: [0; 20],
    })
}

fn id_read(text: &[u8]) -> Option<[u8; 16]> {
    id::read(text).ok()?.try_into().ok()
}

fn condition_read(text: &[u8]) -> Option<[u8; 32]> {
    condition::read(text).ok()?.try_into().ok()
}

/// Prepare: 21, 1, 2, 3, 4, 5; then, if the id is held, 24 or 6; then 7, 8, 9, 10.
pub fn prepare(head: &mut [u8], open: &mut [u8], finished: &[u8], order: &Order) -> Answer {
    answer(prepare_decided(head, open, finished, order))
}

fn prepare_decided(bytes: &mut [u8], open: &mut [u8], finished: &[u8], order: &Order) -> Decision {
    let sound = judge(bytes, open, finished).ok_or(BAD_SHAPE)?;
    let mut head = sound.head;
    let mut transfer = ordered(order).ok_or(BAD_FORM)?;
    // "the acceptance number of the transfer if a book holds its id after the call": so already for 2 to 5
    let held = find(&head, open, finished, &transfer.id);
    let mark = held.as_ref().map_or(0, |(_, held)| held.number);
    transfer.payer = head.account(order.payer).ok_or((PayerUnknown, mark))?;
    transfer.payee = head.account(order.payee).ok_or((PayeeUnknown, mark))?;
    if transfer.payer == transfer.payee {
        return Err((PayerIsPayee, mark));
    }
    if order.currency != head.currency {
        return Err((OtherCurrency, mark));
    }
    if let Some((_, held)) = held {
        return Err((if same_content(&held, &transfer) { Resend } else { OtherContent }, mark));
    }
    if transfer.expiration <= head.time {
        return Err((Expired, 0));
    }
    let slot = open.chunks_mut(RECORD).find(|slot| **slot == FREE).ok_or((OpenBookFull, 0))?;
    if sound.open + head.finished >= head.finished_places {
        return Err((FinishedBookFull, 0));
    }
    let payer = &mut head.accounts[transfer.payer];
    if payer.position + transfer.amount > payer.cap {
        return Err((CapPassed, 0));
    }
    payer.position += transfer.amount;
    // "A new acceptance number is one more than the records in both books."
    transfer.number = (sound.open + head.finished + 1) as u32;
    transfer.write(slot);
    head.write(bytes);
    Ok(transfer.number)
}

/// 01: "24 when payer, payee, amount, condition bytes, expiration instant and packet hash are equal".
fn same_content(held: &Transfer, sent: &Transfer) -> bool {
    held.payer == sent.payer
        && held.payee == sent.payee
        && held.amount == sent.amount
        && held.condition == sent.condition
        && held.expiration == sent.expiration
        && held.packet_hash == sent.packet_hash
}

/// Where a record is: its book, and its slot or place counted from 0.
#[derive(Clone, Copy, Debug, PartialEq, Eq)]
pub enum Part {
    Open(usize),
    Finished(usize),
}

/// 01: "If a damaged book holds an id twice, the open book's lowest slot counts first, then the lowest finished
/// place." An id in form is not zero, so that it is not found in a free slot.
fn find(head: &Head, open: &[u8], finished: &[u8], id: &[u8; 16]) -> Option<(Part, Transfer)> {
    let finished = &finished[..head.finished * RECORD];
    let lowest = |book: &[u8]| book.chunks(RECORD).position(|record| record[..16] == *id);
    let (part, record) = match lowest(open) {
        Some(slot) => (Part::Open(slot), &open[slot * RECORD..]),
        None => {
            let place = lowest(finished)?;
            (Part::Finished(place), &finished[place * RECORD..])
        }
    };
    Some((part, Transfer::read(record).expect("of the shape the amount is in range")))
}

/// Fulfil: 21, 1, 11, 12, then by the state.
pub fn fulfil(head: &mut [u8], open: &mut [u8], finished: &mut [u8], sender: &[u8], id: &[u8], fulfilment: &[u8]) -> Answer {
    answer(fulfil_decided(head, (open, finished), sender, id, fulfilment))
}

type Books<'a> = (&'a mut [u8], &'a mut [u8]);

fn fulfil_decided(bytes: &mut [u8], (open, finished): Books, sender: &[u8], id: &[u8], fulfilment: &[u8]) -> Decision {
    let mut head = judge(bytes, open, finished).ok_or(BAD_SHAPE)?.head;
    let (Ok(()), Some(id), Some(fulfilment)) = (name::read(sender), id_read(id), condition_read(fulfilment)) else {
        return Err(BAD_FORM);
    };
    let (part, mut transfer) = find(&head, open, finished, &id).ok_or((IdUnknown, 0))?;
    let mark = transfer.number;
    if head.accounts[transfer.payee].name != sender {
        return Err((NotThePayee, mark));
    }
    let slot = match (part, transfer.ended_by) {
        (Part::Open(slot), _) => slot,
        (_, BY_FULFILMENT) if transfer.fulfilment == fulfilment => return Err((Resend, mark)),
        (_, BY_FULFILMENT) => return Err((OtherContent, mark)),
        (_, BY_EXPIRY) => return Err((Expired, mark)),
        _ => return Err((EndedAnotherWay, mark)),
    };
    // "one whose 32 bytes have the condition as SHA-256"
    if sha256::hash(&fulfilment) != transfer.condition {
        return Err((FulfilmentWrong, mark));
    }
    head.accounts[transfer.payee].position -= transfer.amount;
    transfer.end(COMMITTED, BY_FULFILMENT, 0, fulfilment);
    move_to_finished(&mut head, open, finished, slot, &transfer);
    head.write(bytes);
    Ok(mark)
}

/// 01: "An ended record moves to the next place of the finished book"; "a freed slot is all zeros". There is a
/// place: of the shape, open and finished together are no more than the places.
fn move_to_finished(head: &mut Head, open: &mut [u8], finished: &mut [u8], slot: usize, transfer: &Transfer) {
    transfer.write(&mut finished[head.finished * RECORD..][..RECORD]);
    head.finished += 1;
    open[slot * RECORD..][..RECORD].fill(0);
}

/// Abort: 21, 1, 11, 12, then by the state.
pub fn abort(head: &mut [u8], open: &mut [u8], finished: &mut [u8], sender: &[u8], id: &[u8], code: &[u8]) -> Answer {
    answer(abort_decided(head, (open, finished), sender, id, code))
}

fn abort_decided(bytes: &mut [u8], (open, finished): Books, sender: &[u8], id: &[u8], code: &[u8]) -> Decision {
    let mut head = judge(bytes, open, finished).ok_or(BAD_SHAPE)?.head;
    let (Ok(()), Some(id), Ok(code)) = (name::read(sender), id_read(id), code::read(code)) else {
        return Err(BAD_FORM);
    };
    let (part, mut transfer) = find(&head, open, finished, &id).ok_or((IdUnknown, 0))?;
    let mark = transfer.number;
    if head.accounts[transfer.payee].name != sender {
        return Err((NotThePayee, mark));
    }
    let slot = match (part, transfer.ended_by) {
        (Part::Open(slot), _) => slot,
        (_, BY_FULFILMENT) => return Err((EndedAnotherWay, mark)),
        (_, BY_EXPIRY) => return Err((Expired, mark)),
        _ if transfer.error_code == code => return Err((Resend, mark)),
        _ => return Err((OtherContent, mark)),
    };
    head.accounts[transfer.payer].position -= transfer.amount;
    transfer.end(ABORTED, BY_PAYEE, code, [0; 32]);
    move_to_finished(&mut head, open, finished, slot, &transfer);
    head.write(bytes);
    Ok(mark)
}

/// Time: 21, 1, 15, 16.
pub fn time(head: &mut [u8], open: &mut [u8], finished: &mut [u8], list: &mut [u8], time: &[u8]) -> Answer {
    answer(time_decided(head, (open, finished), list, time))
}

fn time_decided(bytes: &mut [u8], (open, finished): Books, list: &mut [u8], time: &[u8]) -> Decision {
    let mut head = judge(bytes, open, finished).ok_or(BAD_SHAPE)?.head;
    let time = datetime::read(time).or(Err(BAD_FORM))?;
    if time < head.time {
        return Err((ClockGoesBack, 0));
    }
    let due = due(open, time);
    // "a place of the time list is 4 bytes (a shorter rest is none)"
    if list.len() / 4 < due.len() {
        return Err((ListTooShort, 0));
    }
    head.time = time;
    for ((slot, mut transfer), place) in due.iter().cloned().zip(list.chunks_mut(4)) {
        // As with an abort the payer's position falls: "positions sum to the open amounts".
        head.accounts[transfer.payer].position -= transfer.amount;
        transfer.end(ABORTED, BY_EXPIRY, EXPIRED_CODE, [0; 32]);
        move_to_finished(&mut head, open, finished, slot, &transfer);
        place.copy_from_slice(&transfer.number.to_be_bytes());
    }
    head.write(bytes);
    Ok(due.len() as u32)
}

/// 01: "ABORTED with 3303".
const EXPIRED_CODE: u16 = 3303;

/// 01: "every RESERVED transfer with expiration <= the new time .. in ascending acceptance number (ties by slot)".
fn due(open: &[u8], time: i64) -> Vec<(usize, Transfer)> {
    let slots = open.chunks(RECORD).enumerate().filter(|(_, record)| *record != FREE);
    let records = slots.map(|(slot, record)| (slot, Transfer::read(record).expect("of the shape the amount is in range")));
    let mut due: Vec<(usize, Transfer)> = records.filter(|(_, transfer)| transfer.expiration <= time).collect();
    due.sort_by_key(|(slot, transfer)| (transfer.number, *slot));
    due
}

/// What a lookup gives: the answer, and where the record is unless refused.
#[derive(Clone, Copy, Debug, PartialEq, Eq)]
pub struct Found {
    pub answer: Answer,
    pub part: Option<Part>,
}

/// Lookup: 21, 1, 11.
pub fn lookup(head: &[u8], open: &[u8], finished: &[u8], id: &[u8]) -> Found {
    match lookup_decided(head, open, finished, id) {
        Ok((part, number)) => Found { answer: Answer::new(Done as u32, number), part: Some(part) },
        Err(number) => Found { answer: Answer::new(number as u32, 0), part: None },
    }
}

fn lookup_decided(head: &[u8], open: &[u8], finished: &[u8], id: &[u8]) -> Result<(Part, u32), Number> {
    let head = judge(head, open, finished).ok_or(OutOfShape)?.head;
    let id = id_read(id).ok_or(NotInForm)?;
    let (part, transfer) = find(&head, open, finished, &id).ok_or(IdUnknown)?;
    Ok((part, transfer.number))
}
