//! The recount as a third side of a history: its list goes on with each call, and what it finds there is held against the
//! answer, the time list, the accounts of the head and the record of a lookup.

use crate::report::Difference;
use crate::second::book::{Account, Head, Transfer, RECORD};
use crate::second::recount::{self, Asked, Ending, Lent, Recount, Window};
use crate::world::{Buffer, Call, Kind, Lengths, Outcome, World};
use std::fmt::Debug;

/// It knows the calls alone: before an accepted open the buffers must hold no book, and the host itself must change no byte.
#[derive(Default)]
pub struct Recounted {
    recount: Recount,
}

impl Recounted {
    /// `outcome` and `world` are what the others made of the call.
    pub fn step(&mut self, lengths: &Lengths, call: &Call, outcome: &Outcome, world: &World) -> Result<(), Difference> {
        let reply = self.recount.next(asked(call), lent(lengths));
        let answer = outcome.answer;
        same("answer", (answer.number, answer.code, answer.mark), (reply.number, reply.code, reply.mark))?;
        same("acceptance numbers in the list", listed(call, outcome, world), reply.expired)?;
        let Some(window) = self.recount.window() else {
            return Ok(());
        };
        head(&window, world)?;
        if call.kind == Kind::Lookup {
            looked_up(&window, call, outcome, world)?;
        }
        Ok(())
    }
}

fn same<T: PartialEq + Debug>(what: &str, ours: T, recounted: T) -> Result<(), Difference> {
    if ours == recounted {
        return Ok(());
    }
    Err(format!("{what}: {ours:?}, recounted {recounted:?}"))
}

/// The call as the recount takes it, from its texts.
fn asked(call: &Call) -> Asked {
    let text = |at: usize| &call.fields[at][..];
    match call.kind {
        Kind::Open => Asked::open(text(0), text(1)),
        Kind::Join => Asked::join(text(0), text(1)),
        Kind::Prepare => Asked::prepare([0, 1, 2, 3, 4, 5, 6, 7].map(text)),
        Kind::Fulfil => Asked::fulfil(text(0), text(1), text(2)),
        Kind::Abort => Asked::abort(text(0), text(1), text(2)),
        Kind::Time => Asked::time(text(0)),
        Kind::Lookup => Asked::lookup(text(0)),
    }
}

fn lent(lengths: &Lengths) -> Lent {
    let Lengths { head, open, finished, list } = *lengths;
    Lent { head, open, finished, list }
}

/// As many of the list's numbers as the mark of an accepted time says.
fn listed(call: &Call, outcome: &Outcome, world: &World) -> Vec<u32> {
    if call.kind != Kind::Time || outcome.answer.number != 0 {
        return Vec::new();
    }
    world.listed(outcome.answer.mark as usize)
}

/// Time, currency, accounts and the count of the finished as the head has them; the positions sum to what is reserved, and
/// none is above its cap.
fn head(window: &Window, world: &World) -> Result<(), Difference> {
    let head = Head::read(world.bytes(Buffer::Head)).ok_or("no head")?;
    let account = |name: &[u8]| {
        let (cap, position) = (window.cap(name).unwrap_or(-1), window.position(name));
        Account { name: name.to_vec(), cap, position }
    };
    let ended = window.transfers().filter(|transfer| transfer.ending().is_some()).count();
    same(
        "time, currency and finished records",
        (head.time, &head.currency[..], head.finished),
        (window.time(), window.currency(), ended),
    )?;
    same("accounts", &head.accounts, &window.names().into_iter().map(account).collect())?;
    let sum: i128 = head.accounts.iter().map(|account| account.position).sum();
    same("sum of the positions", sum, window.reserved().map(|transfer| transfer.order.amount).sum())?;
    same("an account above its cap", head.accounts.iter().find(|account| account.position > account.cap), None)
}

/// The record that a lookup gives, field by field, and in which of the books it is.
fn looked_up(window: &Window, call: &Call, outcome: &Outcome, world: &World) -> Result<(), Difference> {
    if outcome.answer.number != 0 {
        return Ok(());
    }
    let number = outcome.answer.mark;
    let held = window.transfers().find(|transfer| transfer.number == number).ok_or("no such transfer in the recount")?;
    let book = if held.ending().is_none() { Buffer::Open } else { Buffer::Finished };
    same("book of the lookup", book_of(outcome), Some(book))?;
    let record = &world.bytes(book)[outcome.place as u32 as usize..][..RECORD];
    same(&format!("{call}"), Transfer::read(record), Some(recorded(window, &held)))
}

fn book_of(outcome: &Outcome) -> Option<Buffer> {
    match outcome.place >> 32 {
        1 => Some(Buffer::Open),
        2 => Some(Buffer::Finished),
        _ => None,
    }
}

/// A transfer of the recount as its record must say it.
fn recorded(window: &Window, held: &recount::Transfer) -> Transfer {
    let order = held.order;
    let (state, ended_by, error_code, fulfilment) = match held.ending() {
        None => (2, 0, 0, [0; 32]),
        Some(Ending::Fulfilled(bytes)) => (3, 1, 0, bytes.try_into().expect("32 bytes")),
        Some(Ending::Refused(code)) => (4, 2, code, [0; 32]),
        Some(Ending::Expired) => (4, 3, 3303, [0; 32]),
    };
    let account = |name: &[u8]| window.names().iter().position(|each| *each == name).expect("a party has an account");
    Transfer {
        id: order.id[..].try_into().expect("16 bytes"),
        state,
        payer: account(&order.payer),
        payee: account(&order.payee),
        ended_by,
        error_code,
        amount: order.amount,
        expiration: order.expiration,
        condition: order.condition[..].try_into().expect("32 bytes"),
        fulfilment,
        packet_hash: order.packet_hash,
        number: held.number,
        rest: [0; 20],
    }
}
