//! A call as it came: its texts, any bytes, read to values, and the lengths of what was lent to it.

use crate::second::{amount, code, condition, currency, datetime, id, name, packet, sha256};

pub type Id = Vec<u8>;

/// Bytes that were lent to a call.
#[derive(Clone, Copy, Debug, PartialEq, Eq)]
pub struct Lent {
    pub head: usize,
    pub open: usize,
    pub finished: usize,
    pub list: usize,
}

/// What a call asks for; none where a field is not in form.
pub enum Asked {
    Open(Option<Opening>),
    Other(Option<Wish>),
}

pub struct Opening {
    pub currency: Vec<u8>,
    pub time: i64,
}

/// What a call other than open asks for.
pub enum Wish {
    Join(Grant),
    Prepare(Order),
    Fulfil(Fulfilment),
    Abort(Refusal),
    Time(i64),
    Lookup(Id),
}

/// An account that is asked for; its cap in ten-thousandths.
pub struct Grant {
    pub name: Vec<u8>,
    pub cap: i128,
}

/// A prepare's fields by their values; the amount in ten-thousandths. Two of one id and currency have the same content
/// exactly if they are equal.
#[derive(PartialEq, Eq)]
pub struct Order {
    pub id: Id,
    pub payer: Vec<u8>,
    pub payee: Vec<u8>,
    pub currency: Vec<u8>,
    pub amount: i128,
    pub condition: Vec<u8>,
    pub expiration: i64,
    pub packet_hash: [u8; 32],
}

pub struct Fulfilment {
    pub sender: Vec<u8>,
    pub id: Id,
    pub bytes: Vec<u8>,
    pub hash: [u8; 32],
}

pub struct Refusal {
    pub sender: Vec<u8>,
    pub id: Id,
    pub code: u16,
}

impl Wish {
    /// The id of the transfer that it speaks of.
    pub fn id(&self) -> Option<&Id> {
        match self {
            Wish::Join(_) | Wish::Time(_) => None,
            Wish::Prepare(order) => Some(&order.id),
            Wish::Fulfil(fulfilment) => Some(&fulfilment.id),
            Wish::Abort(refusal) => Some(&refusal.id),
            Wish::Lookup(id) => Some(id),
        }
    }
}

/// The calls from their texts, in the order of 01's example.
impl Asked {
    pub fn open(currency: &[u8], time: &[u8]) -> Asked {
        let opening = || Some(Opening { currency: currency_of(currency)?, time: datetime::read(time).ok()? });
        Asked::Open(opening())
    }

    pub fn join(name: &[u8], cap: &[u8]) -> Asked {
        let grant = || Some(Grant { name: name_of(name)?, cap: amount_of(cap)? });
        Asked::Other(grant().map(Wish::Join))
    }

    pub fn prepare(texts: [&[u8]; 8]) -> Asked {
        Asked::Other(order(texts).map(Wish::Prepare))
    }

    pub fn fulfil(sender: &[u8], id: &[u8], fulfilment: &[u8]) -> Asked {
        let wish = || {
            let bytes = condition::read(fulfilment).ok()?;
            let hash = sha256::hash(&bytes);
            Some(Fulfilment { sender: name_of(sender)?, id: id::read(id).ok()?, bytes, hash })
        };
        Asked::Other(wish().map(Wish::Fulfil))
    }

    pub fn abort(sender: &[u8], id: &[u8], code: &[u8]) -> Asked {
        let wish = || Some(Refusal { sender: name_of(sender)?, id: id::read(id).ok()?, code: code::read(code).ok()? });
        Asked::Other(wish().map(Wish::Abort))
    }

    pub fn time(time: &[u8]) -> Asked {
        Asked::Other(datetime::read(time).ok().map(Wish::Time))
    }

    pub fn lookup(id: &[u8]) -> Asked {
        Asked::Other(id::read(id).ok().map(Wish::Lookup))
    }
}

fn order([id, payer, payee, currency, amount, condition, expiration, packet]: [&[u8]; 8]) -> Option<Order> {
    packet::read(packet).ok()?;
    Some(Order {
        id: id::read(id).ok()?,
        payer: name_of(payer)?,
        payee: name_of(payee)?,
        currency: currency_of(currency)?,
        amount: amount_of(amount)?,
        condition: condition::read(condition).ok()?,
        expiration: datetime::read(expiration).ok()?,
        packet_hash: sha256::hash(packet),
    })
}

fn name_of(text: &[u8]) -> Option<Vec<u8>> {
    name::read(text).ok().map(|()| text.to_vec())
}

fn currency_of(text: &[u8]) -> Option<Vec<u8>> {
    currency::read(text).ok().map(|()| text.to_vec())
}

/// 01: "The value is counted in ten-thousandths".
fn amount_of(text: &[u8]) -> Option<i128> {
    let (units, remainder) = amount::read(text).ok()?;
    Some(i128::from(units) * 10_000 + i128::from(remainder))
}
