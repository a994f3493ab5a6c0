//! One settlement window: the calls from an accepted open on. Time, accounts, transfers, their states and the positions are
//! each found by going through these calls; nothing is carried from one of them to the next.

use super::asked::{Asked, Grant, Lent, Opening, Order, Wish};
use super::{rules, Noted};

#[derive(Clone, Copy)]
pub struct Window<'a> {
    opening: &'a Opening,
    noted: &'a Lent,
    /// Those after the open.
    calls: &'a [Noted],
}

impl Noted {
    /// What was done, if the call was accepted.
    fn done(&self) -> Option<&Wish> {
        match &self.asked {
            Asked::Other(Some(wish)) if self.number == rules::DONE => Some(wish),
            _ => None,
        }
    }
}

impl<'a> Window<'a> {
    /// 01: "histories are read from the last accepted one".
    pub(super) fn last(list: &'a [Noted]) -> Option<Window<'a>> {
        list.iter().enumerate().rev().find_map(|(at, call)| match &call.asked {
            Asked::Open(Some(opening)) if call.number == rules::DONE => {
                Some(Window { opening, noted: &call.lent, calls: &list[at + 1..] })
            }
            _ => None,
        })
    }

    /// The lengths that were lent to the open.
    pub fn noted(&self) -> &'a Lent {
        self.noted
    }

    pub fn currency(&self) -> &'a [u8] {
        &self.opening.currency
    }

    /// What the last accepted time said, and before any of them the open.
    pub fn time(&self) -> i64 {
        let instant = |call: &Noted| if let Some(Wish::Time(instant)) = call.done() { Some(*instant) } else { None };
        self.calls.iter().rev().find_map(instant).unwrap_or(self.opening.time)
    }

    /// The accounts are what the accepted joins asked for, in their order.
    fn grants(&self) -> impl Iterator<Item = &'a Grant> {
        self.calls.iter().filter_map(|call| if let Some(Wish::Join(grant)) = call.done() { Some(grant) } else { None })
    }

    pub fn names(&self) -> Vec<&'a [u8]> {
        self.grants().map(|grant| &grant.name[..]).collect()
    }

    pub fn cap(&self, name: &[u8]) -> Option<i128> {
        self.grants().find(|grant| grant.name == name).map(|grant| grant.cap)
    }

    /// The transfers are what the accepted prepares ordered; the acceptance number counts them from 1.
    pub fn transfers(&self) -> impl Iterator<Item = Transfer<'a>> {
        let calls = self.calls;
        let ordered = calls.iter().enumerate().filter_map(move |(at, call)| match call.done() {
            Some(Wish::Prepare(order)) => Some((order, &calls[at + 1..])),
            _ => None,
        });
        ordered.zip(1..).map(|((order, later), number)| Transfer { order, number, later })
    }

    /// The transfer of an id, in whatever state.
    pub fn held(&self, id: &[u8]) -> Option<Transfer<'a>> {
        self.transfers().find(|transfer| transfer.order.id == id)
    }

    pub fn reserved(&self) -> impl Iterator<Item = Transfer<'a>> {
        self.transfers().filter(|transfer| transfer.ending().is_none())
    }

    /// Sent and not aborted, less received and committed; in ten-thousandths.
    pub fn position(&self, name: &[u8]) -> i128 {
        self.transfers().map(|transfer| transfer.sent(name) - transfer.received(name)).sum()
    }
}

/// An accepted prepare and the calls after it.
#[derive(Clone, Copy)]
pub struct Transfer<'a> {
    pub order: &'a Order,
    pub number: u32,
    later: &'a [Noted],
}

/// What ended a transfer: the fulfilment's bytes, the payee's code, or the clock.
#[derive(Clone, Copy, Debug, PartialEq, Eq)]
pub enum Ending<'a> {
    Fulfilled(&'a [u8]),
    Refused(u16),
    Expired,
}

impl<'a> Transfer<'a> {
    /// By the first accepted call after its prepare that ends it; none as long as it is RESERVED.
    pub fn ending(&self) -> Option<Ending<'a>> {
        self.ended().map(|(_, ending)| ending)
    }

    pub fn is_ended_by_the_last_call(&self) -> bool {
        self.ended().is_some_and(|(at, _)| at + 1 == self.later.len())
    }

    fn ended(&self) -> Option<(usize, Ending<'a>)> {
        let each = self.later.iter().enumerate();
        each.filter_map(|(at, call)| Some((at, call.done()?))).find_map(|(at, wish)| Some((at, self.ended_by(wish)?)))
    }

    /// A matching fulfilment from its payee, an abort from its payee, or a clock step that reaches its expiration.
    fn ended_by(&self, wish: &'a Wish) -> Option<Ending<'a>> {
        let order = self.order;
        match wish {
            Wish::Fulfil(sent) if sent.id == order.id && sent.sender == order.payee && sent.hash[..] == order.condition => {
                Some(Ending::Fulfilled(&sent.bytes))
            }
            Wish::Abort(sent) if sent.id == order.id && sent.sender == order.payee => Some(Ending::Refused(sent.code)),
            Wish::Time(instant) if *instant >= order.expiration => Some(Ending::Expired),
            _ => None,
        }
    }

    /// The payer's amount counts unless the transfer is ABORTED.
    fn sent(&self, name: &[u8]) -> i128 {
        let is_aborted = matches!(self.ending(), Some(Ending::Refused(_) | Ending::Expired));
        if self.order.payer == name && !is_aborted {
            self.order.amount
        } else {
            0
        }
    }

    /// The payee's counts once it is COMMITTED.
    fn received(&self, name: &[u8]) -> i128 {
        if self.order.payee == name && matches!(self.ending(), Some(Ending::Fulfilled(_))) {
            self.order.amount
        } else {
            0
        }
    }
}
