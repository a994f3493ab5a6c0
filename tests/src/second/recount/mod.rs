//! The recount, written from 01 alone: what each call of a list was answered and what came of its transfers, found from the
//! list itself. It keeps the calls as they came, each with the number that it was answered, and nothing else: no book, no
//! running position and no running state. All else is looked for in the calls from the last accepted open on.

mod asked;
mod rules;
mod window;

pub use asked::{Asked, Lent};
pub use window::{Ending, Transfer, Window};

use asked::Wish;

/// A call of the list: what its texts read to, what was lent to it, and the number that it was answered.
struct Noted {
    asked: Asked,
    lent: Lent,
    number: u32,
}

/// 01: "Each call answers a number, the API's error code, and a mark"; time also fills a list with acceptance numbers.
#[derive(Clone, Debug, PartialEq, Eq)]
pub struct Reply {
    pub number: u32,
    pub code: u32,
    pub mark: u32,
    pub expired: Vec<u32>,
}

/// The list up to here.
#[derive(Default)]
pub struct Recount {
    list: Vec<Noted>,
}

impl Recount {
    /// The list goes on with this call; what it is answered.
    pub fn next(&mut self, asked: Asked, lent: Lent) -> Reply {
        let number = rules::number(&self.list, &asked, &lent);
        self.list.push(Noted { asked, lent, number });
        let expired = self.expired();
        Reply { number, code: rules::code(number), mark: self.mark(expired.len()), expired }
    }

    /// The calls from the last accepted open on.
    pub fn window(&self) -> Option<Window<'_>> {
        Window::last(&self.list)
    }

    /// What the last call asked for, and the window after it; none for an open and for the answers 1 and 21.
    fn last_wish(&self) -> Option<(Window<'_>, &Wish)> {
        let last = self.list.last()?;
        match &last.asked {
            Asked::Other(Some(wish)) if last.number != rules::OUT_OF_SHAPE => Some((self.window()?, wish)),
            _ => None,
        }
    }

    /// The acceptance numbers of those that the last call ended by expiry, in ascending order.
    fn expired(&self) -> Vec<u32> {
        match self.last_wish() {
            Some((window, Wish::Time(_))) => {
                window.transfers().filter(Transfer::is_ended_by_the_last_call).map(|transfer| transfer.number).collect()
            }
            _ => Vec::new(),
        }
    }

    /// Of the last call. 01: "the acceptance number of the transfer if a book holds its id after the call, for time the count
    /// of transfers it expired, else 0. Answers 1 and 21 have mark 0."
    fn mark(&self, expired: usize) -> u32 {
        match self.last_wish() {
            None => 0,
            Some((_, Wish::Time(_))) => expired as u32,
            Some((window, wish)) => wish.id().and_then(|id| window.held(id)).map_or(0, |transfer| transfer.number),
        }
    }
}
