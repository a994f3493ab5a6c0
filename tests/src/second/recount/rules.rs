//! 01, "Rules of each call, checks in this order", as tables: each check is a number and whether it applies, and a call is
//! answered the first that does, or 0. All checks are asked of the calls before it.

use super::asked::{Asked, Fulfilment, Grant, Lent, Order, Refusal, Wish};
use super::window::{Ending, Transfer, Window};
use super::Noted;

pub const DONE: u32 = 0;
const NOT_IN_FORM: u32 = 1;
const LENGTHS_OUTSIDE: u32 = 20;
pub const OUT_OF_SHAPE: u32 = 21;

/// Bytes of the head by docs/HEAD.md, and of a record.
const HEAD: usize = 2_080;
const RECORD: usize = 160;

/// 01: "cap above 10^17", which are units.
const MOST_CAP: i128 = 10_i128.pow(17) * 10_000;

/// A check: the number and whether it applies.
type Check = (u32, bool);

fn first(checks: &[Check]) -> u32 {
    checks.iter().find(|(_, applies)| *applies).map_or(DONE, |(number, _)| *number)
}

/// The number that a call is answered after such a list. 01: "Before an accepted OPEN the other calls answer 21."
pub fn number(list: &[Noted], asked: &Asked, lent: &Lent) -> u32 {
    match asked {
        Asked::Open(opening) => first(&[(NOT_IN_FORM, opening.is_none()), (LENGTHS_OUTSIDE, !are_within_limits(lent))]),
        Asked::Other(wish) => match (Window::last(list), wish) {
            (Some(window), Some(wish)) if is_lent_as_noted(&window, lent) => called(&window, wish, lent),
            (Some(window), None) if is_lent_as_noted(&window, lent) => NOT_IN_FORM,
            _ => OUT_OF_SHAPE,
        },
    }
}

/// 01: "an open book (1 to 1,024 records) and a finished book (1 to 65,535)"; "no multiple of 160"; "at open another length".
fn are_within_limits(lent: &Lent) -> bool {
    let is_book = |length: usize, most: usize| length.is_multiple_of(RECORD) && (1..=most).contains(&(length / RECORD));
    lent.head == HEAD && is_book(lent.open, 1_024) && is_book(lent.finished, 65_535)
}

/// 01: "Book lengths are those noted at opening". Of the shape nothing else can fail from an accepted open on.
fn is_lent_as_noted(window: &Window, lent: &Lent) -> bool {
    let noted = window.noted();
    (lent.head, lent.open, lent.finished) == (HEAD, noted.open, noted.finished)
}

fn called(window: &Window, wish: &Wish, lent: &Lent) -> u32 {
    let checks = match wish {
        Wish::Join(grant) => join(window, grant),
        Wish::Prepare(order) => prepare(window, order),
        Wish::Fulfil(fulfilment) => fulfil(window, fulfilment),
        Wish::Abort(refusal) => abort(window, refusal),
        Wish::Time(instant) => time(window, *instant, lent),
        Wish::Lookup(id) => vec![(11, window.held(id).is_none())],
    };
    first(&checks)
}

/// Join: 19, 17, 18.
fn join(window: &Window, grant: &Grant) -> Vec<Check> {
    vec![(19, grant.cap > MOST_CAP), (17, window.cap(&grant.name).is_some()), (18, window.names().len() >= 32)]
}

/// Prepare: 2, 3, 4, 5, then 24 or 6, then 7, 8, 9, 10.
fn prepare(window: &Window, order: &Order) -> Vec<Check> {
    let held = window.held(&order.id);
    let noted = window.noted();
    vec![
        (2, window.cap(&order.payer).is_none()),
        (3, window.cap(&order.payee).is_none()),
        (4, order.payer == order.payee),
        (5, order.currency != window.currency()),
        (24, held.is_some_and(|held| held.order == order)),
        (6, held.is_some()),
        (7, order.expiration <= window.time()),
        (8, window.reserved().count() >= noted.open / RECORD),
        (9, window.transfers().count() >= noted.finished / RECORD),
        (10, window.cap(&order.payer).is_some_and(|cap| window.position(&order.payer) + order.amount > cap)),
    ]
}

/// Fulfil: 11, 12, then by the state.
fn fulfil(window: &Window, sent: &Fulfilment) -> Vec<Check> {
    let Some(held) = window.held(&sent.id) else {
        return vec![(11, true)];
    };
    let ending = held.ending();
    vec![
        is_not_the_payee(&held, &sent.sender),
        (24, ending == Some(Ending::Fulfilled(&sent.bytes))),
        (6, matches!(ending, Some(Ending::Fulfilled(_)))),
        (7, ending == Some(Ending::Expired)),
        (13, matches!(ending, Some(Ending::Refused(_)))),
        (14, sent.hash[..] != held.order.condition),
    ]
}

/// Abort: 11, 12, then by the state.
fn abort(window: &Window, sent: &Refusal) -> Vec<Check> {
    let Some(held) = window.held(&sent.id) else {
        return vec![(11, true)];
    };
    let ending = held.ending();
    vec![
        is_not_the_payee(&held, &sent.sender),
        (13, matches!(ending, Some(Ending::Fulfilled(_)))),
        (7, ending == Some(Ending::Expired)),
        (24, ending == Some(Ending::Refused(sent.code))),
        (6, ending.is_some()),
    ]
}

fn is_not_the_payee(held: &Transfer, sender: &[u8]) -> Check {
    (12, held.order.payee != sender)
}

/// Time: 15, 16. "a place of the time list is 4 bytes (a shorter rest is none)"
fn time(window: &Window, instant: i64, lent: &Lent) -> Vec<Check> {
    let due = window.reserved().filter(|transfer| transfer.order.expiration <= instant).count();
    vec![(15, instant < window.time()), (16, lent.list / 4 < due)]
}

/// 01, "Numbers given back": the column "code", where it is not 0.
const CODES: [(u32, u32); 15] = [
    (1, 3101),
    (2, 3202),
    (3, 3203),
    (4, 3100),
    (5, 3100),
    (6, 3106),
    (7, 3303),
    (8, 2005),
    (9, 2003),
    (10, 4001),
    (11, 3208),
    (12, 3100),
    (13, 3100),
    (14, 3100),
    (21, 2001),
];

pub fn code(number: u32) -> u32 {
    CODES.iter().find(|(each, _)| *each == number).map_or(0, |(_, code)| *code)
}
