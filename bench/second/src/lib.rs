//! A prepare and a fulfil of the second implementation behind C calls of the same form as the library's, so that
//! one driver measures both. Built without the checks that tests/ runs with.

use common::second::book::{self, Answer, Order};
use std::slice::{from_raw_parts, from_raw_parts_mut};

fn packed(answer: Answer) -> u64 {
    u64::from(answer.number) | u64::from(answer.code) << 16 | u64::from(answer.mark) << 32
}

/// A slice that the driver lends.
///
/// # Safety
/// As `from_raw_parts`: so many bytes may be read there while the call runs, and nothing writes them.
unsafe fn text<'a>(pointer: *const u8, length: usize) -> &'a [u8] {
    from_raw_parts(pointer, length)
}

/// # Safety
/// The slices are lent as include/vaikshurd.h asks for `vaik_prepare`.
#[no_mangle]
#[rustfmt::skip]
pub unsafe extern "C" fn second_prepare(
    head: *mut u8, head_n: usize, opened: *mut u8, opened_n: usize, ended: *const u8, ended_n: usize,
    id: *const u8, id_n: usize, payer: *const u8, payer_n: usize, payee: *const u8, payee_n: usize,
    currency: *const u8, currency_n: usize, amount: *const u8, amount_n: usize, condition: *const u8, condition_n: usize,
    expiration: *const u8, expiration_n: usize, packet: *const u8, packet_n: usize,
) -> u64 {
    let order = Order {
        id: text(id, id_n),
        payer: text(payer, payer_n),
        payee: text(payee, payee_n),
        currency: text(currency, currency_n),
        amount: text(amount, amount_n),
        condition: text(condition, condition_n),
        expiration: text(expiration, expiration_n),
        packet: text(packet, packet_n),
    };
    let (head, opened) = (from_raw_parts_mut(head, head_n), from_raw_parts_mut(opened, opened_n));
    packed(book::prepare(head, opened, text(ended, ended_n), &order))
}

/// # Safety
/// The slices are lent as include/vaikshurd.h asks for `vaik_fulfil`.
#[no_mangle]
#[rustfmt::skip]
pub unsafe extern "C" fn second_fulfil(
    head: *mut u8, head_n: usize, opened: *mut u8, opened_n: usize, ended: *mut u8, ended_n: usize,
    sender: *const u8, sender_n: usize, id: *const u8, id_n: usize, fulfilment: *const u8, fulfilment_n: usize,
) -> u64 {
    let (head, opened) = (from_raw_parts_mut(head, head_n), from_raw_parts_mut(opened, opened_n));
    let ended = from_raw_parts_mut(ended, ended_n);
    packed(book::fulfil(head, opened, ended, text(sender, sender_n), text(id, id_n), text(fulfilment, fulfilment_n)))
}
