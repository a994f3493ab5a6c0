//! Damage to texts: up to three small changes, as a copying fault or a careless sender makes them.

use crate::random::Random;

/// Characters of the forms and their neighbours, so that damage often stays close to a form.
const NEAR: &[u8] = b"0123456789abcdefghzABCDEFGTZ+-=._:/ ,@[`{~!\x7f\x20\n\r\0";

pub fn damaged(random: &mut Random, valid: Vec<u8>) -> Vec<u8> {
    let changes = random.below(4);
    (0..changes).fold(valid, |text, _| changed(random, text))
}

fn changed(random: &mut Random, mut text: Vec<u8>) -> Vec<u8> {
    let byte = if random.one_in(3) { random.byte() } else { *random.of(NEAR) };
    if text.is_empty() {
        return vec![byte];
    }
    let at = random.below(text.len());
    match random.below(7) {
        0 => text[at] = byte,
        1 => text.insert(at, byte),
        2 => drop(text.remove(at)),
        3 => text.truncate(at),
        4 => text.insert(at, text[at]),
        5 => swap_with_next(&mut text, at),
        _ => text.push(byte),
    }
    text
}

fn swap_with_next(text: &mut [u8], at: usize) {
    if at + 1 < text.len() {
        text.swap(at, at + 1);
    }
}

/// Every byte value at every place of the text, at its end, and every shorter text.
pub fn each_byte_at_each_place(text: &[u8]) -> Vec<Vec<u8>> {
    let mut all: Vec<Vec<u8>> = (0..=text.len()).map(|end| text[..end].to_vec()).collect();
    for at in 0..=text.len() {
        let after = &text[text.len().min(at + 1)..];
        all.extend((0..=255).map(|byte| [&text[..at], &[byte], after].concat()));
    }
    all
}
