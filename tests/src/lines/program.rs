//! 01's "A program over the library", over the second implementation of the book, written from 01 alone: "64 open,
//! 100 finished records, list of 64".

use crate::second::book::{self, Answer, Order, HEAD, RECORD};

/// 01: "a word and its fields, single spaces, newline, at most 33,000 bytes". The newline is one of them.
pub const MOST: usize = 33_000;

const NOT_IN_FORM: u32 = 1;
const OUT_OF_SHAPE: u32 = 21;

pub struct Program {
    head: Vec<u8>,
    open: Vec<u8>,
    finished: Vec<u8>,
    list: Vec<u8>,
    /// An OPEN was accepted.
    opened: bool,
}

/// What the program prints for all of an input: a line for each line.
pub fn printed(input: &[u8]) -> Vec<u8> {
    let mut program = Program::new();
    input.split_inclusive(|byte| *byte == b'\n').flat_map(|line| program.line(line)).collect()
}

impl Program {
    pub fn new() -> Program {
        let zeros = |length: usize| vec![0; length];
        Program { head: zeros(HEAD), open: zeros(64 * RECORD), finished: zeros(100 * RECORD), list: zeros(64 * 4), opened: false }
    }

    /// The answer to a line, which has its newline unless the input ends before it.
    pub fn line(&mut self, line: &[u8]) -> Vec<u8> {
        let Some(words) = words(line) else {
            return told(Answer::new(NOT_IN_FORM, 0), &[]);
        };
        let answer = self.call(words[0], &words[1..]);
        let shown = if words[0] == b"TIME" { answer.mark as usize } else { 0 };
        let numbers: Vec<u32> =
            self.list.chunks(4).take(shown).map(|place| u32::from_be_bytes(place.try_into().expect("four"))).collect();
        told(answer, &numbers)
    }

    /// A word with as many fields as its call has; every other is no call. "It has no line for lookup."
    fn call(&mut self, word: &[u8], fields: &[&[u8]]) -> Answer {
        match (word, fields) {
            (b"OPEN", [currency, time]) => {
                let answer = book::open(&mut self.head, &mut self.open, &mut self.finished, currency, time);
                self.opened |= answer.number == 0;
                answer
            }
            (b"JOIN", [_, _]) | (b"PREPARE", [_, _, _, _, _, _, _, _]) | (b"FULFIL" | b"ABORT", [_, _, _]) | (b"TIME", [_]) => {
                self.other(word, fields)
            }
            _ => Answer::new(NOT_IN_FORM, 0),
        }
    }

    /// 01: "Before an accepted OPEN the other calls answer 21."
    fn other(&mut self, word: &[u8], fields: &[&[u8]]) -> Answer {
        if !self.opened {
            return Answer::new(OUT_OF_SHAPE, 0);
        }
        let Program { head, open, finished, list, .. } = self;
        match (word, fields) {
            (b"JOIN", [name, cap]) => book::join(head, open, finished, name, cap),
            (b"FULFIL", [sender, id, fulfilment]) => book::fulfil(head, open, finished, sender, id, fulfilment),
            (b"ABORT", [sender, id, code]) => book::abort(head, open, finished, sender, id, code),
            (b"TIME", [time]) => book::time(head, open, finished, list, time),
            (_, [id, payer, payee, currency, amount, condition, expiration, packet]) => {
                book::prepare(head, open, finished, &Order { id, payer, payee, currency, amount, condition, expiration, packet })
            }
            _ => unreachable!("the fields were counted"),
        }
    }
}

/// The word and the fields of a line; none if it is too long, has no newline, or has other than single spaces
/// between its pieces.
fn words(line: &[u8]) -> Option<Vec<&[u8]>> {
    if line.len() > MOST {
        return None;
    }
    let words: Vec<&[u8]> = line.strip_suffix(b"\n")?.split(|byte| *byte == b' ').collect();
    words.iter().all(|word| !word.is_empty()).then_some(words)
}

/// 01: "It prints number, code, mark, and for time as many of the list's numbers as the mark says."
fn told(answer: Answer, numbers: &[u32]) -> Vec<u8> {
    let all = [&[answer.number, answer.code, answer.mark], numbers].concat();
    let mut line = all.iter().map(u32::to_string).collect::<Vec<_>>().join(" ");
    line.push('\n');
    line.into_bytes()
}
