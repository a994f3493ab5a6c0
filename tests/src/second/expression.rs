//! The regular expressions of the listings, read from their printed text, and the one question asked of
//! them: how far can a text go on? What is left of a form after one byte is a form again (Brzozowski's
//! derivative); where no text is left at all, no text of the form goes on with that byte.

use std::sync::Arc;

#[derive(Clone, Debug)]
pub enum Form {
    /// No text.
    Nothing,
    /// The empty text.
    Empty,
    /// One byte of a set.
    Byte(Arc<[bool; 256]>),
    Then(Arc<Form>, Arc<Form>),
    Either(Arc<Form>, Arc<Form>),
    /// At least so often, and at most so often if there is a limit.
    Times(Arc<Form>, u32, Option<u32>),
}

use Form::{Byte, Either, Empty, Nothing, Then, Times};

impl Form {
    /// The form that a listing prints, from `^` to `$`. `$` is the very end and `\d` is 0 to 9.
    pub fn published(listing: &str) -> Form {
        let inner = listing.strip_prefix('^').and_then(|rest| rest.strip_suffix('$'));
        let mut parser = Parser { rest: inner.expect("a listing goes from ^ to $").as_bytes() };
        let form = parser.alternatives();
        assert!(parser.rest.is_empty(), "left over of {}: {}", listing, parser.rest.escape_ascii());
        form
    }

    /// Ok for a text of the form, else the offset at which it stops being the start of one.
    pub fn judge(&self, text: &[u8]) -> Result<(), usize> {
        let mut left = self.clone();
        for (offset, byte) in text.iter().enumerate() {
            left = left.after(*byte);
            if matches!(left, Nothing) {
                return Err(offset);
            }
        }
        if left.takes_empty() {
            Ok(())
        } else {
            Err(text.len())
        }
    }

    /// What may follow the byte. Nothing exactly if no text of the form starts with it: `then`, `either`
    /// and `times` never build a form without texts other than Nothing.
    pub fn after(&self, byte: u8) -> Form {
        match self {
            Nothing | Empty => Nothing,
            Byte(set) => {
                if set[usize::from(byte)] {
                    Empty
                } else {
                    Nothing
                }
            }
            Then(first, second) => {
                let inside = then(first.after(byte), second);
                if first.takes_empty() {
                    either(inside, second.after(byte))
                } else {
                    inside
                }
            }
            Either(one, other) => either(one.after(byte), other.after(byte)),
            Times(form, least, most) => {
                let rest = times(form, least.saturating_sub(1), most.map(|count| count - 1));
                then(form.after(byte), &Arc::new(rest))
            }
        }
    }

    pub fn takes_empty(&self) -> bool {
        match self {
            Nothing | Byte(_) => false,
            Empty => true,
            Then(first, second) => first.takes_empty() && second.takes_empty(),
            Either(one, other) => one.takes_empty() || other.takes_empty(),
            Times(form, least, _) => *least == 0 || form.takes_empty(),
        }
    }
}

fn then(first: Form, second: &Arc<Form>) -> Form {
    match (&first, second.as_ref()) {
        (Nothing, _) | (_, Nothing) => Nothing,
        (Empty, other) => other.clone(),
        (_, Empty) => first,
        _ => Then(Arc::new(first), Arc::clone(second)),
    }
}

fn either(one: Form, other: Form) -> Form {
    match (&one, &other) {
        (Nothing, _) => other,
        (_, Nothing) => one,
        _ => Either(Arc::new(one), Arc::new(other)),
    }
}

fn times(form: &Arc<Form>, least: u32, most: Option<u32>) -> Form {
    if most == Some(0) {
        return Empty;
    }
    Times(Arc::clone(form), least, most)
}

/// Reads the notation of the listings: groups, `|`, classes, `\d`, `\.`, `{m}`, `{m,n}`, `?`, `*`, `+`.
struct Parser<'a> {
    rest: &'a [u8],
}

impl Parser<'_> {
    fn alternatives(&mut self) -> Form {
        let mut form = self.sequence();
        while self.skip(b"|") {
            form = either(form, self.sequence());
        }
        form
    }

    fn sequence(&mut self) -> Form {
        let mut parts = Vec::new();
        while !matches!(self.rest.first(), None | Some(b'|' | b')')) {
            let part = self.atom();
            parts.push(self.counted(part));
        }
        parts.into_iter().rev().fold(Empty, |after, part| then(part, &Arc::new(after)))
    }

    fn atom(&mut self) -> Form {
        if self.skip(b"(?:") || self.skip(b"(") {
            let form = self.alternatives();
            assert!(self.skip(b")"), "a group ends");
            return form;
        }
        match self.take() {
            b'[' => self.class(),
            b'\\' => self.escaped(),
            byte => one_of(byte, byte),
        }
    }

    fn escaped(&mut self) -> Form {
        match self.take() {
            b'd' => one_of(b'0', b'9'),
            byte => one_of(byte, byte),
        }
    }

    /// A `-` that follows a range or ends the class is itself (listing 27: `0-9-_`).
    fn class(&mut self) -> Form {
        let mut set = [false; 256];
        while !self.skip(b"]") {
            let low = self.take();
            let is_range = self.rest[0] == b'-' && self.rest[1] != b']';
            let high = if is_range && self.skip(b"-") { self.take() } else { low };
            set[usize::from(low)..=usize::from(high)].fill(true);
        }
        Byte(Arc::new(set))
    }

    fn counted(&mut self, form: Form) -> Form {
        let form = Arc::new(form);
        if self.skip(b"?") {
            times(&form, 0, Some(1))
        } else if self.skip(b"*") {
            times(&form, 0, None)
        } else if self.skip(b"+") {
            times(&form, 1, None)
        } else if self.skip(b"{") {
            let least = self.number();
            let most = if self.skip(b",") { self.number() } else { least };
            assert!(self.skip(b"}"), "a count ends");
            times(&form, least, Some(most))
        } else {
            form.as_ref().clone()
        }
    }

    fn number(&mut self) -> u32 {
        let mut number = 0;
        while self.rest[0].is_ascii_digit() {
            number = number * 10 + u32::from(self.take() - b'0');
        }
        number
    }

    fn take(&mut self) -> u8 {
        let byte = self.rest[0];
        self.rest = &self.rest[1..];
        byte
    }

    fn skip(&mut self, mark: &[u8]) -> bool {
        let after = self.rest.strip_prefix(mark);
        self.rest = after.unwrap_or(self.rest);
        after.is_some()
    }
}

fn one_of(low: u8, high: u8) -> Form {
    let mut set = [false; 256];
    set[usize::from(low)..=usize::from(high)].fill(true);
    Byte(Arc::new(set))
}
