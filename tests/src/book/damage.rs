//! Damage that keeps most of the shape: a host's fault that a call must either answer with 21 or take as it is.

use crate::random::Random;
use crate::second::book::{Account, Head, HEAD, MOST_ACCOUNTS, RECORD, UNIT};
use crate::world::{Buffer, Lengths, World};

/// Bytes that the host changes before a call.
pub type Put = (Buffer, usize, Vec<u8>);

/// One fault, sometimes with a second one.
pub fn damage(random: &mut Random, world: &World, lengths: &Lengths) -> Vec<Put> {
    let open = lengths.open.min(world.room(Buffer::Open)) / RECORD;
    let finished = lengths.finished.min(world.room(Buffer::Finished)) / RECORD;
    let mut view = View { random, world, open, finished };
    match view.random.below(15) {
        0 => view.any_byte(Buffer::Head, HEAD),
        1 => view.any_byte(Buffer::Open, open * RECORD),
        2 => view.any_byte(Buffer::Finished, finished * RECORD),
        3 => view.finished_count(),
        4 => view.swapped_records(),
        5 => view.copied_field(0, 16),
        6 => view.copied_field(136, 4),
        7 => view.moved_position(),
        8 => view.other_cap(),
        9 => view.unjudged_field(),
        10 => view.parties(),
        11 => view.amount_and_position(),
        12 => view.clock(),
        13 => view.accounts(),
        _ => view.copied_record(),
    }
}

struct View<'a> {
    random: &'a mut Random,
    world: &'a World,
    open: usize,
    finished: usize,
}

impl View<'_> {
    fn any_byte(&mut self, buffer: Buffer, below: usize) -> Vec<Put> {
        let at = self.random.below(below.max(1));
        let byte = self.world.bytes(buffer)[at];
        let other = [byte ^ 1, byte ^ 0x80, byte.wrapping_add(1), 0, 1, 2, 3, 4, 0xff, self.random.byte()];
        vec![(buffer, at, vec![*self.random.of(&other)])]
    }

    /// Bytes 16-17 of the head.
    fn finished_count(&mut self) -> Vec<Put> {
        let bytes = self.world.bytes(Buffer::Head);
        let count = u16::from_be_bytes([bytes[16], bytes[17]]);
        let other = [count.wrapping_add(1), count.wrapping_sub(1), 0, self.finished as u16, self.random.below(70_000) as u16];
        vec![(Buffer::Head, 16, self.random.of(&other).to_be_bytes().to_vec())]
    }

    /// A slot or place of either book, and its record.
    fn record(&mut self) -> (Buffer, usize, Vec<u8>) {
        let (buffer, places) = if self.random.one_in(2) { (Buffer::Open, self.open) } else { (Buffer::Finished, self.finished) };
        // The first places are the ones in use.
        let below = if self.random.one_in(2) { places.min(4) } else { places };
        let at = self.random.below(below.max(1)) * RECORD;
        (buffer, at, self.world.bytes(buffer)[at..][..RECORD].to_vec())
    }

    fn swapped_records(&mut self) -> Vec<Put> {
        let (one, other) = (self.record(), self.record());
        vec![(one.0, one.1, other.2), (other.0, other.1, one.2)]
    }

    /// A record twice.
    fn copied_record(&mut self) -> Vec<Put> {
        let (from, to) = (self.record(), self.record());
        vec![(to.0, to.1, from.2)]
    }

    /// The same id or acceptance number in two records.
    fn copied_field(&mut self, at: usize, length: usize) -> Vec<Put> {
        let (from, to) = (self.record(), self.record());
        vec![(to.0, to.1 + at, from.2[at..at + length].to_vec())]
    }

    /// Fields of a record that the shape doesn't name: error code, expiration, condition and what follows it.
    fn unjudged_field(&mut self) -> Vec<Put> {
        let (buffer, start, record) = self.record();
        let (at, length) = *self.random.of(&[(20, 2), (32, 8), (32, 8), (40, 32), (72, 32), (104, 32), (136, 4), (140, 20)]);
        let mut bytes = record[at..at + length].to_vec();
        match self.random.below(3) {
            0 => bytes = self.random.bytes(length),
            1 => bytes.fill(*self.random.of(&[0, 0x7f, 0x80, 0xff])),
            _ => bytes[length - 1] = bytes[length - 1].wrapping_add(*self.random.of(&[1, 2, 0xff])),
        }
        vec![(buffer, start + at, bytes)]
    }

    fn parties(&mut self) -> Vec<Put> {
        let (buffer, start, _) = self.record();
        let parties = (0..2).map(|_| self.random.below(6) as u8).collect();
        vec![(buffer, start + 17, parties)]
    }

    /// Changes the head as a value; nothing if it has none or if a position would have no room in its bytes.
    fn head(&mut self, change: impl FnOnce(&mut Random, &mut Head)) -> Vec<Put> {
        let Some(mut head) = Head::read(&self.world.bytes(Buffer::Head)[..HEAD]) else {
            return Vec::new();
        };
        change(self.random, &mut head);
        if head.accounts.iter().any(|account| i64::try_from(account.position.div_euclid(UNIT)).is_err()) {
            return Vec::new();
        }
        let before = self.world.bytes(Buffer::Head);
        let mut bytes = vec![0; HEAD];
        head.write(&mut bytes);
        let differs = |at: &usize| bytes[*at] != before[*at];
        match ((0..HEAD).find(differs), (0..HEAD).rfind(differs)) {
            (Some(first), Some(last)) => vec![(Buffer::Head, first, bytes[first..=last].to_vec())],
            _ => Vec::new(),
        }
    }

    /// Positions that still sum to the same, perhaps above a cap or above 10^17 units.
    fn moved_position(&mut self) -> Vec<Put> {
        self.head(|random, head| {
            let count = head.accounts.len();
            if count > 0 {
                let (from, to) = (random.below(count), random.below(count));
                let most = *random.of(&[1, 100, 10_i64.pow(17)]);
                let units = i128::from(random.within(0, most));
                let amount = units * UNIT + random.below(UNIT as usize) as i128;
                head.accounts[from].position -= amount;
                head.accounts[to].position += amount;
            }
        })
    }

    /// A cap below the position, at it, or somewhere.
    fn other_cap(&mut self) -> Vec<Put> {
        self.head(|random, head| {
            let count = head.accounts.len();
            if count > 0 {
                let account = &mut head.accounts[random.below(count)];
                let near = account.position.max(0);
                account.cap = *random.of(&[near, (near - 1).max(0), near + 1, 0, near / 2]);
            }
        })
    }

    /// Accounts that change places, a name twice or not in form, one account more or fewer.
    fn accounts(&mut self) -> Vec<Put> {
        self.head(|random, head| {
            let count = head.accounts.len();
            if count == 0 {
                return;
            }
            let (one, other) = (random.below(count), random.below(count));
            match random.below(5) {
                0 => head.accounts.swap(one, other),
                1 => head.accounts[one].name = head.accounts[other].name.clone(),
                2 => head.accounts[one].name = random.of(&[&b""[..], b"a b", b"\0", b"a\x7f", b"\x80", b"new"]).to_vec(),
                3 => drop(head.accounts.pop()),
                _ if count < MOST_ACCOUNTS => head.accounts.push(Account { position: 0, ..head.accounts[one].clone() }),
                _ => (),
            }
        })
    }

    fn clock(&mut self) -> Vec<Put> {
        self.head(|random, head| {
            let any = random.number() as i64;
            head.time = *random.of(&[head.time.wrapping_add(2), head.time.wrapping_sub(2), i64::MIN, i64::MAX, any]);
            if random.one_in(4) {
                head.currency = *random.of(&[*b"XTT", *b"xts", [0; 3]]);
            }
        })
    }

    /// An open record's amount with somebody's position, so that the sum holds.
    fn amount_and_position(&mut self) -> Vec<Put> {
        let slot = self.random.below(self.open.max(1)) * RECORD;
        let record = &self.world.bytes(Buffer::Open)[slot..][..RECORD];
        if record[16] != 2 {
            return Vec::new();
        }
        let units = i64::from_be_bytes(record[24..32].try_into().expect("eight bytes"));
        let more = self.random.within(0, 50);
        let changed = units.wrapping_add(more);
        let mut puts = self.head(|random, head| {
            let count = head.accounts.len().max(1);
            if let Some(account) = head.accounts.get_mut(random.below(count)) {
                account.position += i128::from(more) * UNIT;
            }
        });
        puts.push((Buffer::Open, slot + 24, changed.to_be_bytes().to_vec()));
        puts
    }
}
