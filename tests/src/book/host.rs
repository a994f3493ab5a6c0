//! A host that calls at random: few names, ids and secrets, so that its calls meet each other, and values at
//! the limits of the book as it stands.

use crate::mutate::damaged;
use crate::random::Random;
use crate::samples::id::Id;
use crate::samples::Samples;
use crate::second::book::{Head, MOST_AMOUNT, MOST_CAP, RECORD, UNIT};
use crate::second::{condition, datetime, id, sha256};
use crate::texts::{amount_text, condition_text, instant_text};
use crate::world::{Buffer, Call, Kind, Lengths, Outcome, World};

/// What kind of host it is.
#[derive(Clone, Copy)]
pub struct Plan {
    pub open: usize,
    pub finished: usize,
    pub names: usize,
    pub ids: usize,
    /// Sometimes lends other lengths than were noted at opening.
    pub careless: bool,
}

/// Names that are parts of others, that differ in the last byte or in case, and of the greatest length.
fn all_names() -> Vec<Vec<u8>> {
    let long = |end: &str| format!("{}{end}", "x".repeat(31)).into_bytes();
    let short = ["a", "ab", "abc", "abd", "A", "bank", "Bank", "!", "~"].map(|name| name.as_bytes().to_vec());
    let crowd = (0..26).map(|number| format!("fsp{number}").into_bytes());
    [long(""), long("x"), long("y")].into_iter().chain(short).chain(crowd).collect()
}

const CURRENCY: &[u8] = b"XTS";

/// Where a history may start: both sides of 1970, a leap day, and the ends of the form.
const STARTS: [i64; 8] =
    [1_704_067_200_000, 0, -5, -1_000, 951_782_399_990, 253_402_300_799_990, 253_402_372_739_950, -30_610_295_939_995];

pub struct Host {
    pub random: Random,
    plan: Plan,
    names: Vec<Vec<u8>>,
    ids: Vec<Vec<u8>>,
    secrets: Vec<[u8; 32]>,
    packets: Vec<Vec<u8>>,
    /// The last prepare under each id, of which an accepted one is kept.
    sent: Vec<Option<Call>>,
    /// What it lends unless it is careless: the books as noted at opening.
    pub lengths: Lengths,
    room: Lengths,
    last: u32,
}

impl Host {
    pub fn new(mut random: Random, plan: Plan) -> Host {
        let mut names = all_names();
        (1..names.len()).for_each(|at| names.swap(at, random.below(at + 1)));
        names.truncate(plan.names + 2);
        let lengths = Lengths::places(plan.open, plan.finished);
        let secrets = (0..4).map(|_| random.bytes(32).try_into().expect("32 bytes")).collect();
        let mut packets = [&b"AQ"[..], b"AQ=", b"AQ==", b"A"].map(<[u8]>::to_vec).to_vec();
        let length = 1 + random.below(200);
        packets.push(random.text(condition::ALPHABET, length));
        Host {
            plan,
            names,
            ids: few_ids(&mut random, plan.ids),
            secrets,
            packets,
            sent: vec![None; plan.ids],
            lengths,
            room: Lengths { list: lengths.list + 8, ..lengths },
            last: 0,
            random,
        }
    }

    /// The buffers that it needs.
    pub fn room(&self) -> Lengths {
        self.room
    }

    /// All ids that its calls speak of, but for texts out of form.
    pub fn ids(&self) -> &[Vec<u8>] {
        &self.ids
    }

    /// The first call of a history.
    pub fn first(&mut self) -> Call {
        let start = *self.random.of(&STARTS);
        Call::new(Kind::Open, &[CURRENCY, &instant_text(&mut self.random, start)])
    }

    /// The next call and what is lent to it.
    pub fn next(&mut self, world: &World) -> (Lengths, Call) {
        let head = Head::read(&world.bytes(Buffer::Head)[..self.lengths.head.min(world.room(Buffer::Head))]);
        let kind = self.kind(head.as_ref());
        let mut lengths = self.lent(kind);
        let mut call = self.call(kind, head.as_ref(), world);
        if self.random.one_in(25) {
            self.out_of_form(&mut call);
        }
        if self.plan.careless && self.random.one_in(30) {
            self.other_length(&mut lengths);
        }
        (lengths, call)
    }

    /// What is remembered of a call after its outcome.
    pub fn learn(&mut self, lengths: &Lengths, call: &Call, outcome: &Outcome) {
        self.last = outcome.answer.number;
        let accepted = self.last == 0;
        if call.kind == Kind::Open && accepted {
            self.lengths = Lengths { list: self.lengths.list, ..*lengths };
            self.sent.fill(None);
        }
        let known = self.ids.iter().position(|id| Some(id) == call.fields.first());
        if let (Kind::Prepare, Some(at)) = (call.kind, known) {
            if accepted || self.sent[at].is_none() {
                self.sent[at] = Some(call.clone());
            }
        }
    }

    /// The state that was kept is back, with the lengths of its books.
    pub fn restored(&mut self, lengths: Lengths) {
        self.lengths = lengths;
        self.last = 0;
    }

    fn kind(&mut self, head: Option<&Head>) -> Kind {
        let accounts = head.map_or(0, |head| head.accounts.len());
        let is_done = head.is_none_or(|head| head.finished >= head.finished_places) || self.last == 21;
        if is_done && self.random.one_in(12) {
            return Kind::Open;
        }
        if accounts < self.plan.names && self.random.one_in(2) {
            return Kind::Join;
        }
        match self.random.below(100) {
            0 => Kind::Open,
            1..=5 => Kind::Join,
            6..=48 => Kind::Prepare,
            49..=67 => Kind::Fulfil,
            68..=80 => Kind::Abort,
            81..=93 => Kind::Time,
            _ => Kind::Lookup,
        }
    }

    fn call(&mut self, kind: Kind, head: Option<&Head>, world: &World) -> Call {
        let now = head.map_or(0, |head| head.time);
        match kind {
            Kind::Open if self.random.one_in(2) => self.first(),
            Kind::Open => Call::new(kind, &[CURRENCY, &instant_text(&mut self.random, now)]),
            Kind::Join => self.join(head),
            Kind::Prepare => self.prepare(head),
            Kind::Fulfil => self.fulfil(head, world),
            Kind::Abort => {
                let (sender, id, _) = self.held(head, world);
                Call::new(kind, &[&sender, &id, *self.random.of(&[&b"5100"[..], b"5100", b"5101", b"3303", b"1000", b"9999"])])
            }
            Kind::Time => {
                let step = *self.random.of(&[-1, -1, 0, 0, 1, 1, 1, 2, 3, 5, 30]);
                Call::new(kind, &[&instant_text(&mut self.random, now.saturating_add(step))])
            }
            Kind::Lookup => Call { kind, fields: vec![self.random.of(&self.ids).clone()] },
        }
    }

    /// Mostly a name that has an account.
    fn name(&mut self, head: Option<&Head>) -> Vec<u8> {
        match head {
            Some(head) if !head.accounts.is_empty() && !self.random.one_in(12) => self.random.of(&head.accounts).name.clone(),
            _ => self.random.of(&self.names).clone(),
        }
    }

    /// Mostly a name that has no account yet.
    fn join(&mut self, head: Option<&Head>) -> Call {
        let is_new = |name: &&Vec<u8>| head.is_some_and(|head| head.account(name).is_none());
        let mut name = self.random.of(&self.names);
        if !self.random.one_in(4) {
            name = self.names.iter().find(is_new).unwrap_or(name);
        }
        let name = name.clone();
        Call::new(Kind::Join, &[&name, &amount_text(self.cap())])
    }

    fn cap(&mut self) -> i128 {
        let small = i128::from(self.random.within(0, 120 * UNIT as i64));
        let too_high = *self.random.of(&[MOST_CAP + 1, MOST_CAP + UNIT, MOST_AMOUNT]);
        *self.random.of(&[0, 1, 100 * UNIT, small, small, small, small, small, MOST_CAP, MOST_CAP, MOST_CAP - 1, too_high])
    }

    /// A new order, or one that was sent before: in other texts, and perhaps with one other value.
    fn prepare(&mut self, head: Option<&Head>) -> Call {
        let at = self.random.below(self.ids.len());
        if let Some(earlier) = self.sent[at].clone() {
            if self.random.one_in(2) {
                return self.resent(earlier, head);
            }
        }
        let now = head.map_or(0, |head| head.time);
        let (payer, mut payee) = (self.name(head), self.name(head));
        for _ in 0..3 {
            if payee == payer {
                payee = self.name(head);
            }
        }
        let currency = if self.random.one_in(30) { b"XTT" } else { CURRENCY };
        let amount = amount_text(self.amount(head, &payer));
        let condition = self.condition();
        let step = *self.random.of(&[-1, 0, 1, 1, 1, 2, 2, 3, 5, 8, 20, 1000]);
        let expiration = instant_text(&mut self.random, now.saturating_add(step));
        let packet = self.packet();
        Call::new(Kind::Prepare, &[&self.ids[at], &payer, &payee, currency, &amount, &condition, &expiration, &packet])
    }

    fn condition(&mut self) -> Vec<u8> {
        let secret = *self.random.of(&self.secrets);
        condition_text(&mut self.random, &sha256::hash(&secret))
    }

    /// Rarely the longest packet: it takes the second implementation a while.
    fn packet(&mut self) -> Vec<u8> {
        if self.random.one_in(2000) {
            return vec![b'Q'; 32_768];
        }
        self.random.of(&self.packets).clone()
    }

    /// Often what the payer's cap just allows, or one ten-thousandth beside it.
    fn amount(&mut self, head: Option<&Head>, payer: &[u8]) -> i128 {
        let account = head.and_then(|head| head.accounts.iter().find(|account| account.name == payer));
        let left = account.map_or(0, |account| account.cap - account.position).clamp(0, MOST_AMOUNT);
        let small = i128::from(self.random.within(0, 40 * UNIT as i64));
        match self.random.below(16) {
            0 | 1 => 0,
            2 => 1,
            3 | 4 => left,
            5 | 6 => left + 1,
            7 => left - 1,
            8 => left / 2,
            9 => *self.random.of(&[MOST_AMOUNT, MOST_CAP, MOST_CAP + 1]),
            _ => small,
        }
    }

    /// The same values in other texts; one value is another in half of the cases.
    fn resent(&mut self, mut call: Call, head: Option<&Head>) -> Call {
        if let Some(bytes) = bytes_of(&call.fields[5]) {
            call.fields[5] = condition_text(&mut self.random, &bytes);
        }
        let instant = datetime::read(&call.fields[6]).unwrap_or(0);
        call.fields[6] = instant_text(&mut self.random, instant);
        match self.random.below(14) {
            0 => call.fields.swap(1, 2),
            1 => call.fields[1] = self.name(head),
            2 => call.fields[2] = self.name(head),
            3 => call.fields[3] = b"XTT".to_vec(),
            4 => call.fields[4] = amount_text(i128::from(self.random.within(0, 40 * UNIT as i64))),
            5 => call.fields[5] = self.condition(),
            6 => call.fields[6] = instant_text(&mut self.random, instant.saturating_add(1)),
            7 => call.fields[7] = self.packet(),
            _ => (),
        }
        call
    }

    /// Mostly the payee of a prepare that was sent, its id, and the condition's text.
    fn held(&mut self, head: Option<&Head>, world: &World) -> (Vec<u8>, Vec<u8>, Vec<u8>) {
        let any = self.random.below(self.ids.len());
        let at = self.in_a_book(world).unwrap_or(any);
        let (mut sender, mut condition) = (self.name(head), Vec::new());
        if let Some(sent) = &self.sent[at] {
            condition = sent.fields[5].clone();
            if !self.random.one_in(8) {
                sender = sent.fields[2].clone();
            }
        }
        (sender, self.ids[at].clone(), condition)
    }

    /// Which of the ids stands in some record, three times of four in an open one.
    fn in_a_book(&mut self, world: &World) -> Option<usize> {
        let buffer = if self.random.one_in(4) { Buffer::Finished } else { Buffer::Open };
        let places = self.lengths.of(buffer).min(self.room.of(buffer)) / RECORD;
        let records = world.bytes(buffer)[..places * RECORD].chunks(RECORD);
        let taken: Vec<&[u8]> = records.filter(|record| record[16] != 0).take(100).collect();
        if taken.is_empty() || self.random.one_in(6) {
            return None;
        }
        let text = id::write(&self.random.of(&taken)[..16], 36).ok()?;
        self.ids.iter().position(|id| *id == text)
    }

    /// Mostly with the secret behind the condition.
    fn fulfil(&mut self, head: Option<&Head>, world: &World) -> Call {
        let (sender, id, condition) = self.held(head, world);
        let right = bytes_of(&condition).and_then(|hash| self.secrets.iter().find(|secret| sha256::hash(*secret) == hash));
        let mut secret = *right.unwrap_or(&self.secrets[0]);
        match self.random.below(6) {
            0 => secret = *self.random.of(&self.secrets),
            1 => secret[self.random.below(32)] ^= 1 << self.random.below(8),
            _ => (),
        }
        Call::new(Kind::Fulfil, &[&sender, &id, &condition_text(&mut self.random, &secret)])
    }

    /// The lengths as noted; a list that is often too short; at open sometimes other books.
    fn lent(&mut self, kind: Kind) -> Lengths {
        let mut lengths = self.lengths;
        if kind == Kind::Time {
            let most = if self.random.one_in(2) { self.room.list } else { 16.min(self.room.list) };
            lengths.list = if self.random.one_in(2) { self.room.list } else { self.random.below(most + 1) };
        }
        if kind == Kind::Open && self.random.one_in(2) {
            lengths.open = RECORD * (1 + self.random.below(self.room.open / RECORD));
            lengths.finished = RECORD * (1 + self.random.below(self.room.finished / RECORD));
        }
        lengths
    }

    fn out_of_form(&mut self, call: &mut Call) {
        let at = self.random.below(call.fields.len());
        call.fields[at] = match self.random.below(4) {
            0 => Vec::new(),
            1 => self.random.of(&call.fields).clone(),
            _ => damaged(&mut self.random, call.fields[at].clone()),
        };
    }

    /// One of the lengths is another: none, a byte or a record more or less, or anything there is room for.
    fn other_length(&mut self, lengths: &mut Lengths) {
        let buffer = *self.random.of(&[Buffer::Head, Buffer::Open, Buffer::Finished]);
        let (length, room) = (lengths.of(buffer), self.room.of(buffer));
        let other = match self.random.below(7) {
            0 => 0,
            1 => length + 1,
            2 => length.saturating_sub(1),
            3 => length + RECORD,
            4 => length.saturating_sub(RECORD),
            5 => RECORD / 2,
            _ => self.random.below(room + 1),
        };
        lengths.set(buffer, if other > room + 1 { 1 } else { other });
    }
}

/// Ids in form, of which some differ in one byte only: the first, the last, or one in the middle.
fn few_ids(random: &mut Random, count: usize) -> Vec<Vec<u8>> {
    let first = Id::valid(random);
    let with = |at: usize, digit: u8| {
        let mut id = first.clone();
        id[at] = digit;
        id
    };
    let mut ids = vec![first.clone(), with(35, b'0'), with(35, b'1'), with(0, b'7'), with(20, b'c')];
    ids.dedup();
    ids.resize_with(count.max(ids.len()), || Id::valid(random));
    ids.truncate(count);
    ids
}

fn bytes_of(condition: &[u8]) -> Option<[u8; 32]> {
    condition::read(condition).ok()?.try_into().ok()
}
