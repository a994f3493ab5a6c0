//! A history: one host's steps, taken with both implementations at once, and compared after each; if wanted, with the recount
//! of its calls as well.

use crate::face;
use crate::recounted::Recounted;
use crate::report::{Difference, Group};
use crate::scripts::Script;
use crate::second_itself::printed;
use crate::tally::Tally;
use crate::world::{second, Buffer, Call, Lengths, Outcome, World};
use std::fmt;
use std::time::{Duration, Instant};

#[derive(Clone)]
pub enum Step {
    Call(Lengths, Call),
    /// The host itself changes bytes that it will lend: a damaged book or head.
    Put(Buffer, usize, Vec<u8>),
}

impl fmt::Display for Step {
    fn fmt(&self, f: &mut fmt::Formatter) -> fmt::Result {
        match self {
            Step::Put(buffer, at, bytes) if bytes.len() <= 200 => write!(f, "put {buffer:?} from byte {at}: {bytes:02x?}"),
            Step::Put(buffer, at, bytes) => write!(f, "put {buffer:?} from byte {at}: {} bytes", bytes.len()),
            Step::Call(lengths, call) => {
                let Lengths { head, open, finished, list } = lengths;
                write!(f, "{call}  [lent {head}, {open}, {finished}, list {list}]")
            }
        }
    }
}

/// The same buffers twice: what the library made of them, and what the second implementation did. The recount has none.
struct Sides {
    library: World,
    second: World,
    recounted: Option<Recounted>,
}

impl Sides {
    fn two(room: &Lengths) -> Sides {
        Sides { library: World::new(room), second: World::new(room), recounted: None }
    }

    fn three(room: &Lengths) -> Sides {
        Sides { recounted: Some(Recounted::default()), ..Sides::two(room) }
    }

    /// Number, code, mark, place, head, both books and the list must be the same, and the bytes around them.
    fn step(&mut self, step: &Step) -> Result<Option<Outcome>, Difference> {
        match step {
            Step::Put(buffer, at, bytes) => {
                self.library.put(*buffer, *at, bytes);
                self.second.put(*buffer, *at, bytes);
                Ok(None)
            }
            Step::Call(lengths, call) => {
                let ours = face::call(self.library.lend(lengths), call);
                let expected = second(self.second.lend(lengths), call);
                if ours != expected {
                    return Err(format!("{ours:?}, expected {expected:?}"));
                }
                if let Some(difference) = self.library.difference(&self.second) {
                    return Err(format!("{difference} after {:?}", expected.answer));
                }
                if let Some(recounted) = &mut self.recounted {
                    recounted.step(lengths, call, &ours, &self.library)?;
                }
                Ok(Some(expected))
            }
        }
    }
}

/// Steps up to here and, if a state is kept, how many they were then.
pub struct History {
    room: Lengths,
    fresh: fn(&Lengths) -> Sides,
    sides: Sides,
    steps: Vec<Step>,
    kept: Option<(World, usize)>,
}

impl History {
    pub fn new(room: Lengths) -> History {
        History::of(room, Sides::two)
    }

    /// With the recount as well; of such a history no state is kept and no byte put.
    pub fn recounted(room: Lengths) -> History {
        History::of(room, Sides::three)
    }

    fn of(room: Lengths, fresh: fn(&Lengths) -> Sides) -> History {
        History { room, fresh, sides: fresh(&room), steps: Vec::new(), kept: None }
    }

    /// The buffers as they stand.
    pub fn world(&self) -> &World {
        &self.sides.second
    }

    /// A call with both implementations.
    pub fn call(&mut self, group: &mut Group, tally: &mut Tally, lengths: Lengths, call: Call) -> Result<Outcome, Difference> {
        let kind = call.kind;
        let outcome = self.step(Step::Call(lengths, call))?.expect("a call gives an outcome");
        group.count();
        tally.count(kind, outcome.answer.number);
        Ok(outcome)
    }

    /// Lines with their answers written out.
    pub fn script(&mut self, group: &mut Group, tally: &mut Tally, lines: &Script) -> Result<(), Difference> {
        lines.iter().try_for_each(|(line, expected)| {
            let call = Call::line(line);
            let outcome = self.call(group, tally, self.room, call.clone())?;
            group.same(&printed(&call, self.world(), outcome.answer), expected, || line.clone())
        })
    }

    pub fn put(&mut self, buffer: Buffer, at: usize, bytes: &[u8]) {
        let put = self.step(Step::Put(buffer, at, bytes.to_vec()));
        assert!(put.is_ok(), "both sides take the same bytes");
    }

    fn step(&mut self, step: Step) -> Result<Option<Outcome>, Difference> {
        self.steps.push(step);
        let taken = self.sides.step(&self.steps[self.steps.len() - 1]);
        taken.map_err(|difference| self.told(&difference))
    }

    /// Keeps the state, to come back to it by `restore`.
    pub fn keep(&mut self) {
        self.kept = Some((self.sides.second.clone(), self.steps.len()));
    }

    /// Back to the state that was kept; the steps since then are forgotten.
    pub fn restore(&mut self) {
        if let Some((world, steps)) = &self.kept {
            self.sides.library.copy_from(world);
            self.sides.second.copy_from(world);
            self.steps.truncate(*steps);
        }
    }

    /// The difference with a short history that shows one.
    fn told(&self, difference: &str) -> Difference {
        let short = shortened(&|| (self.fresh)(&self.room), self.steps.clone());
        let (steps, difference) = short.unwrap_or((self.steps.clone(), format!("not seen again: {difference}")));
        let lines: String = steps.iter().map(|step| format!("\n    {step}")).collect();
        format!("after {} steps:{lines}\n    {difference}", steps.len())
    }
}

/// A run from fresh buffers: the step and the difference at which it stops, if any.
fn replayed(fresh: &impl Fn() -> Sides, steps: &[Step]) -> Option<(usize, Difference)> {
    let mut sides = fresh();
    steps.iter().enumerate().find_map(|(at, step)| Some((at, sides.step(step).err()?)))
}

/// Drops parts of the history, long ones first, as long as what is left shows a difference; not for ever.
fn shortened(fresh: &impl Fn() -> Sides, mut steps: Vec<Step>) -> Option<(Vec<Step>, Difference)> {
    let until = Instant::now() + Duration::from_secs(15);
    let (last, mut difference) = replayed(fresh, &steps)?;
    steps.truncate(last + 1);
    let mut part = steps.len() / 2;
    while part > 0 {
        let mut start = 0;
        while start + part < steps.len() && Instant::now() < until {
            let tried: Vec<Step> = [&steps[..start], &steps[start + part..]].concat();
            match replayed(fresh, &tried) {
                Some((last, found)) => {
                    steps = tried[..=last].to_vec();
                    difference = found;
                }
                None => start += part,
            }
        }
        part /= 2;
    }
    Some((steps, difference))
}
