//! Checks of the second implementation alone: that its way of judging a form is right, and its calendar.

use crate::random::Random;
use crate::report::{shown, Difference, Group, Report};
use crate::samples::text;
use crate::second::datetime;
use crate::second::expression::Form::{self, Byte, Either, Empty, Nothing, Then, Times};

pub fn run(report: &mut Report) {
    report.group("second itself: how far a text goes on, against all its continuations", continuations);
    report.group("second itself: listing 12, against backtracking", backtracked);
    report.group("second itself: listing 12, against the calendar", calendar);
    report.group("second itself: both ends of every month", months);
}

/// Small forms with all the notation of the listings; each prefix that has a continuation has one of at most
/// three more characters.
const SMALL: [&str; 8] = [
    "^a$",
    "^(?:a|ab)(c|bc)$",
    "^a*b+c?$",
    "^[ab]{2}c$",
    "^(a|b){1,2}[bc]?$",
    "^(?:ab|[a-b]c){0,2}$",
    "^a(b|)c{2}$",
    "^(?:a{1,2}b|aab[a-c]|c)+$",
];

/// A form's verdict on every text of up to five letters, beside the search through all longer ones.
fn continuations(group: &mut Group) -> Result<(), Difference> {
    let all = all_texts(8);
    for expression in SMALL {
        let form = Form::published(expression);
        let language: Vec<&Vec<u8>> = all.iter().filter(|text| matches(&form, text)).collect();
        for text in all.iter().filter(|text| text.len() <= 5) {
            let goes_on = |end: usize| language.iter().any(|longer| longer.starts_with(&text[..end]));
            let expected = match (1..=text.len()).find(|end| !goes_on(*end)) {
                Some(end) => Err(end - 1),
                None if language.contains(&text) => Ok(()),
                None => Err(text.len()),
            };
            group.same(form.judge(text), expected, || format!("{expression} on {}", shown(text)))?;
        }
    }
    Ok(())
}

/// Every text over a, b, c up to the length.
fn all_texts(longest: usize) -> Vec<Vec<u8>> {
    let mut all = vec![Vec::new()];
    let mut last = all.clone();
    for _ in 0..longest {
        last = last.iter().flat_map(|text| b"abc".map(|letter| [&text[..], &[letter]].concat())).collect();
        all.extend(last.iter().cloned());
    }
    all
}

fn matches(form: &Form, text: &[u8]) -> bool {
    ends(form, text, 0).contains(&text.len())
}

/// Where a match of the form that starts here can end: the meaning of an expression, by plain search.
fn ends(form: &Form, text: &[u8], start: usize) -> Vec<usize> {
    match form {
        Nothing => Vec::new(),
        Empty => vec![start],
        Byte(set) => {
            let fits = text.get(start).is_some_and(|byte| set[usize::from(*byte)]);
            fits.then_some(start + 1).into_iter().collect()
        }
        Then(first, second) => ends(first, text, start).into_iter().flat_map(|middle| ends(second, text, middle)).collect(),
        Either(one, other) => [ends(one, text, start), ends(other, text, start)].concat(),
        Times(once, least, most) => {
            let mut reached = vec![start];
            let mut all = if *least == 0 { reached.clone() } else { Vec::new() };
            for count in 1..=most.unwrap_or(text.len() as u32 + 1) {
                reached = reached.into_iter().flat_map(|middle| ends(once, text, middle)).collect();
                reached.sort_unstable();
                reached.dedup();
                if count >= *least {
                    all.extend(&reached);
                }
            }
            all
        }
    }
}

/// In form or not: the derivatives and the search agree on dates and times, most of them nearly right.
fn backtracked(group: &mut Group) -> Result<(), Difference> {
    let mut random = Random::named("backtracked");
    for _ in 0..20_000 {
        let (year, month, day) = (random.within(990, 10_010), random.below(14), random.below(33));
        let (hour, minute, second) = (random.below(26), random.below(62), random.below(62));
        let zone = *random.of(&["Z", "+19:59", "-20:00", "-00:00", "+7:00", ""]);
        let characters = text(&format!("{year:04}-{month:02}-{day:02}T{hour:02}:{minute:02}:{second:02}.001{zone}"));
        let verdict = datetime::FORM.judge(&characters).is_ok();
        group.same(verdict, matches(&datetime::FORM, &characters), || shown(&characters))?;
    }
    Ok(())
}

/// What is left of a form after the characters.
fn after(form: &Form, characters: &str) -> Form {
    characters.bytes().fold(form.clone(), |left, byte| left.after(byte))
}

/// Every day 00 to 39 of every month 00 to 19 of every year: let through exactly if the calendar has it.
fn calendar(group: &mut Group) -> Result<(), Difference> {
    for year in 0..=9999 {
        let in_year = after(&datetime::FORM, &format!("{year:04}-"));
        for month in 0..=19 {
            let in_month = after(&in_year, &format!("{month:02}-"));
            for day in 0..=39 {
                let goes_on = !matches!(after(&in_month, &format!("{day:02}T")), Nothing);
                let exists = year >= 1000 && (1..=12).contains(&month) && day >= 1 && day <= datetime::days_in(year, month);
                group.same(goes_on, exists, || format!("{year:04}-{month:02}-{day:02}"))?;
            }
        }
    }
    Ok(())
}

/// The days are counted one month after the other; the reader and the writer must come to the same count.
fn months(group: &mut Group) -> Result<(), Difference> {
    let mut start = -30_610_224_000_000;
    for (year, month) in (1000..=9999).flat_map(|year| (1..=12).map(move |month| (year, month))) {
        let days = datetime::days_in(year, month) as i64;
        let first = text(&format!("{year:04}-{month:02}-01T00:00:00.000Z"));
        let last = text(&format!("{year:04}-{month:02}-{days:02}T23:59:59.999Z"));
        let end = start + days * 86_400_000 - 1;
        for (characters, instant) in [(first, start), (last, end)] {
            group.same(datetime::read(&characters), Ok(instant), || shown(&characters))?;
            group.same(datetime::write(instant, 24), Ok(characters.clone()), || format!("instant {instant}"))?;
        }
        start = end + 1;
    }
    group.same(start, 253_402_300_800_000, || "the end of the year 9999".to_string())
}
