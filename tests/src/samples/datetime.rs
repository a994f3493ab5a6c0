//! Texts and values of instants.

use super::{texts, Samples};
use crate::random::Random;
use crate::second::datetime;

pub struct DateTime;

impl Samples for DateTime {
    const NAME: &'static str = "datetime";

    fn valid(random: &mut Random) -> Vec<u8> {
        let (year, month) = (random.within(1000, 9999), random.within(1, 12));
        let last = datetime::days_in(i128::from(year), i128::from(month)) as i64;
        let day = if random.one_in(3) { last } else { random.within(1, last) };
        let (hour, minute, second) = (random.below(24), random.below(60), random.below(60));
        let zone = zone(random);
        format!("{year:04}-{month:02}-{day:02}T{hour:02}:{minute:02}:{second:02}.{:03}{zone}", random.below(1000)).into_bytes()
    }

    fn models() -> Vec<Vec<u8>> {
        texts(&[
            "2016-05-24T08:38:08.699Z",
            "2016-05-24T08:38:08.699-04:00",
            "2000-02-29T00:00:00.000+00:00",
            "1999-02-28T23:59:59.999+19:59",
            "1000-01-01T00:00:00.000Z",
            "9999-12-31T23:59:59.999-19:59",
            "2024-11-30T10:20:30.040+11:30",
            "2024-10-31T20:10:00.000-09:15",
        ])
    }

    fn limits() -> Vec<Vec<u8>> {
        let dates = edge_dates().into_iter().map(|date| format!("{date}T12:00:00.000Z"));
        let times = EDGE_TIMES.iter().map(|time| format!("2024-02-29T{time}"));
        let zones = edge_zones().into_iter().map(|zone| format!("2024-02-29T23:59:59.999{zone}"));
        dates.chain(times).chain(zones).map(String::into_bytes).chain(ends()).chain(texts(ODD)).collect()
    }
}

fn zone(random: &mut Random) -> String {
    if random.one_in(2) {
        return "Z".to_string();
    }
    format!("{}{:02}:{:02}", random.of(&["+", "-"]), random.below(20), random.below(60))
}

const EDGE_YEARS: [&str; 30] = [
    "0000", "0004", "0400", "0999", "1000", "1001", "1004", "1096", "1100", "1200", "1582", "1600", "1700", "1752", "1896",
    "1900", "1904", "1969", "1970", "1996", "1999", "2000", "2001", "2023", "2024", "2100", "2400", "9996", "9999", "10000",
];

/// Every month with the days around its ends, in years on both sides of the limits and of the leap rule.
fn edge_dates() -> Vec<String> {
    let days = ["00", "01", "02", "09", "10", "19", "20", "27", "28", "29", "30", "31", "32", "39", "40"];
    let months = (0..=13).flat_map(|month| days.map(|day| format!("{month:02}-{day}")));
    months.flat_map(|rest| EDGE_YEARS.map(|year| format!("{year}-{rest}"))).collect()
}

const EDGE_TIMES: &[&str] = &[
    "00:00:00.000Z",
    "09:59:59.999Z",
    "10:00:00.000Z",
    "19:59:59.999Z",
    "20:00:00.000Z",
    "23:59:59.999Z",
    "24:00:00.000Z",
    "29:00:00.000Z",
    "30:00:00.000Z",
    "12:59:00.000Z",
    "12:60:00.000Z",
    "12:00:59.000Z",
    "12:00:60.000Z",
    "12:00:61.000Z",
    "12:00:00Z",
    "12:00:00.Z",
    "12:00:00.0Z",
    "12:00:00.00Z",
    "12:00:00.0000Z",
    "12:00:00,000Z",
    "12:00:00.000",
    "12:00:00.000z",
    "12:00:00.000ZZ",
    "12:00:00.000Z+00:00",
    "12:00.000Z",
    "120000.000Z",
    "1:00:00.000Z",
    "12:00:00.000 Z",
    "12:00:00.000Z\n",
];

/// Offset hours 00 to 21 and 99, offset minutes on both sides of 59, and zones that are cut.
fn edge_zones() -> Vec<String> {
    let minutes = ["00", "01", "09", "10", "59", "60", "69", "99", "", "0", "000"];
    let hours = (0..=21).chain([99]);
    let pairs = hours.flat_map(|hour| minutes.map(|minute| format!("{hour:02}:{minute}")));
    let short = ["", "0", "00", "0000", "4:00", "04", "04:", ":00"].map(String::from);
    let zones = pairs.chain(short).collect::<Vec<_>>();
    ["+", "-", "", " ", "Z"].iter().flat_map(|sign| zones.iter().map(move |zone| format!("{sign}{zone}"))).collect()
}

/// The first and last instants of the form with the largest offsets: outside the writer's years.
fn ends() -> Vec<Vec<u8>> {
    texts(&[
        "1000-01-01T00:00:00.000+19:59",
        "1000-01-01T00:00:00.000-19:59",
        "1000-01-01T00:00:00.000-00:00",
        "9999-12-31T23:59:59.999+19:59",
        "9999-12-31T23:59:59.999+20:00",
        "9999-12-31T23:59:59.999-20:00",
    ])
}

const ODD: &[&str] = &[
    "",
    "2024",
    "2024-02-29",
    "2024-02-29t12:00:00.000Z",
    "2024-02-29 12:00:00.000Z",
    "20240229T120000.000Z",
    "2024/02/29T12:00:00.000Z",
    "-2024-02-29T12:00:00.000Z",
    "+2024-02-29T12:00:00.000Z",
    "24-02-29T12:00:00.000Z",
    "2024-2-29T12:00:00.000Z",
    "2023-02-29T12:00:00.000Z",
];

/// The ends of 01's row "The writer's ends are ..", the ends of the type, days and years around 1970.
pub fn edge_instants() -> Vec<i64> {
    const DAY: i64 = 86_400_000;
    let middles =
        [-30_610_224_000_000, 253_402_300_799_999, 0, -1, DAY, -DAY, 951_782_400_000, 951_868_800_000, 1 << 32, -(1 << 32)];
    let steps = [-DAY, -1000, -2, -1, 0, 1, 2, 999, 1000, DAY - 1, DAY];
    let near = middles.iter().flat_map(|middle| steps.map(|step| middle + step));
    near.chain([i64::MIN, i64::MIN + 1, i64::MAX - 1, i64::MAX]).collect()
}
