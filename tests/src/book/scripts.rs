//! Histories with their answers written out: 01's example, and both sides of each limit of the rules.

use crate::second::{condition, sha256};
use crate::world::Lengths;

/// A line and its answer as 01's program prints it: number, code, mark, and for time the expired numbers.
pub type Script = Vec<(String, String)>;

/// 01, the worked example.
const EXAMPLE: &str = "
OPEN XTS 2024-01-01T00:00:00.000Z > 0 0 0
JOIN alpha 100 > 0 0 0
JOIN beta 0 > 0 0 0
PREPARE #1 alpha beta XTS 60.5 {A43} 2024-01-01T00:01:00.000Z AQ > 0 0 1
PREPARE #2 alpha beta XTS 40 {A43} 2024-01-01T00:01:00.000Z AQ > 10 4001 0
FULFIL beta #1 {A43} > 14 3100 1
TIME 2024-01-01T00:01:00.000Z > 0 0 1 1
ABORT beta #1 5100 > 7 3303 1
";

/// Caps: 01's row, and the payer's cap just reached and just passed; a payee's position gives room again.
const CAPS: &str = "
OPEN XTS 2024-01-01T00:00:00.000Z > 0 0 0
JOIN a 100000000000000000 > 0 0 0
JOIN b 100000000000000000.0001 > 19 0 0
JOIN b 100000000000000001 > 19 0 0
JOIN a 100000000000000001 > 19 0 0
JOIN a 99999999999999999.9999 > 17 0 0
JOIN b 0.5 > 0 0 0
JOIN c 0 > 0 0 0
PREPARE #1 a b XTS 100000000000000000.0001 {C} 2024-01-01T00:01:00.000Z AQ > 10 4001 0
PREPARE #1 a b XTS 100000000000000000 {C} 2024-01-01T00:01:00.000Z AQ > 0 0 1
PREPARE #2 a b XTS 0.0001 {C} 2024-01-01T00:01:00.000Z AQ > 10 4001 0
PREPARE #2 a b XTS 0 {C} 2024-01-01T00:01:00.000Z AQ > 0 0 2
PREPARE #3 b c XTS 0.5001 {C} 2024-01-01T00:01:00.000Z AQ > 10 4001 0
PREPARE #3 c b XTS 0.0001 {C} 2024-01-01T00:01:00.000Z AQ > 10 4001 0
FULFIL b #1 {S} > 0 0 1
PREPARE #3 b c XTS 100000000000000000.5001 {C} 2024-01-01T00:01:00.000Z AQ > 10 4001 0
PREPARE #3 b c XTS 100000000000000000.5 {C} 2024-01-01T00:01:00.000Z AQ > 0 0 3
ABORT c #3 5100 > 0 0 3
PREPARE #4 b c XTS 100000000000000000.5 {C} 2024-01-01T00:01:00.000Z AQ > 0 0 4
";

/// The order of the checks, from 1 to 10, and a resend under other texts of the same values.
const ORDER: &str = "
OPEN XTS 2024-01-01T00:00:00.000Z > 0 0 0
JOIN a 10 > 0 0 0
JOIN b 10 > 0 0 0
PREPARE #1 q q XTT 99 {C} 2023-01-01T00:01:00.000Z = > 1 3101 0
PREPARE #1 q q XTT 99 {C} 2023-01-01T00:01:00.000Z AQ > 2 3202 0
PREPARE #1 a q XTT 99 {C} 2023-01-01T00:01:00.000Z AQ > 3 3203 0
PREPARE #1 a a XTT 99 {C} 2023-01-01T00:01:00.000Z AQ > 4 3100 0
PREPARE #1 a b XTT 99 {C} 2023-01-01T00:01:00.000Z AQ > 5 3100 0
PREPARE #1 a b XTS 99 {C} 2023-01-01T00:01:00.000Z AQ > 7 3303 0
PREPARE #1 a b XTS 99 {C} 2024-01-01T00:00:00.000Z AQ > 7 3303 0
PREPARE #1 a b XTS 99 {C} 2024-01-01T00:00:00.001Z AQ > 10 4001 0
PREPARE #1 a b XTS 5 {C} 2024-01-01T00:00:00.001Z AQ > 0 0 1
PREPARE #1 a b XTS 5 {C} 2024-01-01T00:00:00.001Z AQ > 24 0 1
PREPARE #1 a b XTS 5 {C} 2024-01-01T00:00:00.001+00:00 AQ > 24 0 1
PREPARE #1 a b XTS 5 {C} 2024-01-01T00:00:00.001-00:00 AQ > 24 0 1
PREPARE #1 a b XTS 5 {C'} 2024-01-01T05:30:00.001+05:30 AQ > 24 0 1
PREPARE #1 a b XTS 5 {C} 2024-01-01T00:00:00.002Z AQ > 6 3106 1
PREPARE #1 a b XTS 5.0001 {C} 2024-01-01T00:00:00.001Z AQ > 6 3106 1
PREPARE #1 a b XTS 5 {A43} 2024-01-01T00:00:00.001Z AQ > 6 3106 1
PREPARE #1 a b XTS 5 {C} 2024-01-01T00:00:00.001Z AQ= > 6 3106 1
PREPARE #1 b a XTS 5 {C} 2024-01-01T00:00:00.001Z AQ > 6 3106 1
PREPARE #1 a b XTT 5 {C} 2024-01-01T00:00:00.001Z AQ > 5 3100 1
PREPARE #1 q b XTS 5 {C} 2024-01-01T00:00:00.001Z AQ > 2 3202 1
PREPARE #1 a q XTS 5 {C} 2024-01-01T00:00:00.001Z AQ > 3 3203 1
PREPARE #1 a a XTS 5 {C} 2024-01-01T00:00:00.001Z AQ > 4 3100 1
PREPARE #1 a b XTS 05 {C} 2024-01-01T00:00:00.001Z AQ > 1 3101 0
LOOKUP #1 > 0 0 1
LOOKUP #2 > 11 3208 0
LOOKUP 1 > 1 3101 0
";

/// Fulfil and abort in every state, by the payee and by others.
const ENDINGS: &str = "
OPEN XTS 2024-01-01T00:00:00.000Z > 0 0 0
JOIN a 10 > 0 0 0
JOIN b 10 > 0 0 0
PREPARE #1 a b XTS 1 {C} 2024-01-01T00:01:00.000Z AQ > 0 0 1
PREPARE #2 a b XTS 2 {C} 2024-01-01T00:01:00.000Z AQ > 0 0 2
PREPARE #3 a b XTS 3 {C} 2024-01-01T00:01:00.000Z AQ > 0 0 3
FULFIL b #9 {S} > 11 3208 0
FULFIL a #1 {S} > 12 3100 1
FULFIL q #1 {A43} > 12 3100 1
FULFIL b #1 {A43} > 14 3100 1
FULFIL b #1 {S} > 0 0 1
FULFIL b #1 {S} > 24 0 1
FULFIL b #1 {S'} > 24 0 1
FULFIL b #1 {A43} > 6 3106 1
FULFIL a #1 {S} > 12 3100 1
ABORT b #1 5100 > 13 3100 1
ABORT b #9 5100 > 11 3208 0
ABORT a #2 5100 > 12 3100 2
ABORT b #2 0510 > 1 3101 0
ABORT b #2 3303 > 0 0 2
ABORT b #2 3303 > 24 0 2
ABORT b #2 3304 > 6 3106 2
FULFIL b #2 {S} > 13 3100 2
FULFIL b #2 {A43} > 13 3100 2
TIME 2023-12-31T23:59:59.999Z > 15 0 0
TIME 2024-01-01T00:00:00.000Z > 0 0 0
TIME 2024-01-01T00:00:59.999Z > 0 0 0
TIME 2024-01-01T00:01:00.000Z > 0 0 1 3
TIME 2024-01-01T00:01:00.000Z > 0 0 0
TIME 2024-01-01T00:00:59.999Z > 15 0 0
TIME 2024-01-01T00:01:00 > 1 3101 0
FULFIL b #3 {S} > 7 3303 3
ABORT b #3 5100 > 7 3303 3
PREPARE #3 a b XTS 3 {C} 2024-01-01T00:01:00.000Z AQ > 24 0 3
PREPARE #2 a b XTS 2 {C} 2024-01-01T00:01:00.000Z AQ > 24 0 2
PREPARE #1 a b XTS 1 {C} 2024-01-01T00:01:00.000Z AQ > 24 0 1
PREPARE #1 a b XTS 2 {C} 2024-01-01T00:01:00.000Z AQ > 6 3106 1
PREPARE #4 a b XTS 9.0001 {C} 2024-01-01T00:01:00.001Z AQ > 10 4001 0
PREPARE #4 a b XTS 9 {C} 2024-01-01T00:01:00.001Z AQ > 0 0 4
PREPARE #5 b a XTS 11.0001 {C} 2024-01-01T00:01:00.001Z AQ > 10 4001 0
OPEN XTT 2023-01-01T00:00:00.000Z > 0 0 0
LOOKUP #4 > 11 3208 0
PREPARE #4 a b XTT 9 {C} 2024-01-01T00:01:00.001Z AQ > 2 3202 0
OPEN XTT 2023-01-01T00:00:00 > 1 3101 0
JOIN a 10 > 0 0 0
";

/// Books with two open slots and three finished places: 8 before 9, and 9 for an empty slot.
const SMALL: &str = "
OPEN XTS 2024-01-01T00:00:00.000Z > 0 0 0
JOIN a 1 > 0 0 0
JOIN b 1 > 0 0 0
PREPARE #1 a b XTS 0 {C} 2024-01-01T00:00:02.000Z AQ > 0 0 1
PREPARE #2 a b XTS 0 {C} 2024-01-01T00:00:03.000Z AQ > 0 0 2
PREPARE #3 a b XTS 9 {C} 2024-01-01T00:00:03.000Z AQ > 8 2005 0
FULFIL b #1 {S} > 0 0 1
PREPARE #3 a b XTS 9 {C} 2024-01-01T00:00:03.000Z AQ > 10 4001 0
PREPARE #3 a b XTS 1 {C} 2024-01-01T00:00:03.000Z AQ > 0 0 3
PREPARE #4 a b XTS 9 {C} 2024-01-01T00:00:03.000Z AQ > 8 2005 0
ABORT b #2 5100 > 0 0 2
PREPARE #4 a b XTS 9 {C} 2024-01-01T00:00:03.000Z AQ > 9 2003 0
PREPARE #4 a b XTS 9 {C} 2024-01-01T00:00:00.000Z AQ > 7 3303 0
TIME 2024-01-01T00:00:03.000Z > 0 0 1 3
PREPARE #4 a b XTS 0 {C} 2024-01-01T00:00:04.000Z AQ > 9 2003 0
PREPARE #3 a b XTS 1 {C} 2024-01-01T00:00:03.000Z AQ > 24 0 3
";

/// Each with its name and its books: those of 01's program have 64 open and 100 finished places.
pub fn all() -> [(&'static str, Script, Lengths); 5] {
    [
        ("01's example", EXAMPLE, (64, 100)),
        ("caps", CAPS, (64, 100)),
        ("the order of the checks", ORDER, (64, 100)),
        ("endings", ENDINGS, (64, 100)),
        ("full books", SMALL, (2, 3)),
    ]
    .map(|(name, text, (open, finished))| (name, script(text), Lengths::places(open, finished)))
}

/// Lines with their short forms written out: ids, the secret and its condition, each also by its last text.
pub fn script(text: &str) -> Script {
    let secret = [7; 32];
    let text_of = |bytes: &[u8]| String::from_utf8(condition::write(bytes, 43).expect("32 bytes")).expect("letters");
    let (condition, fulfilment) = (text_of(&sha256::hash(&secret)), text_of(&secret));
    let long = text
        .replace('#', "00000000-0000-4000-8000-00000000000")
        .replace("{A43}", &"A".repeat(43))
        .replace("{C'}", &last_text(&condition))
        .replace("{C}", &condition)
        .replace("{S'}", &last_text(&fulfilment))
        .replace("{S}", &fulfilment);
    let lines = long.lines().filter_map(|line| line.split_once(" > "));
    lines.map(|(line, answer)| (line.to_string(), answer.to_string())).collect()
}

/// The same 32 bytes with the two low bits of the last character set.
fn last_text(text: &str) -> String {
    let (start, last) = text.split_at(42);
    let at = condition::ALPHABET.iter().position(|letter| last.as_bytes() == [*letter]).expect("a letter of the alphabet");
    format!("{start}{}", char::from(condition::ALPHABET[at + 3]))
}
