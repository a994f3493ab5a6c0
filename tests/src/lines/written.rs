//! Inputs with their answers written out: 01's example, and what 01 says of a line's build.

use crate::program::{self, MOST};
use crate::proved;
use crate::report::{shown, Difference, Group, Report};

const OPEN: &str = "OPEN XTS 2024-01-01T00:00:00.000Z\n";
const ID: &str = "00000000-0000-4000-8000-000000000001";
const LATER: &str = "2024-01-01T00:01:00.000Z";

/// 01: "{A43} stands for forty-three letters A."
fn letters() -> String {
    "A".repeat(43)
}

fn prepare(packet: &str) -> String {
    format!("PREPARE {ID} alpha beta XTS 60.5 {} {LATER} {packet}\n", letters())
}

/// A line of so many bytes with its newline, built of a word and `fields` fields.
fn long(word: &str, fields: usize, bytes: usize) -> String {
    let front = format!("{word} {}", "f ".repeat(fields - 1));
    format!("{front}{}\n", "A".repeat(bytes - 1 - front.len()))
}

/// A name, the input, and what is printed; `/` stands for the newline of an answer.
fn cases() -> Vec<(&'static str, String, String)> {
    let opened = |rest: &str| format!("{OPEN}{rest}");
    let (full, members) = (prepare(&"A".repeat(32_768)), "JOIN alpha 100\nJOIN beta 0\n");
    let thirds = |answer: &str| format!("0 0 0/0 0 0/0 0 0/{answer}");
    vec![
        ("an empty line", opened("\n"), "0 0 0/1 3101 0/".into()),
        ("an empty line first", "\n".into(), "1 3101 0/".into()),
        ("lines of spaces", " \n  \n".into(), "1 3101 0/1 3101 0/".into()),
        ("no line at all", "".into(), "".into()),
        ("a call without newline", OPEN.trim_end().into(), "1 3101 0/".into()),
        ("a call without newline is not carried out", opened("JOIN alpha 1\nJOIN alpha 1"), "0 0 0/0 0 0/1 3101 0/".into()),
        ("one byte without newline", opened("J"), "0 0 0/1 3101 0/".into()),
        ("nothing after the last newline", opened("JOIN alpha 1\n"), "0 0 0/0 0 0/".into()),
        ("32,999 bytes before an OPEN", long("JOIN", 2, MOST - 1), "21 2001 0/".into()),
        ("33,000 bytes before an OPEN", long("JOIN", 2, MOST), "21 2001 0/".into()),
        ("33,001 bytes before an OPEN", long("JOIN", 2, MOST + 1), "1 3101 0/".into()),
        ("33,000 bytes after an OPEN", opened(&long("JOIN", 2, MOST)), "0 0 0/1 3101 0/".into()),
        ("33,001 bytes after an OPEN", opened(&long("JOIN", 2, MOST + 1)), "0 0 0/1 3101 0/".into()),
        ("33,000 bytes without newline", long("JOIN", 2, MOST + 1).trim_end().into(), "1 3101 0/".into()),
        ("32,999 bytes without newline", long("JOIN", 2, MOST).trim_end().into(), "1 3101 0/".into()),
        ("33,001 bytes without newline", long("JOIN", 2, MOST + 2).trim_end().into(), "1 3101 0/".into()),
        ("the longest packet", opened(&format!("{members}{full}")), thirds("0 0 1/")),
        ("a packet one too long", opened(&format!("{members}{}", prepare(&"A".repeat(32_769)))), thirds("1 3101 0/")),
        (
            "a long line is one line",
            opened(&format!("{}JOIN alpha 1\n", long("JOIN", 2, 70_000))),
            "0 0 0/1 3101 0/0 0 0/".into(),
        ),
        ("a call in the rest of a long line", format!("{}{OPEN}", long("JOIN", 2, MOST + 50)), "1 3101 0/0 0 0/".into()),
        ("a call behind 33,000 bytes of a line", format!("{} {OPEN}", "A".repeat(MOST)), "1 3101 0/".into()),
        ("three long lines", long("JOIN", 2, 2 * MOST).repeat(3), "1 3101 0/".repeat(3)),
        ("an unknown word", opened("JOINT alpha 1\n"), "0 0 0/1 3101 0/".into()),
        ("an unknown word before an OPEN", "JOINT alpha 1\n".into(), "1 3101 0/".into()),
        ("lower case", "open XTS 2024-01-01T00:00:00.000Z\nJoin a 1\n".into(), "1 3101 0/1 3101 0/".into()),
        ("no line for lookup", opened(&format!("LOOKUP {ID}\n")), "0 0 0/1 3101 0/".into()),
        ("no line for lookup before an OPEN", format!("LOOKUP {ID}\n"), "1 3101 0/".into()),
        (
            "too few and too many fields",
            opened("JOIN alpha\nJOIN alpha 1 1\nOPEN XTS\nJOIN\n"),
            format!("0 0 0/{}", "1 3101 0/".repeat(4)),
        ),
        ("the same before an OPEN", "JOIN alpha\nJOIN alpha 1 1\nTIME\nTIME a b\n".into(), "1 3101 0/".repeat(4)),
        ("nine fields", "PREPARE 1 2 3 4 5 6 7 8 9\nPREPARE 1 2 3 4 5 6 7\n".into(), "1 3101 0/".repeat(2)),
        ("eight fields before an OPEN", "PREPARE 1 2 3 4 5 6 7 8\n".into(), "21 2001 0/".into()),
        ("two spaces", "JOIN  1\nPREPARE  2 3 4 5 6 7 8\nJOIN  alpha 1\n".into(), "1 3101 0/".repeat(3)),
        ("a space at the end", "JOIN alpha \nJOIN alpha 1 \nTIME \n".into(), "1 3101 0/".repeat(3)),
        ("a space at the start", " JOIN alpha 1\n TIME\n".into(), "1 3101 0/".repeat(2)),
        ("NUL, TAB, DEL in a field before an OPEN", "JOIN a\0b 1\nJOIN a\tb 1\nJOIN a\x7f 1\n".into(), "21 2001 0/".repeat(3)),
        (
            "NUL, TAB, DEL in a field after an OPEN",
            opened("JOIN a\0b 1\nJOIN a\tb 1\nJOIN a\x7f 1\n"),
            format!("0 0 0/{}", "1 3101 0/".repeat(3)),
        ),
        ("TAB does not part fields", "JOIN\talpha\t1\nJOIN alpha\t1\n".into(), "1 3101 0/".repeat(2)),
        ("CR before the newline, before an OPEN", "JOIN alpha 1\r\n".into(), "21 2001 0/".into()),
        ("CR before the newline, after an OPEN", opened("JOIN alpha 1\r\n"), "0 0 0/1 3101 0/".into()),
        ("CR alone", opened("\r\n"), "0 0 0/1 3101 0/".into()),
        ("CR after an OPEN's time", format!("{}\r\n", OPEN.trim_end()), "1 3101 0/".into()),
        (
            "a field not in form before an OPEN",
            "JOIN alpha x\nTIME 5\nABORT a b c\nFULFIL a b c\n".into(),
            "21 2001 0/".repeat(4),
        ),
        ("an OPEN never answers 21", "OPEN xts 2024-01-01T00:00:00.000Z\n".into(), "1 3101 0/".into()),
        ("after a refused OPEN", "OPEN xts 2024-01-01T00:00:00.000Z\nJOIN alpha 1\n".into(), "1 3101 0/21 2001 0/".into()),
        ("a later OPEN refused", opened("JOIN alpha 1\nOPEN XTS now\nJOIN alpha 1\n"), "0 0 0/0 0 0/1 3101 0/17 0 0/".into()),
        ("a later OPEN accepted", opened("JOIN alpha 1\nOPEN EUR 1990-01-01T00:00:00.000Z\nJOIN alpha 1\n"), "0 0 0/".repeat(4)),
        (
            "times with nothing to show",
            opened("TIME 2023-01-01T00:00:00.000Z\nTIME 2024-01-01T00:00:00.000Z\nTIME\n"),
            "0 0 0/15 0 0/0 0 0/1 3101 0/".into(),
        ),
        (
            "the paper's own notation",
            opened(&format!("{members}{}", prepare("AQ").replace(&letters(), "{A43}"))),
            thirds("1 3101 0/"),
        ),
        (
            "33,000 bytes are of one line",
            opened(&"JOIN alpha 1\n".repeat(4_000)),
            format!("0 0 0/0 0 0/{}", "17 0 0/".repeat(3_999)),
        ),
    ]
}

/// 01, the worked example: crates/switch/stdin has it with the letters written out.
fn example() -> (String, String) {
    let read = |name: &str| std::fs::read_to_string(format!("{}/../crates/switch/{name}", env!("CARGO_MANIFEST_DIR")));
    (read("stdin").expect("the example"), read("stdout").expect("its answers"))
}

pub fn run(report: &mut Report) {
    report.group("written: 01's example", |group| {
        let (input, expected) = example();
        both(group, input.as_bytes(), expected.as_bytes())
    });
    for (name, input, expected) in cases() {
        report.group(&format!("written: {name}"), |group| both(group, input.as_bytes(), expected.replace('/', "\n").as_bytes()));
    }
}

/// Both programs print what is written.
fn both(group: &mut Group, input: &[u8], expected: &[u8]) -> Result<(), Difference> {
    let about = |who: &str| format!("{who} on {}", shown(input));
    group.same(shown(&program::printed(input)), shown(expected), || about("the second program"))?;
    group.same(shown(&proved::printed(input)), shown(expected), || about("the proved program"))
}
