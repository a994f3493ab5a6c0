//! The limit rows of 01, the examples of 000 and 001 and the published SHA-256 vectors, with their answers
//! written out. Both implementations are held to them: the library and the second one.

use crate::face::{self, Verdict, ALL};
use crate::report::{shown, Difference, Group, Report};
use crate::second::{amount, code, condition, currency, datetime, id, name, packet, sha256, Reading, Writing};
use std::fmt::Debug;

pub fn run(report: &mut Report) {
    report.group("rows: published SHA-256 vectors", hashes);
    report.group("rows: amount", amounts);
    report.group("rows: datetime", instants);
    report.group("rows: datetime writer", instant_texts);
    report.group("rows: id, condition, packet, name, currency, code", others);
    report.group("rows: amount, id and condition writers", other_texts);
}

/// The library's reading of a text and the second implementation's, as bytes.
type Both = (Reading<Vec<u8>>, Reading<Vec<u8>>);

/// A reader, a text, and the verdict that it must give.
type Asked = (fn(&[u8]) -> Both, String, Reading<()>);

/// What a writer gives, with the text written out.
type Written = Result<&'static str, u64>;

/// Both answers to one text beside the expected one.
fn row<T: PartialEq + Debug>(
    group: &mut Group,
    characters: &[u8],
    (library, second): (Reading<T>, Reading<T>),
    expected: Reading<T>,
) -> Result<(), Difference> {
    group.same(&second, &expected, || format!("second implementation, {}", shown(characters)))?;
    group.same(&library, &expected, || format!("library, {}", shown(characters)))
}

/// A library reader's answer as a reading.
fn reading<T>(verdict: Verdict, value: T) -> Reading<T> {
    match verdict {
        ALL => Ok(value),
        Verdict(offset) => Err(offset as usize),
    }
}

/// FIPS 180-4's examples (one block, two blocks, long) and those of the standard's test vectors.
fn hashes(group: &mut Group) -> Result<(), Difference> {
    let two_blocks = "abcdbcdecdefdefgefghfghighijhijkijkljklmklmnlmnomnopnopq";
    let four_words =
        "abcdefghbcdefghicdefghijdefghijkefghijklfghijklmghijklmnhijklmnoijklmnopjklmnopqklmnopqrlmnopqrsmnopqrstnopqrstu";
    let rows = [
        ("", "e3b0c44298fc1c149afbf4c8996fb92427ae41e4649b934ca495991b7852b855"),
        ("abc", "ba7816bf8f01cfea414140de5dae2223b00361a396177a9cb410ff61f20015ad"),
        (two_blocks, "248d6a61d20638b8e5c026930c3e6039a33ce45964ff2167f6ecedd419db06c1"),
        (four_words, "cf5b16a778af8380036ce59e7b0492370b249b11e8f07a51afac45037afee9d1"),
        (&"a".repeat(1_000_000), "cdc76e5c9914fb9281a1c7e284d73e67f1809a48a497200e046d39ccc7112cd0"),
    ];
    rows.iter().try_for_each(|(message, digest)| {
        let mut library = [0; 32];
        face::sha256(message.as_bytes(), &mut library);
        let hex = |bytes: &[u8]| Ok(bytes.iter().map(|byte| format!("{byte:02x}")).collect::<String>());
        let both = (hex(&library), hex(&sha256::hash(message.as_bytes())));
        row(group, message.as_bytes(), both, Ok(digest.to_string()))
    })
}

/// 001, table 38, and 01, "Both sides of each limit".
fn amounts(group: &mut Group) -> Result<(), Difference> {
    let rows: [(&str, Reading<(u64, u16)>); 21] = [
        ("5", Ok((5, 0))),
        ("5.5", Ok((5, 5000))),
        ("0.5", Ok((0, 5000))),
        ("0", Ok((0, 0))),
        ("5.5555", Ok((5, 5555))),
        ("5.0", Err(3)),
        ("5.", Err(2)),
        (".5", Err(0)),
        ("00.5", Err(1)),
        ("-5.5", Err(0)),
        ("5.55555", Err(6)),
        ("5.00", Err(4)),
        ("5.50", Err(4)),
        ("5.0000", Err(5)),
        ("", Err(0)),
        ("0.0001", Ok((0, 1))),
        ("5555555555555555", Ok((5_555_555_555_555_555, 0))),
        ("555555555555555555", Ok((555_555_555_555_555_555, 0))),
        ("999999999999999999.9999", Ok((999_999_999_999_999_999, 9999))),
        ("1000000000000000000", Err(18)),
        ("100000000000000000.0001", Ok((100_000_000_000_000_000, 1))),
    ];
    rows.into_iter().try_for_each(|(characters, expected)| {
        let seen = face::read_amount(characters.as_bytes(), (1, 2));
        let both = (reading(seen.verdict, seen.value), amount::read(characters.as_bytes()));
        row(group, characters.as_bytes(), both, expected)
    })
}

/// 01, "Both sides of each limit", and rows beside them.
fn instants(group: &mut Group) -> Result<(), Difference> {
    let rows: [(&str, Reading<i64>); 17] = [
        ("2016-05-24T08:38:08.699Z", Ok(1_464_079_088_699)),
        ("2016-05-24T08:38:08.699-04:00", Ok(1_464_093_488_699)),
        ("1969-12-31T23:59:59.999Z", Ok(-1)),
        ("1970-01-01T00:00:00.000Z", Ok(0)),
        ("1970-01-01T00:00:00.000-00:00", Ok(0)),
        ("1970-01-01T00:00:00.000+00:01", Ok(-60_000)),
        ("2000-02-29T00:00:00.000Z", Ok(951_782_400_000)),
        ("1900-02-29T00:00:00.000Z", Err(9)),
        ("1000-01-01T00:00:00.000Z", Ok(-30_610_224_000_000)),
        ("0999-12-31T23:59:59.999Z", Err(0)),
        ("9999-12-31T23:59:59.999Z", Ok(253_402_300_799_999)),
        ("9999-12-31T23:59:59.999-19:59", Ok(253_402_372_739_999)),
        ("9999-12-31T23:59:59.999-20:00", Err(24)),
        ("2016-12-31T23:59:60.000Z", Err(17)),
        ("2016-12-31T24:00:00.000Z", Err(12)),
        ("2016-05-24T08:38:08.699", Err(23)),
        ("2016-05-24T08:38:08Z", Err(19)),
    ];
    rows.into_iter().try_for_each(|(characters, expected)| {
        let seen = face::read_datetime(characters.as_bytes(), 7);
        let both = (reading(seen.verdict, seen.value), datetime::read(characters.as_bytes()));
        row(group, characters.as_bytes(), both, expected)
    })
}

/// Both answers of a writer to one value; the library's from its number, its length and its buffer.
fn text_row(
    group: &mut Group,
    about: &str,
    call: impl FnOnce(&mut [u8]) -> u64,
    second: Writing,
    expected: Written,
) -> Result<(), Difference> {
    let mut buffer = [0xee; 64];
    let answer = call(&mut buffer);
    let length = (answer >> 32) as usize;
    let library = match answer & 0xffff_ffff {
        0 => Ok(buffer[..length].to_vec()),
        number => Err(number),
    };
    let readable = |writing: Writing| writing.map(|text| text.escape_ascii().to_string());
    let expected = expected.map(String::from);
    group.same(readable(second), expected.clone(), || format!("second implementation, {about}"))?;
    group.same(readable(library), expected, || format!("library, {about}"))
}

/// 01: "The writer's ends are -30610224000000 and 253402300799999".
fn instant_texts(group: &mut Group) -> Result<(), Difference> {
    let rows: [(i64, Written); 8] = [
        (-30_610_224_000_000, Ok("1000-01-01T00:00:00.000Z")),
        (-30_610_224_000_001, Err(22)),
        (253_402_300_799_999, Ok("9999-12-31T23:59:59.999Z")),
        (253_402_300_800_000, Err(22)),
        (253_402_372_739_999, Err(22)),
        (-1, Ok("1969-12-31T23:59:59.999Z")),
        (1_464_079_088_699, Ok("2016-05-24T08:38:08.699Z")),
        (951_782_400_000, Ok("2000-02-29T00:00:00.000Z")),
    ];
    rows.into_iter().try_for_each(|(instant, expected)| {
        let call = |out: &mut [u8]| face::write_datetime(instant, out);
        text_row(group, &format!("instant {instant}"), call, datetime::write(instant, 64), expected)
    })
}

/// The other readers, each by a text in form and texts on both sides of its limit. Only the verdict is
/// written out here; the two values are held to each other.
fn others(group: &mut Group) -> Result<(), Difference> {
    let long = |letter: &str, count: usize| letter.repeat(count);
    let packet_equals = |letters: usize, equals: usize| long("A", letters) + &long("=", equals);
    let rows: Vec<Asked> = vec![
        (ids, "a8323bc6-c228-4df2-ae82-e5a997baf898".into(), Ok(())),
        (ids, "a8323bc6-c228-4df2-ae82-e5a997baf89".into(), Err(35)),
        (ids, "a8323bc6-c228-4df2-ae82-e5a997baf8980".into(), Err(36)),
        (ids, "A8323bc6-c228-4df2-ae82-e5a997baf898".into(), Err(0)),
        (ids, "a8323bc6-c228-6df2-ae82-e5a997baf898".into(), Err(14)),
        (ids, "a8323bc6-c228-4df2-ce82-e5a997baf898".into(), Err(19)),
        (ids, "00000000-0000-0000-0000-000000000000".into(), Err(14)),
        (conditions, long("A", 43), Ok(())),
        (conditions, long("A", 42), Err(42)),
        (conditions, long("A", 44), Err(43)),
        (conditions, "QmlsbCAmIE1lbGluZGEgR2F0ZXMgRm91bmRhdGlvbiE=".into(), Err(43)),
        (packets, "AQ".into(), Ok(())),
        (packets, "A==".into(), Ok(())),
        (packets, "=".into(), Err(0)),
        (packets, "A===".into(), Err(3)),
        (packets, "A=A".into(), Err(2)),
        (packets, long("A", 32_768), Ok(())),
        (packets, packet_equals(32_766, 2), Ok(())),
        (packets, packet_equals(32_767, 2), Err(32_768)),
        (packets, long("A", 32_769), Err(32_768)),
        (names, long("~", 32), Ok(())),
        (names, long("~", 33), Err(32)),
        (names, "".into(), Err(0)),
        (names, "a b".into(), Err(1)),
        (currencies, "XTS".into(), Ok(())),
        (currencies, "XT".into(), Err(2)),
        (currencies, "XTSX".into(), Err(3)),
        (currencies, "xTS".into(), Err(0)),
        (codes, "5100".into(), Ok(())),
        (codes, "0999".into(), Err(0)),
        (codes, "10000".into(), Err(4)),
        (codes, "999".into(), Err(3)),
    ];
    rows.into_iter().try_for_each(|(both, characters, expected)| {
        let (library, second) = both(characters.as_bytes());
        let verdicts = (library.clone().map(drop), second.clone().map(drop));
        row(group, characters.as_bytes(), verdicts, expected)?;
        group.same(library, second, || format!("library, {}", shown(characters.as_bytes())))
    })
}

fn ids(characters: &[u8]) -> Both {
    let mut out = [0; 16];
    let verdict = face::read_id(characters, &mut out);
    (reading(verdict, out.to_vec()), id::read(characters))
}

fn conditions(characters: &[u8]) -> Both {
    let mut out = [0; 32];
    let verdict = face::read_condition(characters, &mut out);
    (reading(verdict, out.to_vec()), condition::read(characters))
}

fn packets(characters: &[u8]) -> Both {
    (reading(face::read_packet(characters), Vec::new()), packet::read(characters).map(|()| Vec::new()))
}

fn names(characters: &[u8]) -> Both {
    (reading(face::read_name(characters), Vec::new()), name::read(characters).map(|()| Vec::new()))
}

fn currencies(characters: &[u8]) -> Both {
    (reading(face::read_currency(characters), Vec::new()), currency::read(characters).map(|()| Vec::new()))
}

fn codes(characters: &[u8]) -> Both {
    let seen = face::read_code(characters, 0);
    let number = |code: u16| code.to_string().into_bytes();
    (reading(seen.verdict, number(seen.value)), code::read(characters).map(number))
}

/// Writers of amount, id and condition: 001's examples, and values that no text reads to.
fn other_texts(group: &mut Group) -> Result<(), Difference> {
    let rows: [((u64, u16), Written); 6] = [
        ((5, 5000), Ok("5.5")),
        ((0, 0), Ok("0")),
        ((100, 10), Ok("100.001")),
        ((999_999_999_999_999_999, 9999), Ok("999999999999999999.9999")),
        ((1_000_000_000_000_000_000, 0), Err(1)),
        ((0, 10_000), Err(1)),
    ];
    rows.into_iter().try_for_each(|((units, remainder), expected)| {
        let call = |out: &mut [u8]| face::write_amount(units, remainder, out);
        text_row(group, &format!("amount {units}, {remainder}"), call, amount::write(units, remainder, 64), expected)
    })?;
    let bytes = b"Bill & Melinda Gates Foundation!";
    let example = Ok("QmlsbCAmIE1lbGluZGEgR2F0ZXMgRm91bmRhdGlvbiE");
    text_row(group, "condition", |out| face::write_condition(bytes, out), condition::write(bytes, 64), example)?;
    let zero = [0; 16];
    text_row(group, "the zero id", |out| face::write_id(&zero, out), id::write(&zero, 64), Err(1))?;
    let example = "a8323bc6-c228-4df2-ae82-e5a997baf898";
    let bytes = id::read(example.as_bytes()).map_err(|offset| format!("the example of 001 stops at {offset}"))?;
    text_row(group, "id", |out| face::write_id(&bytes, out), id::write(&bytes, 64), Ok(example))
}
