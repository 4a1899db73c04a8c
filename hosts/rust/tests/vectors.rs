//! Every stored vector through the C entries: cards with the report program's text, lists with their answers. The elongation sheets, for
//! which C hosts have no entry, hold the papers' method as the tests write it to their answers.

mod paper;

use paper::{elongation_sheet, printed_line, read_card, BEFORE_NUMBERS, ROW_NUMBERS};
use std::fs;
use std::path::{Path, PathBuf};
use stratelyn::{BYTES_PER_AGE, MOST_AGES, REPLY_BYTES};

const BYTES_OF_NUMBER: usize = 8;
const DIGITS_OF_BYTE: usize = 2; // in hex

/// The bytes that report and scratch have before a run.
const UNWRITTEN: u8 = 0xA5;

/// The reply's numbers behind the place: those before the ages, and the last stress.
const REPLY_NUMBERS: usize = BEFORE_NUMBERS + 1;

/// At least so many vectors are stored.
const CARDS: usize = 240;
const LISTS: usize = 300;
const SHEETS: usize = 200;

fn data() -> PathBuf {
    Path::new(env!("CARGO_MANIFEST_DIR")).join("../../crates/cases/data")
}

fn number(bytes: &[u8], at: usize) -> u64 {
    u64::from_le_bytes(bytes[BYTES_OF_NUMBER * at..][..BYTES_OF_NUMBER].try_into().expect("eight bytes"))
}

fn decimals(text: &str) -> Vec<u64> {
    text.split(' ').map(|n| n.parse().expect("a number")).collect()
}

fn hex(digits: &str) -> u64 {
    u64::from_str_radix(digits, 16).expect("hex digits")
}

fn hex_numbers(text: &str) -> Vec<u64> {
    text.split_whitespace().map(hex).collect()
}

fn hex_bytes(digits: &str) -> Vec<u8> {
    (0..digits.len()).step_by(DIGITS_OF_BYTE).map(|at| hex(&digits[at..][..DIGITS_OF_BYTE]) as u8).collect()
}

#[test]
fn cards() {
    let mut cards: Vec<_> = fs::read_dir(data().join("cards"))
        .expect("the vectors")
        .map(|entry| entry.expect("a file").path())
        .filter(|path| path.extension().is_some_and(|e| e == "card"))
        .collect();
    cards.sort();
    assert!(cards.len() >= CARDS);
    for path in cards {
        let card = fs::read(&path).expect("a card");
        let due = fs::read_to_string(path.with_extension("out")).expect("its report");
        let (mut report, mut scratch) = ([0; MOST_AGES * BYTES_PER_AGE], [0; MOST_AGES * BYTES_PER_AGE]);
        let mut reply = [0; REPLY_BYTES];
        let refused = stratelyn::run_card_bytes(&card, &mut report, &mut scratch, &mut reply);
        let text = if refused != 0 {
            printed_line(&[refused, number(&reply, 0)])
        } else {
            let member = read_card(&card).expect("the card is accepted");
            let before: Vec<u64> = (1..=BEFORE_NUMBERS).map(|k| number(&reply, k)).collect();
            let mut text = printed_line(&before);
            for age in 0..member.ages() {
                let row: Vec<u64> = (0..ROW_NUMBERS).map(|k| number(&report, ROW_NUMBERS * age + k)).collect();
                text += &printed_line(&[&[age as u64 + 1, member.hour(age)], &row[..]].concat());
            }
            text
        };
        assert_eq!(text, due, "{}", path.display());
    }
}

#[test]
fn lists() {
    let text = fs::read_to_string(data().join("lists.txt")).expect("the lists");
    assert!(text.lines().count() >= LISTS);
    for (case, line) in text.lines().enumerate() {
        let parts: Vec<&str> = line.split('|').collect();
        let room = decimals(parts[0]);
        let list: Vec<u8> = hex_numbers(parts[1]).into_iter().flat_map(u64::to_le_bytes).collect();
        let due = decimals(parts[2]);
        let buffer = |numbers: u64| vec![UNWRITTEN; BYTES_OF_NUMBER * numbers as usize];
        let (mut report, mut scratch, mut reply) = (buffer(room[0]), buffer(room[1]), [0; REPLY_BYTES]);
        let refused = stratelyn::run_list_bytes(&list, &mut report, &mut scratch, &mut reply);
        assert_eq!((refused, number(&reply, 0)), (due[0], due[1]), "list {case}");
        if refused == 0 {
            let due = hex_numbers(parts[3]);
            let in_report = due.len() - REPLY_NUMBERS;
            let in_reply = (1..=REPLY_NUMBERS).map(|k| number(&reply, k));
            let given: Vec<u64> = in_reply.chain((0..in_report).map(|k| number(&report, k))).collect();
            assert_eq!(given, due, "list {case}");
            let past = &report[BYTES_OF_NUMBER * in_report..];
            assert!(past.iter().all(|&b| b == UNWRITTEN), "list {case}: past the rows");
        } else {
            assert!(report.iter().all(|&b| b == UNWRITTEN), "list {case}: report");
        }
    }
}

#[test]
fn sheets() {
    let text = fs::read_to_string(data().join("sheets.txt")).expect("the sheets");
    assert!(text.lines().count() >= SHEETS);
    for (case, line) in text.lines().enumerate() {
        let parts: Vec<&str> = line.split('|').collect();
        let room = decimals(parts[0])[0] as usize;
        let given = read_card(&hex_bytes(parts[1])).and_then(|member| elongation_sheet(&member, room));
        let (number, place) = given.as_ref().err().copied().unwrap_or((0, 0));
        assert_eq!([number, place], decimals(parts[2])[..], "sheet {case}");
        if let Ok(sheet) = given {
            let numbers = [&sheet.elongations[..], &[sheet.sum(), sheet.measurable()]].concat();
            assert_eq!(numbers, hex_numbers(parts[3]), "sheet {case}");
        }
    }
}
