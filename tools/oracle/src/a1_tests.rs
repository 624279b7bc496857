//! References as they are typed: the texts that document 02 prints, its traps, and what the readings say of it, all worked out by hand.

use std::collections::BTreeSet;

use crate::a1::{forms, read, reads, writes, written};
use crate::a1_damage::{damaged, damaged_copy};
use crate::a1_lines::{every_column, every_reference};
use crate::job::Reference;
use crate::leaf_lines::line;
use crate::leaves::answer;
use crate::rng::Rng;
use crate::write::hex;

fn reads_as(typed: &[u8], fields: &str, text: &[u8]) {
    assert_eq!(forms(typed), format!("{fields} t{}", hex(text)), "{}", typed.escape_ascii());
}

fn is_none(typed: &[u8]) {
    assert_eq!(forms(typed), "14", "{}", typed.escape_ascii());
}

fn answers(line: &str, expected: &str) {
    assert_eq!(answer(line).as_deref(), Some(expected), "{line}");
}

fn named(name: &[u8]) -> Reference {
    Reference { row: 0, col: 0, absolute: 0, name: Some(name.to_vec()) }
}

#[test]
fn the_texts_of_document_02() {
    reads_as(b"$B$7", "r6,1,3,-", b"$B$7");
    reads_as(b"'Class 4'!c12", "r11,2,0,t436c6173732034", b"'Class 4'!C12");
}

#[test]
fn the_ends_of_the_grid() {
    reads_as(b"A1", "r0,0,0,-", b"A1");
    reads_as(b"XFD1048576", "r1048575,16383,0,-", b"XFD1048576");
    reads_as(b"$xFd1048575", "r1048574,16383,2,-", b"$XFD1048575");
    reads_as(b"Z9", "r8,25,0,-", b"Z9");
    reads_as(b"aa10", "r9,26,0,-", b"AA10");
    reads_as(b"ZZ$99", "r98,701,1,-", b"ZZ$99");
    reads_as(b"AAA100", "r99,702,0,-", b"AAA100");
    for typed in [&b"XFE1"[..], b"ZZZ1", b"AAAA1", b"A1048577", b"A9999999", b"A4294967297", b"A18446744073709551617"] {
        is_none(typed);
    }
}

#[test]
fn no_references() {
    let typed = "| |=|A|1|2|$|$A|$1|A$|A0|A01|A00|$A$0|A-1|A+1|A1.|A 1|A1 1|1A|$$A1|A$$1|$A1$|A1B|A1:B2|A1<2|R1C1";
    typed.split('|').for_each(|typed| is_none(typed.as_bytes()));
    "A1!|Sheet1!|Sheet1!!A1|!A1|#REF!".split('|').for_each(|typed| is_none(typed.as_bytes()));
    [&b"\xc1\xb1"[..], b"A\xb21", b"A1\x00", b"@1", b"[1", b"`1", b"{1", b"A/", b"A:"].into_iter().for_each(is_none);
}

#[test]
fn names_with_and_without_quotes() {
    reads_as(b"Sheet1!A1", "r0,0,0,t536865657431", b"Sheet1!A1");
    reads_as(b"'Sheet1'!A1", "r0,0,0,t536865657431", b"Sheet1!A1");
    reads_as(b"a_1!$A1", "r0,0,2,t615f31", b"a_1!$A1");
    reads_as(b"'_a'!A1", "r0,0,0,t5f61", b"'_a'!A1");
    reads_as(b"'1a'!A1", "r0,0,0,t3161", b"'1a'!A1");
    reads_as(b"A1!B2", "r1,1,0,t4131", b"A1!B2");
    reads_as(b"'r1c1'!A1", "r0,0,0,t72316331", b"r1c1!A1");
    reads_as(b"'it''s<'!A1", "r0,0,0,t697427733c", b"'it''s<'!A1");
    reads_as(b"''''!A1", "r0,0,0,t27", b"''''!A1");
    reads_as(b"'a!b'!A1", "r0,0,0,t612162", b"'a!b'!A1");
    reads_as(b"'!'!A1", "r0,0,0,t21", b"'!'!A1");
    reads_as(b"' '!A1", "r0,0,0,t20", b"' '!A1");
    reads_as(b"'=A1'!A1", "r0,0,0,t3d4131", b"'=A1'!A1");
    reads_as(b"'\x80\xff\xc3\xa9'!A1", "r0,0,0,t80ffc3a9", b"'\x80\xff\xc3\xa9'!A1");
    reads_as(b"'~'!A1", "r0,0,0,t7e", b"'~'!A1");
}

#[test]
fn no_names() {
    let typed = "_a!A1|1a!A1|Class 4!A1|a.b!A1|a-b!A1|\u{e9}!A1|a'!A1|'a!A1|'a|'|''!A1|'''!A1|'a''!A1|'a'b'!A1|'a'A1|'a' !A1|'a'! A1|'a'!";
    typed.split('|').for_each(|typed| is_none(typed.as_bytes()));
    "a!b!A1|'\0'!A1|'\x1f'!A1|'\x7f'!A1|'a\tb'!A1|'\na'!A1".split('|').for_each(|typed| is_none(typed.as_bytes()));
}

#[test]
fn lengths_of_names() {
    for (length, is_read) in [(1, true), (254, true), (255, true), (256, false), (510, false)] {
        let [bare, quotes] = [vec![b'a'; length], b"''".repeat(length)];
        assert_eq!(read(&[&bare, &b"!A1"[..]].concat()).is_some(), is_read);
        assert_eq!(read(&[b"'", &bare[..], b"'!A1"].concat()).is_some(), is_read);
        assert_eq!(read(&[b"'", &quotes[..], b"'!A1"].concat()), is_read.then(|| named(&vec![b'\''; length])));
        assert_eq!(written(&named(&bare)).is_some(), is_read);
    }
    assert_eq!(written(&named(&[b'\''; 255])).map(|text| text.len()), Some(515));
    assert_eq!(written(&named(b"")), None);
}

/// What the split drops: blanks at both ends, then one `=`.
#[test]
fn parts_of_a_split() {
    for typed in [&b" A1"[..], b"A1 ", b"\t\n\x0b\x0c\r A1\r\n", b"=A1", b" =A1 "] {
        reads_as(typed, "r0,0,0,-", b"A1");
    }
    reads_as(b"='a'!A1\n", "r0,0,0,t61", b"a!A1");
    for typed in [&b"= A1"[..], b"==A1", b"=\tA1", b" = A1", b"A1=", b"\x08A1", b"A1\x0e", b"\xa0A1", b"\x00A1", b"\x1cA1", b"A1\x85"] {
        is_none(typed);
    }
}

#[test]
fn spaces() {
    assert_eq!((reads(0, b"A1"), reads(0, b"''!A1")), ("r0,0,0,-".to_string(), "14".to_string()));
    assert_eq!((reads(2, b"'it''s'!A1"), reads(4, b"'it''s'!A1")), ("15".to_string(), "r0,0,0,t69742773".to_string()));
    assert_eq!((reads(3, b"'it''s'!A1"), reads(0, b"'it''s'!A0")), ("15".to_string(), "14".to_string()));
    let name = named(b"it's");
    assert_eq!((writes(10, &name), writes(9, &name)), ("t2769742727732721".to_string() + "4131", "15".to_string()));
    assert_eq!(writes(0, &named(b"\n")), "14");
    assert_eq!(writes(0, &Reference { row: 1_048_576, ..name.clone() }), "14");
    assert_eq!(writes(0, &Reference { col: 16_384, ..name.clone() }), "14");
    assert_eq!(writes(9, &Reference { row: u32::MAX, col: u16::MAX, absolute: 3, name: None }), "14");
}

#[test]
fn lines_and_their_answers() {
    answers("reads 7 t27436c6173732034272163", "14");
    answers("reads 7 t27436c61737320342721633132", "r11,2,0,t436c6173732034");
    answers("reads 6 t27436c61737320342721633132", "15");
    answers("writes 4 r6,1,3,-", "t24422437");
    answers("writes 3 r6,1,3,-", "15");
    answers("writes 65535 r0,16384,0,-", "14");
    answers("typed t24422437 r6,1,3,- t24422437", "1");
    answers("typed t24422437 r6,1,3,- t2442243", "0");
    answers("typed t24422437 14", "0");
    answers("typed t2442 14", "1");
    answers("typed t2442 ", "0");
    for line in ["typed t24422437", "typed 4131 14", "reads 65536 t4131", "reads 01 t", "writes 9 r0,0,4,-", "writes 9 n3ff0000000000000"] {
        assert_eq!(answer(line), None, "{line}");
    }
}

/// Reading, writing and reading again gives an equal reference, and one reference has one text.
#[test]
fn what_is_read_comes_back() {
    let mut texts = BTreeSet::new();
    let mut count = 0;
    every_reference(6, &mut |line| {
        let Some((_, said)) = line.split_once(" r") else {
            return;
        };
        let (fields, text) = said.split_once(" t").unwrap();
        let again = format!("typed t{text} {}", &line[line.find(" r").unwrap() + 1..]);
        answers(&again, "1");
        texts.insert((fields.to_string(), text.to_string()));
        count += 1;
    });
    let fields: BTreeSet<&String> = texts.iter().map(|(fields, _)| fields).collect();
    assert!(fields.len() == texts.len() && texts.len() < count && texts.len() > 100);
}

#[test]
fn columns_counted_up_and_columns_worked_out_agree() {
    let mut lines = 0;
    every_column(&mut |line| {
        answers(line, "1");
        lines += 1;
    });
    assert_eq!(lines, 16_384 + 1 + 15 + 4);
}

/// Random lines reach each answer often; a damaged copy is never right.
#[test]
fn random_lines_reach_each_answer() {
    let mut rng = Rng::new(5, 0);
    for (leaf, others) in [("reads", ["14", "15"]), ("writes", ["14", "15"]), ("typed", ["0", "1"])] {
        let answers: Vec<String> = (0..3_000).filter_map(|_| answer(&line(&mut rng, leaf))).collect();
        assert_eq!(answers.len(), 3_000);
        let counts = others.map(|other| answers.iter().filter(|answer| *answer == other).count());
        assert!(counts.iter().all(|&count| count > 200), "{leaf} {counts:?}");
        assert!(leaf == "typed" || counts.iter().sum::<usize>() < 2_400, "{leaf} {counts:?}");
    }
}

#[test]
fn damaged_lines_answer_0() {
    let right = [
        "typed t41 14",
        "typed t27612721623132 r11,1,0,t61 t6121423132",
        "typed t27206127212462243132 r11,1,3,t2061 t27206127212442243132",
    ];
    for line in right {
        answers(line, "1");
        let copies: BTreeSet<String> = (0..10).filter_map(|way| damaged(line, way)).collect();
        assert_eq!(copies.len(), if line.ends_with(" 14") { 3 } else { 10 });
        copies.iter().for_each(|copy| answers(copy, "0"));
    }
    assert_eq!((damaged("reads 9 t4131", 0), damaged_copy(&right, 3).len()), (None, 3));
}

/// The stored lines: those that are damaged copies stand last, and they alone answer 0.
#[test]
fn stored_lines() {
    let stored = std::fs::read_to_string("../../crates/leaves/stdin").unwrap();
    let typed: Vec<&str> = stored.lines().filter(|line| line.starts_with("typed ")).collect();
    let (right, wrong) = typed.split_at(typed.len() - 40);
    right.iter().for_each(|line| answers(line, "1"));
    wrong.iter().for_each(|line| answers(line, "0"));
}
