//! What is expected of saving, on texts that the papers decide; and the driver has to notice each thing that a wrong call might do.

use crate::drive::{Due, Found, Run};
use crate::generate::make;
use crate::guarded::{Fault, TextCall};
use crate::read::read;
use crate::saves::{due, saving, Tally};
use crate::write::job_text;

const WORKED: &str = "limit start cells regions rules name\n100 7 1 2 1 t53\nrow col wraps value\n0 0 0 n3ff0000000000000\n\
    row col\n0 0\n1 0\ntop left bottom right priority stop imported rule p1 p2 p3 p4\n0 0 2 0 - 0 0 bar 00ff00 - - -\n";
const NAMES: &str = "number place count actual marks deferred simplified\n";

fn shown(text: &str, space: usize) -> String {
    String::from_utf8_lossy(due(text.as_bytes()).within(space)).into_owned()
}

fn refused(values: &str) -> String {
    format!("{NAMES}{values} 0 0 0\n")
}

#[test]
fn a_text_comes_back_or_says_the_length_needed() {
    let length = WORKED.len();
    assert_eq!(shown(WORKED, length), WORKED);
    let too_long = refused(&format!("13 0 7 {length}"));
    assert_eq!(shown(WORKED, length - 1), too_long);
    assert_eq!(shown(WORKED, too_long.len()), too_long);
    assert_eq!(shown(WORKED, too_long.len() - 1), "");
}

#[test]
fn each_refusal_has_its_values() {
    assert_eq!(shown(&"\n".repeat(65_537), 70_000), refused("10 0 0 0"));
    assert_eq!(shown(&WORKED.replace("bar", "Bar"), 200), refused("11 9 0 0"));
    assert_eq!(shown(&WORKED.replace("100 7 1 ", "100 7 1025 "), 200), refused("2 0 7 0"));
    assert_eq!(shown(&WORKED.replace("\n1 0\n", "\n1048576 0\n"), 200), refused("3 1 7 0"));
    assert_eq!(shown(&WORKED.replace("\n1 0\n", "\n0 0\n"), 200), refused("4 1 7 0"));
    assert_eq!(shown("", refused("11 1 0 0").len() - 1), "");
}

/// What makes 'the same bytes' the text of the job that was read.
#[test]
fn a_job_that_is_read_has_one_text() {
    let texts = (0..2_000).map(|number| make(11, number).text);
    let read_back = texts.filter(|text| read(text).is_ok_and(|job| job_text(&job) == *text)).count();
    let all_read = (0..2_000).filter(|&number| read(&make(11, number).text).is_ok()).count();
    assert!(read_back == all_read && all_read > 1_000);
}

unsafe fn put(lent: *mut u8, space: usize, text: &[u8]) -> usize {
    let lent = std::slice::from_raw_parts_mut(lent, space);
    lent.fill(0);
    lent[..text.len()].copy_from_slice(text);
    text.len()
}

unsafe fn due_at(text: *const u8, text_len: usize) -> Due {
    due(std::slice::from_raw_parts(text, text_len))
}

/// A call that does all that it should.
unsafe extern "C" fn right(text: *const u8, text_len: usize, lent: *mut u8, space: usize) -> usize {
    put(lent, space, due_at(text, text_len).within(space))
}

unsafe extern "C" fn changes_the_last_byte(text: *const u8, text_len: usize, lent: *mut u8, space: usize) -> usize {
    let length = right(text, text_len, lent, space);
    if length > 0 {
        *lent.add(length - 1) ^= 1;
    }
    length
}

unsafe extern "C" fn leaves_out_the_zeros(text: *const u8, text_len: usize, lent: *mut u8, space: usize) -> usize {
    let due = due_at(text, text_len);
    let written = due.within(space);
    std::slice::from_raw_parts_mut(lent, written.len()).copy_from_slice(written);
    written.len()
}

/// As above, but only where nothing is written.
unsafe extern "C" fn leaves_nothing_as_it_was(text: *const u8, text_len: usize, lent: *mut u8, space: usize) -> usize {
    if due_at(text, text_len).within(space).is_empty() {
        return 0;
    }
    right(text, text_len, lent, space)
}

unsafe extern "C" fn asks_for_a_byte_less(text: *const u8, text_len: usize, lent: *mut u8, space: usize) -> usize {
    let mut due = due_at(text, text_len);
    let (less, exact) = (format!(" {} ", text_len - text_len.min(1)), format!(" {text_len} "));
    due.second = String::from_utf8_lossy(&due.second).replace(&exact, &less).into_bytes();
    put(lent, space, due.within(space))
}

unsafe extern "C" fn never_says_13(text: *const u8, text_len: usize, lent: *mut u8, space: usize) -> usize {
    let due = due_at(text, text_len);
    put(lent, space, Due::report(due.first).within(space))
}

/// The checks left out: whatever is read is written back.
unsafe extern "C" fn checks_nothing(text: *const u8, text_len: usize, lent: *mut u8, space: usize) -> usize {
    let source = std::slice::from_raw_parts(text, text_len);
    if text_len <= space && read(source).is_ok() {
        return put(lent, space, source);
    }
    right(text, text_len, lent, space)
}

fn found(save_job: TextCall) -> Option<Box<Found>> {
    Run { seed: 7, from: 0, to: 2_000 }.first_mismatch(save_job, &mut |_, text| due(text), &mut |_| ())
}

#[test]
fn a_right_call_passes() {
    assert!(found(right).is_none());
}

#[test]
fn each_fault_is_noticed() {
    assert!(found(changes_the_last_byte).unwrap().mismatch.got.is_ok());
    assert!(matches!(found(leaves_out_the_zeros).unwrap().mismatch.got, Err(Fault::NotZeroPast(_))));
    assert_eq!(found(leaves_nothing_as_it_was).unwrap().mismatch.got, Err(Fault::NotZeroPast(0)));
    assert_eq!(found(never_says_13).unwrap().mismatch.got, Ok(Vec::new()));
    assert!(found(checks_nothing).unwrap().mismatch.expected.starts_with(NAMES.as_bytes()));
}

#[test]
fn a_wrong_length_needed_is_noticed_and_shrunk() {
    let found = found(asks_for_a_byte_less).unwrap();
    let length = found.smallest.len();
    assert!(length <= found.text.len() && length < 200);
    assert!(String::from_utf8_lossy(&found.mismatch.expected).contains(&format!("\n13 0 0 {length} 0 0 0\n")));
    assert!(String::from_utf8_lossy(&found.mismatch.got.unwrap()).contains(&format!("\n13 0 0 {} 0 0 0\n", length - 1)));
}

#[test]
fn the_last_line_counts_by_number() {
    let mut tally = Tally::default();
    for text in [WORKED, "", "\n", &WORKED.replace("\n1 0\n", "\n0 0\n")] {
        tally.add(saving(text.as_bytes()));
    }
    assert_eq!(tally.line(), "4 compared, 1 came back equal, refused 1 with 4, 2 with 11");
}
