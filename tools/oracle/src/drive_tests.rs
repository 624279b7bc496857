//! The driver has to notice each thing that a wrong library might do. The calls here wrap the oracle and then go wrong.

use crate::drive::{Due, Found, Run};
use crate::guarded::{Fault, TextCall};
use crate::report::report;

/// A call that does all that it should.
unsafe extern "C" fn right(text: *const u8, text_len: usize, lent: *mut u8, space: usize) -> usize {
    let text = std::slice::from_raw_parts(text, text_len);
    let lent = std::slice::from_raw_parts_mut(lent, space);
    let report = report(text);
    lent.fill(0);
    if report.len() > space {
        return 0;
    }
    lent[..report.len()].copy_from_slice(&report);
    report.len()
}

unsafe extern "C" fn leaves_garbage(text: *const u8, text_len: usize, lent: *mut u8, space: usize) -> usize {
    let kept = if space > 0 { *lent.add(space - 1) } else { 0 };
    let length = right(text, text_len, lent, space);
    if length < space {
        *lent.add(space - 1) = kept;
    }
    length
}

unsafe extern "C" fn writes_past_the_end(text: *const u8, text_len: usize, lent: *mut u8, space: usize) -> usize {
    let length = right(text, text_len, lent, space);
    *lent.add(space) ^= 1;
    length
}

unsafe extern "C" fn writes_into_the_text(text: *const u8, text_len: usize, lent: *mut u8, space: usize) -> usize {
    let length = right(text, text_len, lent, space);
    *text.cast_mut().sub(1) ^= 1;
    length
}

unsafe extern "C" fn says_too_much(text: *const u8, text_len: usize, lent: *mut u8, space: usize) -> usize {
    right(text, text_len, lent, space);
    space + 1
}

unsafe extern "C" fn one_byte_differs(text: *const u8, text_len: usize, lent: *mut u8, space: usize) -> usize {
    let length = right(text, text_len, lent, space);
    if length > 200 {
        *lent.add(100) ^= 1;
    }
    length
}

unsafe extern "C" fn cuts_a_long_report(text: *const u8, text_len: usize, lent: *mut u8, space: usize) -> usize {
    let report = report(std::slice::from_raw_parts(text, text_len));
    let length = report.len().min(space);
    std::slice::from_raw_parts_mut(lent, space).fill(0);
    std::slice::from_raw_parts_mut(lent, length).copy_from_slice(&report[..length]);
    length
}

fn found(whole_job: TextCall) -> Option<Box<Found>> {
    Run { seed: 7, from: 0, to: 2_000 }.first_mismatch(whole_job, &mut |_, text| Due::report(report(text)), &mut |_| ())
}

#[test]
fn a_right_call_passes() {
    assert!(found(right).is_none());
}

#[test]
fn each_fault_is_noticed() {
    assert!(matches!(found(leaves_garbage).unwrap().mismatch.got, Err(Fault::NotZeroPast(_))));
    assert_eq!(found(writes_past_the_end).unwrap().mismatch.got, Err(Fault::GuardWritten));
    assert_eq!(found(writes_into_the_text).unwrap().mismatch.got, Err(Fault::TextWritten));
    assert!(matches!(found(says_too_much).unwrap().mismatch.got, Err(Fault::LongerThanLent(_))));
}

#[test]
fn other_bytes_are_noticed_and_shrunk() {
    let found = found(one_byte_differs).unwrap();
    assert!(found.smallest.len() < 1_000 && found.smallest.len() <= found.text.len());
    assert!(report(&found.smallest).len() > 200);
}

#[test]
fn a_report_that_does_not_fit_is_no_report() {
    let found = found(cuts_a_long_report).unwrap();
    assert_eq!(found.mismatch.expected, b"");
}
