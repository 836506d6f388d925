//! The forms of split_part.

use crate::answer::{Answer, FormAnswer, Row};
use crate::stand_ins::*;
use memchr::memmem;

include!(concat!(env!("EXTRACTED"), "/split_part.rs"));

fn each_row_path(row: &Row, delimiter: &str, position: i64) -> Answer {
    let mut parts = Parts::default();
    append_split_part(row.text(), delimiter, position, &mut parts).unwrap();
    row.answer(parts.only())
}

fn single_path(row: &Row, delimiter: &str, position: i64) -> Answer {
    let array = OneRow(row.text());
    let parts = split_part_scalar_impl(array, delimiter, position, Parts::default()).unwrap();
    row.answer(parts.only())
}

/// The kernels called directly: they tell "no part" (None) from an empty
/// part, which the two paths show only by the address.
fn plain_kernel(row: &Row, delimiter: &str, position: i64) -> Answer {
    let index = (position.unsigned_abs() - 1) as usize;
    row.answer_or_none(if position > 0 {
        split_nth(row.text(), delimiter, index)
    } else {
        rsplit_nth(row.text(), delimiter, index)
    })
}

fn finder_kernel(row: &Row, delimiter: &str, position: i64) -> Answer {
    let index = (position.unsigned_abs() - 1) as usize;
    let (bytes, length) = (delimiter.as_bytes(), delimiter.len());
    row.answer_or_none(if position > 0 {
        split_nth_finder(row.text(), &memmem::Finder::new(bytes), length, index)
    } else {
        rsplit_nth_finder(row.text(), &memmem::FinderRev::new(bytes), length, index)
    })
}

pub fn forms(row: &Row, delimiter: &str, position: i64) -> Vec<FormAnswer> {
    let mut answers = vec![
        ("append_split_part", each_row_path(row, delimiter, position)),
        ("split_part_scalar_impl", single_path(row, delimiter, position)),
    ];
    // The paths never hand an empty delimiter to the kernels.
    if !delimiter.is_empty() {
        answers.push(("(r)split_nth", plain_kernel(row, delimiter, position)));
        answers.push(("(r)split_nth_finder", finder_kernel(row, delimiter, position)));
    }
    answers
}
