//! The forms of substr_index.

use crate::answer::{Answer, FormAnswer, Row};
use crate::stand_ins::*;
use memchr::{memchr_iter, memmem, memrchr_iter};
use std::sync::Arc;

include!(concat!(env!("EXTRACTED"), "/substrindex.rs"));

fn each_row_path(row: &Row, delimiter: &str, count: i64) -> Answer {
    row.answer(Part::from(substr_index_slice(row.text(), delimiter, count)))
}

fn single_path(row: &Row, delimiter: &str, count: i64) -> Answer {
    let builder = GenericStringArrayBuilder::<i32>::default();
    let parts = substr_index_scalar_impl(OneRow(row.text()), delimiter, count, builder).unwrap();
    row.answer(parts.only())
}

/// Both paths take the single-byte kernel for a delimiter of one byte; the
/// finder must give the same there, though neither path asks it.
fn finder_kernel(row: &Row, delimiter: &str, count: i64) -> Answer {
    let index = (count.unsigned_abs() - 1) as usize;
    let (bytes, length) = (delimiter.as_bytes(), delimiter.len());
    row.answer(Part::from(if count > 0 {
        substr_index_slice_finder(row.text(), &memmem::Finder::new(bytes), length, index)
    } else {
        substr_index_rslice_finder(row.text(), &memmem::FinderRev::new(bytes), length, index)
    }))
}

fn single_byte_kernel(row: &Row, delimiter: u8, count: i64) -> Answer {
    row.answer(Part::from(substr_index_single_byte(row.text(), delimiter, count)))
}

pub fn forms(row: &Row, delimiter: &str, count: i64) -> Vec<FormAnswer> {
    let mut answers = vec![
        ("substr_index_slice", each_row_path(row, delimiter, count)),
        ("substr_index_scalar_impl", single_path(row, delimiter, count)),
    ];
    // The paths answer a count of zero and an empty delimiter by themselves.
    if count != 0 && !delimiter.is_empty() {
        answers.push(("substr_index_(r)slice_finder", finder_kernel(row, delimiter, count)));
        if let [byte] = delimiter.as_bytes() {
            answers.push(("substr_index_single_byte", single_byte_kernel(row, *byte, count)));
        }
    }
    answers
}
