//! The forms of ltrim, rtrim and btrim.

use crate::answer::{Answer, FormAnswer, Row};
use crate::stand_ins::Part;

include!(concat!(env!("EXTRACTED"), "/common.rs"));

/// A trimmer gives its own offset beside the slice; string views are built
/// from that offset, so it has to be the slice's true place.
fn checked(row: &Row, (trimmed, offset): (&str, u32)) -> Answer {
    let answer = row.answer(Part::from(trimmed));
    assert_eq!(answer.place, Some(offset as usize), "offset of a trim of {:?}", row.text());
    answer
}

fn trimmer_forms<T: Trimmer>(row: &Row, set: &str) -> Vec<FormAnswer> {
    let characters: Vec<char> = set.chars().collect();
    let mut answers = vec![("trim", checked(row, T::trim(row.text(), &characters)))];
    if let [byte] = set.as_bytes() {
        answers.push(("trim_ascii_char", checked(row, T::trim_ascii_char(row.text(), *byte))));
    }
    answers
}

pub fn left_forms(row: &Row, set: &str) -> Vec<FormAnswer> {
    trimmer_forms::<TrimLeft>(row, set)
}

pub fn right_forms(row: &Row, set: &str) -> Vec<FormAnswer> {
    trimmer_forms::<TrimRight>(row, set)
}

pub fn both_forms(row: &Row, set: &str) -> Vec<FormAnswer> {
    trimmer_forms::<TrimBoth>(row, set)
}
