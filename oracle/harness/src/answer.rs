//! What a form answers: the bytes, and where in the row they lie.

use crate::stand_ins::Part;

/// A row with a letter on each side in its allocation: the address of an
/// answer at either end of the row can then be no other string's address,
/// and an empty row has an address of its own.
pub struct Row {
    padded: String,
}

impl Row {
    pub fn new(text: &str) -> Self {
        Row { padded: format!("#{text}#") }
    }

    pub fn text(&self) -> &str {
        &self.padded[1..self.padded.len() - 1]
    }

    pub fn answer(&self, part: Part) -> Answer {
        let first = self.text().as_ptr() as usize;
        let inside = part.address >= first && part.address <= first + self.text().len();
        assert!(inside || part.text.is_empty(), "an answer must be a part of its row");
        Answer { place: inside.then(|| part.address - first), text: part.text }
    }

    pub fn answer_or_none(&self, part: Option<&str>) -> Answer {
        match part {
            Some(part) => self.answer(Part::from(part)),
            None => Answer { text: String::new(), place: None },
        }
    }
}

#[derive(Clone, Debug, PartialEq, Eq)]
pub struct Answer {
    pub text: String,
    /// None where the Rust has no part and answers a "" outside the row.
    pub place: Option<usize>,
}

/// One form's name, and what it answered.
pub type FormAnswer = (&'static str, Answer);
