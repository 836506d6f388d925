//! The requests of the list, section by section.

use crate::generator::Generator;
use std::collections::BTreeSet;

#[derive(Clone, Copy, Debug, PartialEq, Eq, PartialOrd, Ord)]
pub enum Kind {
    Split,
    Index,
    Left,
    Right,
    Both,
}

impl Kind {
    pub fn name(self) -> &'static str {
        match self {
            Kind::Split => "split",
            Kind::Index => "index",
            Kind::Left => "left",
            Kind::Right => "right",
            Kind::Both => "both",
        }
    }
}

#[derive(Clone, Debug, PartialEq, Eq, PartialOrd, Ord)]
pub struct Request {
    pub kind: Kind,
    pub row: String,
    /// The delimiter of a search, the set of characters of a trim.
    pub pattern: String,
    /// The position or the count; 0 for a trim.
    pub number: i64,
}

#[derive(Default)]
struct List {
    ordered: Vec<Request>,
    seen: BTreeSet<Request>,
}

impl List {
    fn add(&mut self, kind: Kind, row: &str, pattern: &str, number: i64) {
        let request = Request { kind, row: row.to_owned(), pattern: pattern.to_owned(), number };
        if self.seen.insert(request.clone()) {
            self.ordered.push(request);
        }
    }

    /// split_part and substr_index of the same row; position 0 is an error in
    /// split_part and so is asked of substr_index alone.
    fn add_searches(&mut self, row: &str, delimiter: &str, numbers: &[i64]) {
        for &number in numbers {
            if number != 0 {
                self.add(Kind::Split, row, delimiter, number);
            }
            self.add(Kind::Index, row, delimiter, number);
        }
    }

    fn add_trims(&mut self, row: &str, set: &str) {
        for kind in [Kind::Left, Kind::Right, Kind::Both] {
            self.add(kind, row, set, 0);
        }
    }
}

const SMALL: [i64; 9] = [-4, -3, -2, -1, 0, 1, 2, 3, 4];

/// Beside the ends of i64: numbers that change their sign or shrink to a
/// small one when cut to 32 bits.
const EXTREME: [i64; 18] = [
    i64::MAX,
    i64::MAX - 1,
    i64::MIN,
    i64::MIN + 1,
    1 << 32,
    (1 << 32) + 1,
    (1 << 32) - 1,
    -(1 << 32),
    -(1 << 32) - 1,
    -(1 << 32) + 1,
    1 << 31,
    i32::MAX as i64,
    i32::MIN as i64,
    i32::MIN as i64 - 1,
    1_000_000,
    -1_000_000,
    100,
    -100,
];

/// 12 bytes is what a string view holds inline.
const LENGTHS: [usize; 6] = [0, 1, 11, 12, 13, 40];

/// Characters of 2, 3 and 4 bytes; within an alphabet some share their first
/// bytes, or their last, so that a match of bytes alone could go astray.
const ALPHABETS: [&[&str]; 7] = [
    &["è", "é", "a"],
    &["è", "¨", "ɨ", "é"],
    &["€", "₭", "₮", ","],
    &["中", "串", "丨", "-"],
    &["😀", "😁", "𝄞"],
    &["a", "é", "€", "😀"],
    &["ß", "Ÿ", "ÿ", "ı", "i"],
];

/// All words of `letters` letters, in the order of the alphabet.
fn words(alphabet: &[&str], letters: usize) -> Vec<String> {
    let mut words = vec![String::new()];
    for _ in 0..letters {
        words = words
            .iter()
            .flat_map(|word| alphabet.iter().map(move |letter| format!("{word}{letter}")))
            .collect();
    }
    words
}

fn words_up_to(alphabet: &[&str], shortest: usize, longest: usize) -> Vec<String> {
    (shortest..=longest).flat_map(|letters| words(alphabet, letters)).collect()
}

fn two_letter_searches(list: &mut List) {
    for row in words_up_to(&["a", "b"], 0, 5) {
        for delimiter in words_up_to(&["a", "b"], 1, 3) {
            list.add_searches(&row, &delimiter, &SMALL);
        }
    }
    // An empty delimiter looks at no letter of the row: short ones will do.
    for row in words_up_to(&["a", "b"], 0, 3) {
        list.add_searches(&row, "", &SMALL);
    }
}

fn three_letter_searches(list: &mut List) {
    for row in words(&["a", "b", ","], 3) {
        for delimiter in [",", "a,", ",,", "b,a", ",a,"] {
            list.add_searches(&row, delimiter, &[-2, -1, 1, 2]);
        }
    }
}

fn two_byte_letter_searches(list: &mut List) {
    for row in words_up_to(&["è", "é"], 1, 4) {
        for delimiter in words_up_to(&["è", "é"], 1, 2) {
            list.add_searches(&row, &delimiter, &[-2, -1, 1, 2]);
        }
    }
}

fn overlapping_delimiter_searches(list: &mut List, generator: &mut Generator) {
    const DELIMITERS: [&str; 9] =
        ["aa", "--", "aba", "abab", "aaa", "aabaa", "éé", "éaé", "😀😀"];
    for delimiter in DELIMITERS {
        for copies in 1..=4 {
            let end = generator.piece(delimiter, 2);
            list.add_searches(&delimiter.repeat(copies), delimiter, &[-3, -2, -1, 1, 2, 3]);
            list.add_searches(&(delimiter.repeat(copies) + &end), delimiter, &[-2, -1, 1, 2]);
        }
        for _ in 0..7 {
            let pieces = generator.between(3, 9);
            let row: String = (0..pieces).map(|_| generator.piece(delimiter, 3)).collect();
            list.add_searches(&row, delimiter, &[-3, -2, -1, 1, 2, 3]);
        }
    }
}

fn searches_around_the_inline_length(list: &mut List, generator: &mut Generator) {
    const LETTERS: [&[&str]; 4] =
        [&["a", "b", ","], &["x", "y", "z", ",", ";"], &["-", "a"], &["é", "a", ","]];
    for bytes in LENGTHS {
        for letters in LETTERS {
            for _ in 0..6 {
                let row = generator.word_of_bytes(letters, bytes);
                let length = generator.between(1, 2);
                let delimiter = generator.word(letters, length);
                let number = generator.between(1, 6) as i64;
                list.add_searches(&row, &delimiter, &[-number, -1, 1, number]);
            }
        }
    }
}

fn multi_byte_searches(list: &mut List, generator: &mut Generator) {
    for alphabet in ALPHABETS {
        for _ in 0..45 {
            let length = generator.between(0, 12);
            let row = generator.word(alphabet, length);
            let length = generator.between(1, 2);
            let delimiter = generator.word(alphabet, length);
            let number = generator.between(1, 4) as i64;
            list.add_searches(&row, &delimiter, &[-number, number]);
        }
    }
}

/// Every printable and control character of ASCII but NUL, which PostgreSQL's
/// text cannot hold.
fn ascii_letters() -> Vec<String> {
    (1..=127u8).map(|byte| char::from(byte).to_string()).collect()
}

fn whole_ascii_searches(list: &mut List, generator: &mut Generator) {
    let letters = ascii_letters();
    let letters: Vec<&str> = letters.iter().map(String::as_str).collect();
    for _ in 0..80 {
        let length = generator.between(1, 20);
        let row = generator.word(&letters, length);
        let delimiter = generator.piece(&row, 3);
        list.add_searches(&row, &delimiter, &[-2, -1, 1, 2]);
    }
}

fn everyday_searches(list: &mut List) {
    const ROWS: [(&str, &str); 8] = [
        ("a,b,c", ","),
        ("www.apache.org", "."),
        ("1.2.3.4.5", "."),
        ("abc~@~def~@~ghi", "~@~"),
        ("/usr/share/cargo/registry/", "/"),
        ("key: value: more", ": "),
        ("naïve café, crème brûlée", "é"),
        ("one\ttwo\\three'four\"five", "\t"),
    ];
    for (row, delimiter) in ROWS {
        list.add_searches(row, delimiter, &[-6, -5, -4, -3, -2, -1, 0, 1, 2, 3, 4, 5, 6]);
    }
}

/// Rows and delimiters beyond the lengths at which memchr changes from one
/// way of searching to another.
fn long_searches(list: &mut List, generator: &mut Generator) {
    for round in 0..24 {
        let letters = generator.pick(&[&["a", "b"][..], &["a", "b", "c", "é", ","]]);
        let delimiter = generator.word_of_bytes(letters, [1, 2, 5, 17, 33, 70][round % 6]);
        let mut row = String::new();
        while row.len() < 200 {
            let length = generator.between(0, 30);
            row += &generator.word_of_bytes(letters, length);
            row += &delimiter;
        }
        row += generator.word(letters, 2).as_str();
        list.add_searches(&row, &delimiter, &[-3, -1, 1, 2]);
    }
}

/// Delimiters equal to the row, longer than it, or all of it but an end.
fn delimiters_like_the_row(list: &mut List, generator: &mut Generator) {
    for alphabet in [&["a", "b"][..], &["é", "è"], &["a", "€", "😀"]] {
        for length in [0, 1, 2, 3, 6, 12] {
            let row = generator.word(alphabet, length);
            let letter = generator.word(alphabet, 1);
            let twice = format!("{row}{row}");
            let longer = format!("{row}{letter}");
            let before = format!("{letter}{row}");
            for delimiter in [&row, &twice, &longer, &before] {
                list.add_searches(&row, delimiter, &[-2, -1, 1, 2]);
            }
            list.add_searches(&longer, &row, &[-2, -1, 1, 2]);
            list.add_searches(&before, &row, &[-2, -1, 1, 2]);
        }
    }
}

fn extreme_searches(list: &mut List) {
    const ROWS: [(&str, &[&str]); 5] = [
        ("", &["", ",", "ab"]),
        ("a,b,c", &["", ",", "b,", "é"]),
        ("aaaa", &["a", "aa"]),
        ("è,é,è", &[",", "é", "è,"]),
        ("abcabcabcabcabc", &["c", "abc"]),
    ];
    for (row, delimiters) in ROWS {
        for delimiter in delimiters {
            list.add_searches(row, delimiter, &EXTREME);
        }
    }
}

fn two_letter_trims(list: &mut List) {
    for row in words_up_to(&["a", "b"], 0, 5) {
        for set in ["", "a", "b", "ab"] {
            list.add_trims(&row, set);
        }
    }
    for row in words(&["a", "b", "c"], 4) {
        for set in ["a", "cb"] {
            list.add_trims(&row, set);
        }
    }
}

fn everyday_trims(list: &mut List) {
    const ROWS: [(&str, &str); 6] = [
        ("xxx", "x"),
        ("  padded by spaces  ", " "),
        ("--[title]--", "-[]"),
        ("0012300", "0"),
        ("«é»", "«»"),
        ("\r\nline\r\n", "\n\r"),
    ];
    for (row, set) in ROWS {
        list.add_trims(row, set);
    }
}

/// A word of the set, then others, then a word of the set: both ends have
/// something to lose.
fn wrapped_row(generator: &mut Generator, set: &[&str], others: &[&str]) -> String {
    let (left, middle, right) =
        (generator.below(5), generator.below(4), generator.below(5));
    let start = generator.word(set, left);
    let inner: Vec<&str> = others.iter().chain(set).copied().collect();
    start + &generator.word(&inner, middle) + &generator.word(set, right)
}

const SETS: [(&[&str], &[&str]); 12] = [
    (&[" "], &["a", "\t"]),
    (&["x"], &["y", "é"]),
    (&["\t", "\n", " "], &["a", "\u{a0}"]),
    (&["a", "a"], &["b"]),
    (&["é"], &["è", "a"]),
    (&["é", "€"], &["è", "₭", "x"]),
    (&["€"], &["₭", "a"]),
    (&["😀"], &["😁", "a"]),
    (&["😀", "a", "é"], &["😁", "b", "è"]),
    (&["中", "串"], &["丨", "-"]),
    (&["\\", "'", "\"", "%"], &["a", "_"]),
    (&["è", "¨"], &["é", "ɨ"]),
];

fn wrapped_trims(list: &mut List, generator: &mut Generator) {
    for (set, others) in SETS {
        let characters = set.concat();
        list.add_trims("", &characters);
        for letters in [1, 2, 5, 13] {
            list.add_trims(&generator.word(set, letters), &characters);
        }
        for _ in 0..30 {
            let row = wrapped_row(generator, set, others);
            list.add_trims(&row, &characters);
        }
    }
}

fn trims_around_the_inline_length(list: &mut List, generator: &mut Generator) {
    for bytes in LENGTHS {
        for (set, others) in SETS {
            let kept = generator.word_of_bytes(others, bytes);
            let (left, right) = (generator.below(4), generator.below(4));
            let row = generator.word(set, left) + &kept + &generator.word(set, right);
            list.add_trims(&row, &set.concat());
            list.add_trims(&kept, "");
        }
    }
}

pub fn all() -> Vec<Request> {
    let mut list = List::default();
    let mut generator = Generator::new(0x0da7_af05_1055_0000);
    everyday_searches(&mut list);
    two_letter_searches(&mut list);
    three_letter_searches(&mut list);
    two_byte_letter_searches(&mut list);
    overlapping_delimiter_searches(&mut list, &mut generator);
    searches_around_the_inline_length(&mut list, &mut generator);
    multi_byte_searches(&mut list, &mut generator);
    whole_ascii_searches(&mut list, &mut generator);
    long_searches(&mut list, &mut generator);
    delimiters_like_the_row(&mut list, &mut generator);
    extreme_searches(&mut list);
    everyday_trims(&mut list);
    two_letter_trims(&mut list);
    wrapped_trims(&mut list, &mut generator);
    trims_around_the_inline_length(&mut list, &mut generator);
    list.ordered
}
