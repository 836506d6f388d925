//! Writes the list of requests and the crate's answers to standard output.

mod answer;
mod generator;
mod requests;
mod split_part;
mod stand_ins;
mod substrindex;
mod trim;

use answer::{Answer, FormAnswer, Row};
use requests::{Kind, Request};
use std::collections::BTreeMap;
use std::io::{BufWriter, Write};

fn run_forms(request: &Request) -> Vec<FormAnswer> {
    let row = Row::new(&request.row);
    match request.kind {
        Kind::Split => split_part::forms(&row, &request.pattern, request.number),
        Kind::Index => substrindex::forms(&row, &request.pattern, request.number),
        Kind::Left => trim::left_forms(&row, &request.pattern),
        Kind::Right => trim::right_forms(&row, &request.pattern),
        Kind::Both => trim::both_forms(&row, &request.pattern),
    }
}

/// The answer all forms agree on; None, and a loud message, where they do not.
fn agreed_answer(request: &Request) -> Option<Answer> {
    let forms = run_forms(request);
    let (_, first) = &forms[0];
    if forms.iter().all(|(_, answer)| answer == first) {
        return Some(first.clone());
    }
    eprintln!("DISAGREEMENT on {request:?}");
    for (form, answer) in &forms {
        eprintln!("    {form}: {answer:?}");
    }
    None
}

fn hex(text: &str) -> String {
    if text.is_empty() {
        return "-".to_owned();
    }
    text.bytes().map(|byte| format!("{byte:02x}")).collect()
}

fn line(request: &Request, answer: &Answer) -> String {
    let place = answer.place.map_or("-1".to_owned(), |place| place.to_string());
    [
        request.kind.name().to_owned(),
        hex(&request.row),
        hex(&request.pattern),
        request.number.to_string(),
        hex(&answer.text),
        place,
    ]
    .join("\t")
}

fn main() {
    let mut output = BufWriter::new(std::io::stdout().lock());
    let mut counts: BTreeMap<&str, usize> = BTreeMap::new();
    let mut disagreements = 0;
    for request in requests::all() {
        let Some(answer) = agreed_answer(&request) else {
            disagreements += 1;
            continue;
        };
        *counts.entry(request.kind.name()).or_default() += 1;
        writeln!(output, "{}", line(&request, &answer)).unwrap();
    }
    output.flush().unwrap();
    eprintln!("lines per kind: {counts:?}; all: {}", counts.values().sum::<usize>());
    eprintln!("requests on which the forms disagree (left out): {disagreements}");
    if disagreements > 0 {
        std::process::exit(2);
    }
}
