//! The refusals against document 01's own table and what document 02 adds to it.
use crate::Refusal;

const PAPER: &str = include_str!("../../../../docs/papers/01-scope.md");
const REQUESTS: &str = include_str!("../../../../docs/papers/02-change-requests.md");

/// The requests that have landed and add a refusal, each in a line of its own that says `Refusals: number, sentence, …`; and what the
/// sentence leaves to the request's name.
const LANDED: [(&str, &str); 2] = [("**C-11.", ""), ("**C-20. Two register blocks in one frame.", " in a frame")];

/// The rows that C-18 widens: number, the request's words, and behind which words of the row it puts which.
const WIDENED: [(u8, &str, &str, &str); 2] = [
    (2, "2 also for another base", "byte order not 0 or 1", "; base not 10 or 16"),
    (5, "5 for a bad digit in the chosen base", "breaks its form", " in the chosen base"),
];

/// What a request says of refusals.
fn refusals(request: &str) -> &'static str {
    let line = REQUESTS.lines().find(|line| line.starts_with(request)).expect(request);
    line.split_once("Refusals: ").expect(request).1
}

/// What a request adds: number and sentence.
fn added((request, more): (&str, &str)) -> (u8, String) {
    let refusals = refusals(request);
    let (number, rest) = refusals.split_once(", ").expect(request);
    let (sentence, _) = rest.split_once(',').expect(request);
    (number.parse().expect(request), [sentence, more].concat())
}

/// A row as C-18 has it.
fn widened((number, sentence): (u8, String)) -> (u8, String) {
    match WIDENED.iter().find(|row| row.0 == number) {
        Some((_, _, words, more)) => (number, sentence.replacen(words, &format!("{words}{more}"), 1)),
        None => (number, sentence),
    }
}

/// The rows of the table, and then those that are added: number and sentence.
fn rows() -> Vec<(u8, String)> {
    let cells = |line: &str| -> Option<(u8, String)> {
        let (number, sentence) = line.strip_prefix("| ")?.strip_suffix(" |")?.split_once(" | ")?;
        Some((number.parse().ok()?, sentence.to_string()))
    };
    PAPER.lines().filter_map(cells).chain(LANDED.map(added)).map(widened).collect()
}

#[test]
fn numbers_and_sentences_are_the_papers() {
    let own: Vec<(u8, String)> = Refusal::ALL.iter().map(|r| (r.number(), r.sentence().to_string())).collect();
    assert_eq!(own, rows());
}

#[test]
fn the_widened_rows_are_those_of_the_request() {
    let said: Vec<&str> = WIDENED.iter().map(|row| row.1).collect();
    assert_eq!(refusals("**C-18."), said.join("; ") + ".");
}

#[test]
fn a_number_has_its_refusal() {
    for refusal in Refusal::ALL {
        assert_eq!(Refusal::of_number(refusal.number()), Some(refusal));
    }
    for number in 0..=u8::MAX {
        assert_eq!(Refusal::of_number(number).is_some(), matches!(number, 1..=18 | 24), "{number}");
    }
}

#[test]
fn it_prints_number_and_sentence() {
    let error: Box<dyn std::error::Error> = Box::new(Refusal::RangesOverlap);
    assert_eq!(error.to_string(), "refusal 17: two CPU ranges overlap");
}
