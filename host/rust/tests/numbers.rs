//! The header, the library's source and the Rust type have the same names and numbers of refusals.

use std::fs;
use std::path::Path;

use jiszteruk::Refusal;

const HEADER: &str = "../../include/jiszteruk.h";
const SOURCE: &str = "../../crates/refusals/src/lib.rt";
const REFUSALS: usize = 25;

type Numbers = Vec<(String, u8)>;

/// The lines of a file, given from the package's folder.
fn lines(file: &str) -> Vec<String> {
    let path = Path::new(env!("CARGO_MANIFEST_DIR")).join(file);
    let text = fs::read_to_string(&path);
    let text = text.unwrap_or_else(|error| panic!("{}: {error}", path.display()));
    text.lines().map(|line| line.trim().to_string()).collect()
}

fn numbers(file: &str, read: impl Fn(&str) -> Option<(String, u8)>) -> Numbers {
    lines(file).iter().filter_map(|line| read(line)).collect()
}

/// `#define JISZTERUK_NAME number`, where the number is that of a refusal.
fn define(line: &str) -> Option<(String, u8)> {
    let mut words = line.strip_prefix("#define JISZTERUK_")?.split_whitespace();
    let (name, number) = (words.next()?, words.next()?);
    let name_only = name
        .chars()
        .all(|letter| letter.is_ascii_uppercase() || letter == '_');
    let number = number.trim_matches(['(', ')']).trim_end_matches(['u', 'U']);
    name_only.then_some((name.to_string(), number.parse().ok()?))
}

/// `pub const NAME: u8 = number;`
fn constant(line: &str) -> Option<(String, u8)> {
    let (name, number) = line.strip_prefix("pub const ")?.split_once(": u8 = ")?;
    Some((name.to_string(), number.strip_suffix(';')?.parse().ok()?))
}

fn rust_numbers() -> Numbers {
    let numbers = Refusal::NAMES.iter();
    numbers
        .map(|&(name, number)| (name.to_string(), number))
        .collect()
}

#[test]
fn the_rust_type_has_1_to_25() {
    let numbers: Vec<usize> = rust_numbers()
        .iter()
        .map(|(_, n)| usize::from(*n))
        .collect();
    assert_eq!(numbers, (1..=REFUSALS).collect::<Vec<_>>());
}

#[test]
fn the_source_has_the_same_numbers() {
    assert_eq!(numbers(SOURCE, constant), rust_numbers());
}

/// The header may define other numbers too, under other names.
#[test]
fn the_header_has_the_same_numbers() {
    let defined = numbers(HEADER, define);
    let names: Vec<_> = rust_numbers().into_iter().map(|(name, _)| name).collect();
    let refusals: Numbers = defined
        .into_iter()
        .filter(|(name, _)| names.contains(name))
        .collect();
    assert_eq!(refusals, rust_numbers());
}

#[test]
fn each_number_has_a_sentence_of_its_own() {
    let sentence = |&(_, number): &(&str, u8)| Refusal { number, place: 0 }.to_string();
    let mut sentences: Vec<_> = Refusal::NAMES.iter().map(sentence).collect();
    sentences.sort();
    sentences.dedup();
    assert_eq!(sentences.len(), REFUSALS);
}
