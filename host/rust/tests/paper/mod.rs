//! Every call a second time, written from document 01 ("the paper") and from nothing else. Each
//! function follows the paper's sentences with lists of labels, slowly.

pub mod book;
pub mod labels;
pub mod names;
pub mod store;
pub mod twigs;

/// A refusal: its number and its place.
#[derive(Clone, Copy, Debug, PartialEq, Eq)]
pub struct Fault {
    pub number: u8,
    pub place: usize,
}

pub type Answer<T> = Result<T, Fault>;

/// A refusal at a place.
pub fn refuse_at<T>(number: u8, place: usize) -> Answer<T> {
    Err(Fault { number, place })
}

/// A refusal that has no place.
pub fn refuse<T>(number: u8) -> Answer<T> {
    refuse_at(number, 0)
}

/// The numbers of "Who can cause which refusal", and those that request #101 adds.
pub mod number {
    pub const FILE_LENGTH: u8 = 1;
    pub const NAME_TOO_HIGH: u8 = 2;
    pub const PAIR_AGAIN: u8 = 3;
    pub const TWIG_LENGTH: u8 = 4;
    pub const TWIG_PARENT: u8 = 5;
    pub const TWIG_EDGE: u8 = 6;
    pub const NAME_ASKED: u8 = 7;
    pub const TWIG_END: u8 = 8;
    pub const NO_RECORD: u8 = 9;
    pub const NOT_IN_CLUE: u8 = 10;
    pub const TOO_DEEP: u8 = 11;
    pub const NO_NUMBER: u8 = 12;
    pub const NO_SPACE: u8 = 13;
    pub const ROOT_STAYS: u8 = 14;
    pub const NOT_LABEL: u8 = 15;
    pub const EMPTY_CLUE: u8 = 16;
    pub const SHORT_OUTPUT: u8 = 17;
    pub const STORE_SIZE: u8 = 18;
    pub const BAD_LAYOUT: u8 = 19;
    pub const BAD_STREAM: u8 = 20;
    pub const BAD_ROOT: u8 = 21;
    pub const BAD_TABLE: u8 = 22;
    pub const BAD_ORDER: u8 = 23;
    pub const BAD_NAME: u8 = 24;
    pub const BAD_NEXT: u8 = 25;

    /// The numbers of a record that breaks a rule, in the order of the rules.
    pub const OF_RECORDS: [u8; 4] = [BAD_LAYOUT, BAD_ORDER, BAD_NAME, BAD_NEXT];

    /// The highest number of a refusal.
    pub const HIGHEST: usize = 25;
}
