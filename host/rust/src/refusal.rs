//! Refusals: a number and a place, with a sentence for each number.

use std::error::Error;
use std::fmt;

/// Why a call was refused. A refused call leaves every lent buffer as it was.
///
/// ```
/// use jiszteruk::{check_twig, Refusal};
///
/// // Node 1 hangs below node 0 by an edge that is neither child (0) nor descendant (1).
/// let refusal = check_twig(&[255, 1, 1, 0, 0, 2, 3, 0]).unwrap_err();
/// assert_eq!(refusal, Refusal { number: Refusal::TWIG_EDGE, place: 1 });
/// assert_eq!(
///     refusal.to_string(),
///     "refused 6 at 1: the edge is neither 0 for child nor 1 for descendant",
/// );
/// ```
#[derive(Clone, Copy, Debug, PartialEq, Eq, Hash)]
pub struct Refusal {
    /// 1 to 25; each number has a constant of its own.
    pub number: u8,
    /// The pair, node, record or label from 0, the component from 1, or 0 where the number has no
    /// place.
    pub place: usize,
}

/// Makes a constant, a name and a sentence of each line, so that a number is said once.
macro_rules! refusals {
    ($($name:ident = $number:literal, $meaning:literal;)*) => {
        impl Refusal {
            $(
                #[doc = concat!("Refusal ", $number, ": ", $meaning, ".")]
                pub const $name: u8 = $number;
            )*

            /// The constants above, each with its name, in the order of the numbers.
            pub const NAMES: &'static [(&'static str, u8)] = &[$((stringify!($name), $number)),*];

            /// What the number means, in a sentence without its full stop.
            pub fn meaning(&self) -> &'static str {
                match self.number {
                    $($number => $meaning,)*
                    _ => "no refusal has this number",
                }
            }
        }
    };
}

refusals! {
    FILE_LENGTH = 1, "the child-name file has an odd length or over 8,192 bytes";
    NAME_TOO_HIGH = 2, "the pair has a name above 63";
    PAIR_AGAIN = 3, "the pair stood before";
    TWIG_LENGTH = 4, "the twig's length is 0, over 32 bytes or not a multiple of 4";
    TWIG_PARENT = 5, "the node's parent is not an earlier node, or for node 0 not 255";
    TWIG_EDGE = 6, "the edge is neither 0 for child nor 1 for descendant";
    NAME_ASKED = 7, "the name asked for is neither 0 to 63 nor 255 for any";
    TWIG_END = 8, "the node's fourth byte is not 0";
    NO_RECORD = 9, "no record in use has this label";
    NOT_IN_CLUE = 10, "the name may not stand below the parent";
    TOO_DEEP = 11, "the parent is at the deepest level, 15";
    NO_NUMBER = 12, "no number up to 65,534 is left below the parent for this name";
    NO_SPACE = 13, "the slice has no free record, or 4,096 records are in use";
    ROOT_STAYS = 14, "the root can't be deleted";
    NOT_LABEL = 15, "the words are no label";
    EMPTY_CLUE = 16, "the component stands below a name that has no children";
    SHORT_OUTPUT = 17, "the output is shorter than the whole result";
    STORE_SIZE = 18, "the store's length or count of records is not one that a store can have";
    BAD_LAYOUT = 19, "the record is not laid out as one; a torn file: take the copy before";
    BAD_STREAM = 20, "the streams' counts or length don't fit, or this label can't stand here";
    BAD_ROOT = 21, "the root name is above 63";
    BAD_TABLE = 22, "the table is not one that a good child-name file gives";
    BAD_ORDER = 23, "the record is out of label order or without its parent; a torn file: take \
        the copy before";
    BAD_NAME = 24, "the record's name is not the decoded one, or record 0's is above 63; a wrong \
        name table: look for the other names.tab, at record 0 take the copy before";
    BAD_NEXT = 25, "the record's last component is not below its parent's next number, or its own \
        next number is not 0 where nothing may stand below; a short name table or a torn file: \
        look for the other names.tab, then take the copy before";
}

impl fmt::Display for Refusal {
    fn fmt(&self, f: &mut fmt::Formatter<'_>) -> fmt::Result {
        let Refusal { number, place } = self;
        write!(f, "refused {number} at {place}: {}", self.meaning())
    }
}

impl Error for Refusal {}

/// The room of a call's answer: place and value.
const ANSWER_LEN: usize = 2;

/// What a call answers where it is taken.
const TAKEN: u8 = 0;

/// Makes a call and gives its value, or the refusal.
pub(crate) fn ask(call: impl FnOnce(&mut [usize]) -> u8) -> Result<usize, Refusal> {
    let mut answer = [0; ANSWER_LEN];
    let number = call(&mut answer);
    let [place, value] = answer;
    if number == TAKEN {
        Ok(value)
    } else {
        Err(Refusal { number, place })
    }
}
