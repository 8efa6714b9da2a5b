//! Names and what may stand below them.

use super::{number, refuse, refuse_at, Answer};

/// How many names there are: names are the numbers below it.
pub const NAMES: usize = 64;
/// Fills up a row of a table.
pub const FILLER: u8 = 255;
/// Asks for any name, in a twig and in cutting.
pub const ANY: u8 = 255;
/// The bytes of a table.
pub const TABLE_BYTES: usize = NAMES * NAMES;
/// The most bytes of a child-name file.
pub const MAX_FILE: usize = 8_192;
/// The bench's own pairs.
pub const BENCH_FILE: [u8; 14] = [0, 1, 1, 2, 1, 5, 2, 5, 2, 3, 2, 4, 3, 4];

/// For each name its clue: the names that may stand below it, in file order.
pub type Clues = Vec<Vec<u8>>;

pub fn is_name(byte: u8) -> bool {
    usize::from(byte) < NAMES
}

/// A name asked for: `None` for any.
pub fn asked(byte: u8, place: usize) -> Answer<Option<u8>> {
    match byte {
        ANY => Ok(None),
        name if is_name(name) => Ok(Some(name)),
        _ => refuse_at(number::NAME_ASKED, place),
    }
}

/// A root name: 21.
pub fn check_root(root: u8) -> Answer<()> {
    if is_name(root) {
        Ok(())
    } else {
        refuse(number::BAD_ROOT)
    }
}

/// Reads a child-name file: 1 first, then pair by pair 2, 3.
pub fn read_file(file: &[u8]) -> Answer<Clues> {
    if !file.len().is_multiple_of(2) || file.len() > MAX_FILE {
        return refuse(number::FILE_LENGTH);
    }
    let mut clues = vec![Vec::new(); NAMES];
    for (place, pair) in file.chunks(2).enumerate() {
        let (parent, child) = (pair[0], pair[1]);
        if !is_name(parent) || !is_name(child) {
            return refuse_at(number::NAME_TOO_HIGH, place);
        }
        let clue: &mut Vec<u8> = &mut clues[usize::from(parent)];
        if clue.contains(&child) {
            return refuse_at(number::PAIR_AGAIN, place);
        }
        clue.push(child);
    }
    Ok(clues)
}

/// The table of these clues: each row filled up.
pub fn rows(clues: &Clues) -> Vec<u8> {
    let row = |clue: &Vec<u8>| {
        let mut row = clue.clone();
        row.resize(NAMES, FILLER);
        row
    };
    clues.iter().flat_map(row).collect()
}

/// The table of empty clues.
pub fn empty_table() -> Vec<u8> {
    vec![FILLER; TABLE_BYTES]
}

/// The clues of a table: 22.
pub fn read_table(table: &[u8]) -> Answer<Clues> {
    if table.len() != TABLE_BYTES {
        return refuse(number::BAD_TABLE);
    }
    let clues: Option<Clues> = table.chunks(NAMES).map(read_row).collect();
    clues.map_or(refuse(number::BAD_TABLE), Ok)
}

/// The clue of a row, if the row is a good one.
fn read_row(row: &[u8]) -> Option<Vec<u8>> {
    let used = row.iter().take_while(|&&entry| entry != FILLER).count();
    let (clue, rest) = row.split_at(used);
    let names_only = clue.iter().all(|&entry| is_name(entry));
    let filled_up = rest.iter().all(|&entry| entry == FILLER);
    let once_each = (0..used).all(|at| !clue[..at].contains(&clue[at]));
    (names_only && filled_up && once_each).then(|| clue.to_vec())
}
