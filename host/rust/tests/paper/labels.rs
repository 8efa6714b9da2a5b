//! Labels alone. A label is the list of its components. Rust's order of lists is the label order:
//! components compared in turn, a prefix first.

use super::names::{check_root, read_table, Clues};
use super::{number, refuse, refuse_at, Answer};

/// The words of a label outside the store.
pub const LABEL_WORDS: usize = 16;
pub const MAX_DEPTH: usize = 15;
pub const MAX_COMPONENT: u16 = 65_534;

pub type Label = Vec<u16>;

/// The components of a label's words: 15.
pub fn read_label(words: &[u16]) -> Answer<Label> {
    components(words).map_or(refuse(number::NOT_LABEL), Ok)
}

/// The components, if the words are a label.
pub fn components(words: &[u16]) -> Option<Label> {
    if words.len() != LABEL_WORDS || usize::from(words[0]) > MAX_DEPTH {
        return None;
    }
    let (used, unused) = words[1..].split_at(usize::from(words[0]));
    let small = used.iter().all(|&component| component <= MAX_COMPONENT);
    let zeros = unused.iter().all(|&word| word == 0);
    (small && zeros).then(|| used.to_vec())
}

/// The sixteen words of a label.
pub fn lay_out(label: &[u16]) -> [u16; LABEL_WORDS] {
    let mut words = [0; LABEL_WORDS];
    words[0] = label.len() as u16;
    words[1..=label.len()].copy_from_slice(label);
    words
}

/// The words of several labels, one after the other.
pub fn lay_out_all<'a>(labels: impl IntoIterator<Item = &'a Label>) -> Vec<u16> {
    labels
        .into_iter()
        .flat_map(|label| lay_out(label))
        .collect()
}

/// The names from the root to a label: 16.
pub fn path(clues: &Clues, root: u8, label: &[u16]) -> Answer<Vec<u8>> {
    let mut path = vec![root];
    let mut reached = root;
    for (before, &component) in label.iter().enumerate() {
        let clue = &clues[usize::from(reached)];
        if clue.is_empty() {
            return refuse_at(number::EMPTY_CLUE, before + 1);
        }
        reached = clue[usize::from(component) % clue.len()];
        path.push(reached);
    }
    Ok(path)
}

/// The name that a label decodes to, if it decodes.
pub fn name_of(clues: &Clues, root: u8, label: &[u16]) -> Option<u8> {
    path(clues, root, label).ok()?.last().copied()
}

/// Decoding: 22, 21, 15, 16.
pub fn decode(table: &[u8], root: u8, words: &[u16]) -> Answer<[u8; LABEL_WORDS]> {
    let clues = read_table(table)?;
    check_root(root)?;
    let path = path(&clues, root, &read_label(words)?)?;
    let mut names = [0; LABEL_WORDS];
    names[..path.len()].copy_from_slice(&path);
    Ok(names)
}

/// What the first label is to the second, by the paper's number: 15.
pub fn kinship(first: &[u16], second: &[u16]) -> Answer<usize> {
    const SAME: usize = 0;
    const PARENT: usize = 1;
    const HIGHER_ANCESTOR: usize = 2;
    const CHILD: usize = 3;
    const DEEPER_DESCENDANT: usize = 4;
    const NONE_OF_THESE: usize = 5;
    let (first, second) = (read_label(first)?, read_label(second)?);
    Ok(if first == second {
        SAME
    } else if second.starts_with(&first) {
        if second.len() == first.len() + 1 {
            PARENT
        } else {
            HIGHER_ANCESTOR
        }
    } else if first.starts_with(&second) {
        if first.len() == second.len() + 1 {
            CHILD
        } else {
            DEEPER_DESCENDANT
        }
    } else {
        NONE_OF_THESE
    })
}

/// Whether the first label is greater in label order: 15.
pub fn follows(first: &[u16], second: &[u16]) -> Answer<bool> {
    Ok(read_label(first)? > read_label(second)?)
}

/// The number for a child of place k in a clue of n names: the least that is at least `next` and
/// leaves k when divided by n. None where that is over the largest component.
pub fn number_for(next: u16, k: usize, n: usize) -> Option<u16> {
    (next..=MAX_COMPONENT).find(|&number| usize::from(number) % n == k)
}
