//! Twigs and their matches.

use crate::refusal::ask;
use crate::{ffi, Refusal, Table};

/// Checks a twig: 1 to 8 nodes of 4 bytes, the number of the parent (255 for node 0), the edge (0
/// child, 1 descendant), the name (255 for any) and a zero. Refused 4 to 8.
///
/// ```
/// use jiszteruk::{check_twig, Refusal};
///
/// // A vehicle anywhere with an axle somewhere below it.
/// check_twig(&[255, 1, 1, 0, 0, 1, 3, 0])?;
///
/// let refusal = check_twig(&[255, 1, 1]).unwrap_err();
/// assert_eq!(refusal.number, Refusal::TWIG_LENGTH);
/// # Ok::<(), Refusal>(())
/// ```
pub fn check_twig(twig: &[u8]) -> Result<(), Refusal> {
    ask(|answer| ffi::check_twig(twig, answer)).map(|_| ())
}

/// Writes every match of a twig, one label of sixteen words for each node, and answers how many
/// matches there are. The leaves' streams stand one after the other in `buffer`, in the order of
/// their nodes; `counts` says how many labels each has. Refused 21, 4 to 8, 20, 17; then the output
/// is untouched.
///
/// ```
/// use jiszteruk::{match_twig, Label, Refusal, Store, Table};
///
/// let table = Table::bench();
/// let mut store = Store::new(8, 0, [0, 0])?;
/// let vehicle = store.enter(&table, &Label::ROOT, 1, [0, 0])?;
/// let test = store.enter(&table, &vehicle, 2, [0, 0])?;
/// let axle = store.enter(&table, &test, 3, [0, 0])?;
///
/// // A vehicle anywhere with an axle somewhere below it. The axle is the only leaf.
/// let twig = [255, 1, 1, 0, 0, 1, 3, 0];
/// let axles = store.cut(&table, 3)?;
/// let counts = [axles.len() / Label::WORDS];
/// let mut out = [0; 2 * Label::WORDS];
/// assert_eq!(match_twig(&table, 0, &twig, &counts, &axles, &mut out), Ok(1));
/// assert_eq!(out[..Label::WORDS], vehicle[..]);
/// assert_eq!(out[Label::WORDS..], axle[..]);
/// # Ok::<(), Refusal>(())
/// ```
pub fn match_twig(
    table: &Table,
    root: u8,
    twig: &[u8],
    counts: &[usize],
    buffer: &[u16],
    out: &mut [u16],
) -> Result<usize, Refusal> {
    ask(|answer| ffi::match_twig(table.as_bytes(), root, twig, counts, buffer, out, answer))
}
