//! The table of child names.

use crate::refusal::ask;
use crate::{ffi, Label, Refusal};

/// Which names may stand below which: sixty-four rows of sixty-four name numbers, each filled up
/// with 255. A `Table` is always one that the library accepts, so no call with it is refused 22.
///
/// ```
/// use jiszteruk::{Refusal, Table};
///
/// // Below 0 stand 1 and 2, below 1 stands 2.
/// let table = Table::read(&[0, 1, 0, 2, 1, 2])?;
/// assert_eq!(table.as_bytes()[..3], [1, 2, 255]);
///
/// // The same pair a second time.
/// let refusal = Table::read(&[0, 1, 0, 1]).unwrap_err();
/// assert_eq!(refusal, Refusal { number: Refusal::PAIR_AGAIN, place: 1 });
/// # Ok::<(), Refusal>(())
/// ```
#[derive(Clone, Debug, PartialEq, Eq)]
pub struct Table {
    bytes: [u8; Table::BYTES],
}

impl Table {
    /// How many names there are: names are the numbers below it.
    pub const NAMES: usize = 64;
    /// The length of a table in bytes.
    pub const BYTES: usize = Self::NAMES * Self::NAMES;
    /// Fills up a row, and is no name.
    pub const FILLER: u8 = 255;

    /// The table of empty clues.
    const EMPTY: Table = Table {
        bytes: [Self::FILLER; Self::BYTES],
    };

    /// Reads a child-name file: pairs of bytes, parent then child. Refused 1, 2, 3, and then there is
    /// no table. The empty file gives a table of empty clues.
    pub fn read(file: &[u8]) -> Result<Table, Refusal> {
        let mut table = Self::EMPTY;
        ask(|answer| ffi::read_names(file, &mut table.bytes, answer))?;
        Ok(table)
    }

    /// The bench's own table: 0 garage, 1 vehicle, 2 test, 3 axle, 4 curve, 5 note.
    ///
    /// ```
    /// use jiszteruk::Table;
    ///
    /// let pairs = [0, 1, 1, 2, 1, 5, 2, 5, 2, 3, 2, 4, 3, 4];
    /// assert_eq!(Table::bench(), Table::read(&pairs).unwrap());
    /// ```
    pub fn bench() -> Table {
        let mut table = Self::EMPTY;
        // The length is right, so the call is taken.
        ffi::bench_table(&mut table.bytes);
        table
    }

    /// Takes a table laid out in bytes, row by row. Refused 22, also where there are not 4,096.
    ///
    /// ```
    /// use jiszteruk::{Refusal, Table};
    ///
    /// let bytes = *Table::bench().as_bytes();
    /// assert_eq!(Table::from_bytes(&bytes), Ok(Table::bench()));
    /// let refusal = Table::from_bytes(&bytes[1..]).unwrap_err();
    /// assert_eq!(refusal.number, Refusal::BAD_TABLE);
    /// ```
    pub fn from_bytes(bytes: &[u8]) -> Result<Table, Refusal> {
        ask(|answer| ffi::check_table(bytes, answer))?;
        let mut table = Self::EMPTY;
        table.bytes.copy_from_slice(bytes);
        Ok(table)
    }

    /// The rows, one after the other.
    pub fn as_bytes(&self) -> &[u8; Self::BYTES] {
        &self.bytes
    }

    /// The names on the way from the root to a label, one more than its depth; the rest of the
    /// sixteen places are 0. Refused 21, 15, 16.
    ///
    /// ```
    /// use jiszteruk::{Label, Refusal, Table};
    ///
    /// let table = Table::bench();
    /// let label = Label::from_components(&[1, 2, 4, 0])?;
    /// assert_eq!(table.decode(0, &label)?[..=label.depth()], [0, 1, 2, 3, 4]);
    ///
    /// // The third component reaches a note, and a note has no children.
    /// let below_note = Label::from_components(&[0, 0, 0, 0])?;
    /// let refusal = table.decode(0, &below_note).unwrap_err();
    /// assert_eq!(refusal, Refusal { number: Refusal::EMPTY_CLUE, place: 4 });
    /// # Ok::<(), Refusal>(())
    /// ```
    pub fn decode(&self, root: u8, label: &[u16]) -> Result<[u8; Label::WORDS], Refusal> {
        let mut names = [0; Label::WORDS];
        ask(|answer| ffi::decode(&self.bytes, root, label, &mut names, answer))?;
        Ok(names)
    }
}
