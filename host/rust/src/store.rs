//! The store: records in lent words, and a type that owns them.

use crate::refusal::ask;
use crate::{ffi, Label, Refusal, Table};

/// The words of a record: the sixteen of its label, its name, its next number, two payload words.
pub const RECORD_WORDS: usize = 20;
/// The most records that a store can have.
pub const MAX_RECORDS: usize = 4_096;

/// What an accepted entry answers.
#[derive(Clone, Copy, Debug, PartialEq, Eq)]
pub struct Entry {
    /// The records in use after the entry.
    pub count: usize,
    /// The new element's label.
    pub label: Label,
}

/// Writes the root as record 0 and answers the count, 1. The rest of the slice is untouched.
/// Refused 18, 21.
///
/// ```
/// use jiszteruk::{new_store, Refusal, RECORD_WORDS};
///
/// let mut words = [0; 8 * RECORD_WORDS];
/// assert_eq!(new_store(&mut words, 0, [7, 9]), Ok(1));
/// assert_eq!(words[16..20], [0, 0, 7, 9]);
///
/// let refusal = new_store(&mut words[1..], 0, [7, 9]).unwrap_err();
/// assert_eq!(refusal.number, Refusal::STORE_SIZE);
/// ```
pub fn new_store(store: &mut [u16], root: u8, payload: [u16; 2]) -> Result<usize, Refusal> {
    ask(|answer| ffi::new_store(store, root, payload, answer))
}

/// Checks the first `count` records. Refused 18; then at the first record that breaks a rule by the
/// first rule that it breaks: 19 layout, 23 order or parent, 24 name, 25 last component or next
/// number.
///
/// A store that is refused 19 or 23, or 24 at record 0, is refused under every name table: its file
/// is torn. One that is whole under some table is refused under another by 24 or 25 alone.
///
/// ```
/// use jiszteruk::{check_store, enter, new_store, Label, Refusal, Table, RECORD_WORDS};
///
/// let table = Table::bench();
/// let mut words = [0; 2 * RECORD_WORDS];
/// let count = new_store(&mut words, 0, [0, 0])?;
/// check_store(&table, &words, count)?;
///
/// // The second record is all zeros, and depth 0 is for record 0 only: a torn file.
/// let refusal = check_store(&table, &words, 2).unwrap_err();
/// assert_eq!(refusal, Refusal { number: Refusal::BAD_LAYOUT, place: 1 });
///
/// // Of a store with a vehicle, under a table in which no name has children: a wrong name table.
/// let count = enter(&table, &mut words, count, &Label::ROOT, 1, [0, 0])?.count;
/// let refusal = check_store(&Table::read(&[])?, &words, count).unwrap_err();
/// assert_eq!(refusal, Refusal { number: Refusal::BAD_NEXT, place: 0 });
/// # Ok::<(), Refusal>(())
/// ```
pub fn check_store(table: &Table, store: &[u16], count: usize) -> Result<(), Refusal> {
    ask(|answer| ffi::check_store(table.as_bytes(), store, count, answer)).map(|_| ())
}

/// Enters an element below a parent; later records move up. Refused 18, 19, 23 to 25, 15, 9, 10,
/// 11, 12, 13; then the slice is as it was.
///
/// ```
/// use jiszteruk::{enter, new_store, Label, Refusal, Table, RECORD_WORDS};
///
/// let table = Table::bench();
/// let mut words = [0; 8 * RECORD_WORDS];
/// let count = new_store(&mut words, 0, [0, 0])?;
/// let vehicle = enter(&table, &mut words, count, &Label::ROOT, 1, [0, 0])?;
/// let note = enter(&table, &mut words, vehicle.count, &vehicle.label, 5, [0, 0])?;
/// assert_eq!((note.count, note.label.components()), (3, &[0, 1][..]));
/// # Ok::<(), Refusal>(())
/// ```
pub fn enter(
    table: &Table,
    store: &mut [u16],
    count: usize,
    parent: &[u16],
    name: u8,
    payload: [u16; 2],
) -> Result<Entry, Refusal> {
    let mut words = [0; Label::WORDS];
    let count = ask(|answer| {
        ffi::enter(
            table.as_bytes(),
            store,
            count,
            parent,
            name,
            payload,
            &mut words,
            answer,
        )
    })?;
    let label = Label::answered(words);
    Ok(Entry { count, label })
}

/// Deletes an element with all below it and answers the new count; the freed records are zeros.
/// Refused 18, 19, 23 to 25, 15, 14, 9; then the slice is as it was.
///
/// ```
/// use jiszteruk::{delete, enter, new_store, Label, Refusal, Table, RECORD_WORDS};
///
/// let table = Table::bench();
/// let mut words = [0; 8 * RECORD_WORDS];
/// let count = new_store(&mut words, 0, [0, 0])?;
/// let first = enter(&table, &mut words, count, &Label::ROOT, 1, [0, 0])?;
/// let count = delete(&table, &mut words, first.count, &first.label)?;
/// assert_eq!(count, 1);
///
/// // The room is used again, the number is not.
/// let second = enter(&table, &mut words, count, &Label::ROOT, 1, [0, 0])?;
/// assert_eq!(second.label.components(), [1]);
/// # Ok::<(), Refusal>(())
/// ```
pub fn delete(
    table: &Table,
    store: &mut [u16],
    count: usize,
    label: &[u16],
) -> Result<usize, Refusal> {
    ask(|answer| ffi::delete(table.as_bytes(), store, count, label, answer))
}

/// Writes the labels of all elements with a name, or of all elements for 255, in label order, and
/// answers how many they are. Refused 18, 19, 23 to 25, 7, 17; then the output is untouched.
///
/// ```
/// use jiszteruk::{cut, Label, Refusal, Store, Table};
///
/// let table = Table::bench();
/// let mut store = Store::new(8, 0, [0, 0])?;
/// let vehicle = store.enter(&table, &Label::ROOT, 1, [0, 0])?;
/// let mut out = [0; Label::WORDS];
/// assert_eq!(cut(&table, store.words(), store.count(), 1, &mut out), Ok(1));
/// assert_eq!(out[..], vehicle[..]);
///
/// let refusal = cut(&table, store.words(), store.count(), 1, &mut out[1..]).unwrap_err();
/// assert_eq!(refusal.number, Refusal::SHORT_OUTPUT);
/// # Ok::<(), Refusal>(())
/// ```
pub fn cut(
    table: &Table,
    store: &[u16],
    count: usize,
    name: u8,
    out: &mut [u16],
) -> Result<usize, Refusal> {
    ask(|answer| ffi::cut(table.as_bytes(), store, count, name, out, answer))
}

/// A store that owns its words and its count. Every call with it is to be made with the same table.
///
/// ```
/// use jiszteruk::{Label, Refusal, Store, Table};
///
/// let table = Table::bench();
/// let mut store = Store::new(100, 0, [0, 0])?;
/// let vehicle = store.enter(&table, &Label::ROOT, 1, [0, 0])?;
/// let test = store.enter(&table, &vehicle, 2, [0, 0])?;
/// assert_eq!(store.count(), 3);
/// assert_eq!(store.cut(&table, 2)?, test[..]);
///
/// store.delete(&table, &vehicle)?;
/// assert_eq!(store.count(), 1);
/// let refusal = store.delete(&table, &test).unwrap_err();
/// assert_eq!(refusal.number, Refusal::NO_RECORD);
/// # Ok::<(), Refusal>(())
/// ```
#[derive(Clone, Debug, PartialEq, Eq)]
pub struct Store {
    words: Vec<u16>,
    count: usize,
}

impl Store {
    /// A new store with room for so many records, 4,096 at most. Refused 18 for no room, 21.
    pub fn new(room: usize, root: u8, payload: [u16; 2]) -> Result<Store, Refusal> {
        let mut words = vec![0; room.min(MAX_RECORDS) * RECORD_WORDS];
        let count = new_store(&mut words, root, payload)?;
        Ok(Store { words, count })
    }

    /// Takes words of which `count` records are in use. Refused 18, 19, 23 to 25.
    ///
    /// ```
    /// use jiszteruk::{Label, Refusal, Store, Table};
    ///
    /// let table = Table::bench();
    /// let mut store = Store::new(2, 0, [0, 0])?;
    /// store.enter(&table, &Label::ROOT, 1, [0, 0])?;
    /// let again = Store::from_words(&table, store.words().to_vec(), store.count())?;
    /// assert_eq!(again, store);
    /// # Ok::<(), Refusal>(())
    /// ```
    pub fn from_words(table: &Table, words: Vec<u16>, count: usize) -> Result<Store, Refusal> {
        check_store(table, &words, count)?;
        Ok(Store { words, count })
    }

    /// The records in use.
    pub fn count(&self) -> usize {
        self.count
    }

    /// The words of the records in use, in label order.
    pub fn words(&self) -> &[u16] {
        &self.words[..self.count * RECORD_WORDS]
    }

    /// Enters an element and gives its label. Refused as [`enter`] is.
    pub fn enter(
        &mut self,
        table: &Table,
        parent: &[u16],
        name: u8,
        payload: [u16; 2],
    ) -> Result<Label, Refusal> {
        let entry = enter(table, &mut self.words, self.count, parent, name, payload)?;
        self.count = entry.count;
        Ok(entry.label)
    }

    /// Deletes an element with all below it. Refused as [`delete`] is.
    pub fn delete(&mut self, table: &Table, label: &[u16]) -> Result<(), Refusal> {
        self.count = delete(table, &mut self.words, self.count, label)?;
        Ok(())
    }

    /// The stream of a name, or of all for 255: sixteen words for each label. Refused 19, 23 to
    /// 25, 7.
    pub fn cut(&self, table: &Table, name: u8) -> Result<Vec<u16>, Refusal> {
        let mut out = vec![0; self.count * Label::WORDS];
        let labels = cut(table, &self.words, self.count, name, &mut out)?;
        out.truncate(labels * Label::WORDS);
        Ok(out)
    }
}
