//! The store: lent words, 20 to a record, and a count of records in use.

use super::labels::{components, lay_out, name_of, number_for, read_label, Label};
use super::labels::{LABEL_WORDS, MAX_DEPTH};
use super::names::{asked, check_root, is_name, read_table, Clues};
use super::{number, refuse, refuse_at, Answer};

pub const RECORD_WORDS: usize = 20;
pub const MAX_RECORDS: usize = 4_096;
/// Where the name, the next number and the payload stand in a record.
pub const NAME_AT: usize = 16;
pub const NEXT_AT: usize = 17;
pub const PAYLOAD_AT: usize = 18;

/// A sound record.
#[derive(Clone, Debug)]
pub struct Record {
    pub label: Label,
    pub name: u8,
    pub next: u16,
    pub payload: [u16; 2],
}

impl Record {
    pub fn words(&self) -> [u16; RECORD_WORDS] {
        let mut words = [0; RECORD_WORDS];
        words[..LABEL_WORDS].copy_from_slice(&lay_out(&self.label));
        words[NAME_AT] = u16::from(self.name);
        words[NEXT_AT] = self.next;
        words[PAYLOAD_AT..].copy_from_slice(&self.payload);
        words
    }
}

/// The words of records, one after the other.
pub fn lay_out_records(records: &[Record]) -> Vec<u16> {
    records.iter().flat_map(Record::words).collect()
}

/// 18 by the length alone, as a new store has it.
pub fn check_length(len: usize) -> Answer<()> {
    if len == 0 || !len.is_multiple_of(RECORD_WORDS) {
        return refuse(number::STORE_SIZE);
    }
    Ok(())
}

/// 18 by length and count, for every call that is handed a count.
pub fn check_size(len: usize, count: usize) -> Answer<()> {
    check_length(len)?;
    if count == 0 || count > len / RECORD_WORDS || count > MAX_RECORDS {
        return refuse(number::STORE_SIZE);
    }
    Ok(())
}

/// The records in use: 18, then at the first that breaks a rule the number of the first rule that
/// it breaks.
fn read_store(clues: &Clues, words: &[u16], count: usize) -> Answer<Vec<Record>> {
    check_size(words.len(), count)?;
    let mut records = Vec::new();
    for (place, words) in words.chunks(RECORD_WORDS).take(count).enumerate() {
        match sound_record(clues, &records, words) {
            Ok(record) => records.push(record),
            Err(number) => return refuse_at(number, place),
        }
    }
    Ok(records)
}

/// The record with these words behind the earlier ones, or the number of the first rule that it
/// breaks: 19, 23, 24, 25.
fn sound_record(clues: &Clues, earlier: &[Record], words: &[u16]) -> Result<Record, u8> {
    let label = components(&words[..LABEL_WORDS]).ok_or(number::BAD_LAYOUT)?;
    if label.is_empty() != earlier.is_empty() {
        return Err(number::BAD_LAYOUT);
    }
    let parent = parent_of(earlier, &label)?;
    let name = u8::try_from(words[NAME_AT]).map_err(|_| number::BAD_NAME)?;
    let fits = match earlier.first() {
        None => is_name(name),
        Some(root) => name_of(clues, root.name, &label) == Some(name),
    };
    if !fits {
        return Err(number::BAD_NAME);
    }
    let next = words[NEXT_AT];
    let given = parent.is_none_or(|parent| label[label.len() - 1] < parent.next);
    if !given || (next != 0 && !may_have_children(clues, &label, name)) {
        return Err(number::BAD_NEXT);
    }
    Ok(Record {
        label,
        name,
        next,
        payload: [words[PAYLOAD_AT], words[PAYLOAD_AT + 1]],
    })
}

/// The parent of a record that is in order behind the earlier ones, none for the first: 23.
fn parent_of<'a>(earlier: &'a [Record], label: &Label) -> Result<Option<&'a Record>, u8> {
    let (Some(previous), Some((_, above))) = (earlier.last(), label.split_last()) else {
        return Ok(None);
    };
    if *label <= previous.label {
        return Err(number::BAD_ORDER);
    }
    match earlier.binary_search_by(|record| record.label[..].cmp(above)) {
        Ok(at) => Ok(Some(&earlier[at])),
        Err(_) => Err(number::BAD_ORDER),
    }
}

fn may_have_children(clues: &Clues, label: &Label, name: u8) -> bool {
    !clues[usize::from(name)].is_empty() && label.len() < MAX_DEPTH
}

/// The check of a store: 22, 18, 19, 23 to 25.
pub fn check(table: &[u8], words: &[u16], count: usize) -> Answer<Vec<Record>> {
    read_store(&read_table(table)?, words, count)
}

/// A new store: 18, 21. The answer is the count.
pub fn new_store(words: &mut [u16], root: u8, payload: [u16; 2]) -> Answer<usize> {
    check_length(words.len())?;
    check_root(root)?;
    let root = Record {
        label: Label::new(),
        name: root,
        next: 0,
        payload,
    };
    words[..RECORD_WORDS].copy_from_slice(&root.words());
    Ok(1)
}

/// An entry: 22, 18, 19, 23 to 25, 15, 9, 10, 11, 12, 13. The answer is the new count and the new
/// label.
pub fn enter(
    table: &[u8],
    words: &mut [u16],
    count: usize,
    parent: &[u16],
    name: u8,
    payload: [u16; 2],
) -> Answer<(usize, Label)> {
    let clues = read_table(table)?;
    let mut records = read_store(&clues, words, count)?;
    let parent = read_label(parent)?;
    let Some(at) = records.iter().position(|record| record.label == parent) else {
        return refuse(number::NO_RECORD);
    };
    let clue = &clues[usize::from(records[at].name)];
    let Some(k) = clue.iter().position(|&child| child == name) else {
        return refuse(number::NOT_IN_CLUE);
    };
    if parent.len() == MAX_DEPTH {
        return refuse(number::TOO_DEEP);
    }
    let Some(given) = number_for(records[at].next, k, clue.len()) else {
        return refuse(number::NO_NUMBER);
    };
    if count == MAX_RECORDS || count == words.len() / RECORD_WORDS {
        return refuse(number::NO_SPACE);
    }
    let label = [&parent[..], &[given]].concat();
    let new = Record {
        label: label.clone(),
        name,
        next: 0,
        payload,
    };
    records[at].next = given + 1;
    let below = |record: &&Record| record.label.starts_with(&parent);
    let behind = at + records[at..].iter().take_while(below).count();
    records.insert(behind, new);
    words[..records.len() * RECORD_WORDS].copy_from_slice(&lay_out_records(&records));
    Ok((records.len(), label))
}

/// A deletion: 22, 18, 19, 23 to 25, 15, 14, 9. The answer is the new count.
pub fn delete(table: &[u8], words: &mut [u16], count: usize, label: &[u16]) -> Answer<usize> {
    let mut records = check(table, words, count)?;
    let label = read_label(label)?;
    if label.is_empty() {
        return refuse(number::ROOT_STAYS);
    }
    if !records.iter().any(|record| record.label == label) {
        return refuse(number::NO_RECORD);
    }
    records.retain(|record| !record.label.starts_with(&label));
    let kept = records.len() * RECORD_WORDS;
    words[..kept].copy_from_slice(&lay_out_records(&records));
    words[kept..count * RECORD_WORDS].fill(0);
    Ok(records.len())
}

/// Cutting: 22, 18, 19, 23 to 25, 7, 17. The answer is how many labels the stream has.
pub fn cut(table: &[u8], words: &[u16], count: usize, name: u8, out: &mut [u16]) -> Answer<usize> {
    let records = check(table, words, count)?;
    let name = asked(name, 0)?;
    let wanted = |record: &&Record| name.is_none() || name == Some(record.name);
    let stream: Vec<_> = records.iter().filter(wanted).collect();
    let words: Vec<u16> = stream
        .iter()
        .flat_map(|record| lay_out(&record.label))
        .collect();
    if words.len() > out.len() {
        return refuse(number::SHORT_OUTPUT);
    }
    out[..words.len()].copy_from_slice(&words);
    Ok(stream.len())
}
