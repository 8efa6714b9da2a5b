//! The book beside the store. It is fed the arguments of each call and, of the store, the slice's
//! length; nothing that a call answers or writes.

use std::collections::BTreeMap;

use super::labels::{number_for, read_label, Label, MAX_DEPTH};
use super::names::{check_root, Clues};
use super::store::{check_length, check_size, Record, MAX_RECORDS, RECORD_WORDS};
use super::{number, refuse, Answer};

#[derive(Clone, Debug)]
pub struct Line {
    pub path: Vec<u8>,
    pub next: u16,
    pub payload: [u16; 2],
}

impl Line {
    fn name(&self) -> u8 {
        self.path[self.path.len() - 1]
    }
}

/// The lines by their labels, in label order.
#[derive(Clone, Debug)]
pub struct Book {
    pub lines: BTreeMap<Label, Line>,
}

impl Book {
    /// A new store opens the book: 18, 21.
    pub fn open(len: usize, root: u8, payload: [u16; 2]) -> Answer<Book> {
        check_length(len)?;
        check_root(root)?;
        let line = Line {
            path: vec![root],
            next: 0,
            payload,
        };
        Ok(Book {
            lines: BTreeMap::from([(Label::new(), line)]),
        })
    }

    /// An entry adds a line and gives its label: 18, 15, 9, 10, 11, 12, 13.
    pub fn enter(
        &mut self,
        clues: &Clues,
        len: usize,
        parent: &[u16],
        name: u8,
        payload: [u16; 2],
    ) -> Answer<Label> {
        let lines = self.lines.len();
        check_size(len, lines)?;
        let parent = read_label(parent)?;
        let Some(line) = self.lines.get_mut(&parent) else {
            return refuse(number::NO_RECORD);
        };
        let clue = &clues[usize::from(line.name())];
        let Some(k) = clue.iter().position(|&child| child == name) else {
            return refuse(number::NOT_IN_CLUE);
        };
        if parent.len() == MAX_DEPTH {
            return refuse(number::TOO_DEEP);
        }
        let Some(given) = number_for(line.next, k, clue.len()) else {
            return refuse(number::NO_NUMBER);
        };
        if lines == MAX_RECORDS || lines == len / RECORD_WORDS {
            return refuse(number::NO_SPACE);
        }
        line.next = given + 1;
        let new = Line {
            path: [&line.path[..], &[name]].concat(),
            next: 0,
            payload,
        };
        let label = [&parent[..], &[given]].concat();
        self.lines.insert(label.clone(), new);
        Ok(label)
    }

    /// A deletion strikes a line and all that begin with its label: 18, 15, 14, 9. The answer is
    /// the label handed in.
    pub fn delete(&mut self, len: usize, label: &[u16]) -> Answer<Label> {
        check_size(len, self.lines.len())?;
        let label = read_label(label)?;
        if label.is_empty() {
            return refuse(number::ROOT_STAYS);
        }
        if !self.lines.contains_key(&label) {
            return refuse(number::NO_RECORD);
        }
        self.lines.retain(|line, _| !line.starts_with(&label));
        Ok(label)
    }

    /// The lines in label order, laid out as records.
    pub fn records(&self) -> Vec<u16> {
        let record = |(label, line): (&Label, &Line)| Record {
            label: label.clone(),
            name: line.name(),
            next: line.next,
            payload: line.payload,
        };
        let words = |line| record(line).words();
        self.lines.iter().flat_map(words).collect()
    }

    /// The line labels that a name asks for, all of them for none.
    pub fn stream(&self, name: Option<u8>) -> Vec<Label> {
        let wanted = |line: &Line| name.is_none() || name == Some(line.name());
        let lines = self.lines.iter().filter(|(_, line)| wanted(line));
        lines.map(|(label, _)| label.clone()).collect()
    }
}
