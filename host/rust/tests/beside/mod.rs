//! The library beside the paper's version. Each call is made by both on copies of the same slices;
//! number, answer and every slice must come out the same, word for word, in a refusal too. The safe
//! wrapper is held to the same answer.

use std::fmt::Debug;
use std::hint::black_box;

use jiszteruk::{ffi, Label, Refusal, Table};

use crate::paper::labels::{self, LABEL_WORDS};
use crate::paper::names::{self, BENCH_FILE, TABLE_BYTES};
use crate::paper::{number, refuse, store, twigs, Answer};
use crate::samples::Rng;

/// What stands in an output before a call. No result of these tests is made of it.
pub const UNTOUCHED_WORD: u16 = 0xA5A5;
const UNTOUCHED_BYTE: u8 = 0xA5;
const UNTOUCHED_SIZE: usize = 0xA5A5_A5A5;

#[derive(Clone, Copy, Debug)]
pub enum Call {
    ReadNames,
    BenchTable,
    CheckTable,
    Decode,
    Kinship,
    Follows,
    NewStore,
    CheckStore,
    Enter,
    Delete,
    Cut,
    CheckTwig,
    FindMatches,
}

const CALLS: [Call; 13] = [
    Call::ReadNames,
    Call::BenchTable,
    Call::CheckTable,
    Call::Decode,
    Call::Kinship,
    Call::Follows,
    Call::NewStore,
    Call::CheckStore,
    Call::Enter,
    Call::Delete,
    Call::Cut,
    Call::CheckTwig,
    Call::FindMatches,
];

/// What a call answered: its number (0 where it was taken), its place and its value.
#[derive(Clone, Copy, Debug, PartialEq, Eq)]
pub struct Reply {
    pub number: u8,
    pub place: usize,
    pub value: usize,
}

impl Reply {
    /// The reply of an answer; a refusal has a value of its own.
    fn of(answer: Answer<usize>, refused: usize) -> Reply {
        match answer {
            Ok(value) => Reply {
                number: 0,
                place: 0,
                value,
            },
            Err(fault) => Reply {
                number: fault.number,
                place: fault.place,
                value: refused,
            },
        }
    }

    pub fn is_taken(&self) -> bool {
        self.number == 0
    }

    /// What the safe wrapper is to answer.
    fn result(&self) -> Result<usize, Refusal> {
        if self.is_taken() {
            return Ok(self.value);
        }
        Err(Refusal {
            number: self.number,
            place: self.place,
        })
    }
}

/// The lengths of the small answers: place and value, and the names or the label.
#[derive(Clone, Copy, Debug)]
struct Room {
    answer: usize,
    words: usize,
}

/// More room than any small answer takes.
const WIDE: Room = Room {
    answer: 5,
    words: LABEL_WORDS + 3,
};

/// How many calls there were, by call and number.
#[derive(Default)]
pub struct Tally {
    counts: [[u64; number::HIGHEST + 1]; CALLS.len()],
}

impl Tally {
    pub fn calls(&self) -> u64 {
        self.counts.iter().flatten().sum()
    }

    /// How often a number was answered, 0 for calls that were taken.
    pub fn answered(&self, number: usize) -> u64 {
        self.counts.iter().map(|of_call| of_call[number]).sum()
    }

    /// How often a number was answered by one call.
    pub fn answered_by(&self, call: Call, number: u8) -> u64 {
        self.counts[call as usize][usize::from(number)]
    }

    pub fn print(&self) {
        for call in CALLS {
            let counts = self.counts[call as usize].iter().enumerate();
            let met = counts.filter(|(_, &count)| count != 0);
            let shown: Vec<_> = met
                .map(|(number, count)| format!("{number}: {count}"))
                .collect();
            println!("{:12} {}", format!("{call:?}"), shown.join(", "));
        }
        for number in 0..=number::HIGHEST {
            println!("answered {number:2}: {}", self.answered(number));
        }
        println!("calls: {}", self.calls());
    }
}

/// Makes calls side by side and counts them.
pub struct Beside {
    rng: Rng,
    pub tally: Tally,
}

/// Two slices have the same elements.
fn same<T: PartialEq + Debug>(call: Call, what: &str, got: &[T], expected: &[T]) {
    let longer = got.len().max(expected.len());
    if let Some(at) = (0..longer).find(|&at| got.get(at) != expected.get(at)) {
        let (got, expected) = (got.get(at), expected.get(at));
        panic!("{call:?}, {what}: element {at} is {got:?}, expected {expected:?}");
    }
}

/// A slice of so many elements after values were written from its start, as far as there is room.
fn written<T: Copy>(values: &[T], len: usize, untouched: T) -> Vec<T> {
    let mut slice = vec![untouched; len];
    slice
        .iter_mut()
        .zip(values)
        .for_each(|(to, from)| *to = *from);
    slice
}

/// A copy to be lent for reading. It is compared with its original after the call.
fn lend<T: Clone>(slice: &[T]) -> Vec<T> {
    black_box(slice.to_vec())
}

impl Beside {
    pub fn new(seed: u64) -> Beside {
        Beside {
            rng: Rng::new(seed),
            tally: Tally::default(),
        }
    }

    /// Wide room, and in some calls narrow room too.
    fn rooms(&mut self) -> Vec<Room> {
        const ONE_IN: usize = 4;
        let narrow = Room {
            answer: *self.rng.pick(&[0, 1, 2, 3]),
            words: *self.rng.pick(&[0, 1, 2, 15, 16, 17]),
        };
        if self.rng.one_in(ONE_IN) {
            vec![WIDE, narrow]
        } else {
            vec![WIDE]
        }
    }

    /// Makes a call of the library with each room and holds it to the expected reply. The closure
    /// makes the call on copies and compares these.
    fn held(
        &mut self,
        call: Call,
        expected: Reply,
        library: impl Fn(Room, &mut [usize]) -> u8,
    ) -> Reply {
        for room in self.rooms() {
            let mut answer = vec![UNTOUCHED_SIZE; room.answer];
            let number = library(room, &mut answer);
            assert_eq!(
                number, expected.number,
                "{call:?}: the number, {expected:?}"
            );
            let shown = [expected.place, expected.value];
            let shown = written(&shown, room.answer, UNTOUCHED_SIZE);
            same(call, "answer", &answer, &shown);
        }
        self.tally.counts[call as usize][usize::from(expected.number)] += 1;
        expected
    }

    pub fn read_names(&mut self, file: &[u8], table: &mut [u8]) -> Reply {
        let call = Call::ReadNames;
        let right_length = table.len() == TABLE_BYTES;
        let (after, answer) = match names::read_file(file) {
            _ if !right_length => (table.to_vec(), refuse(number::BAD_TABLE)),
            Ok(clues) => (names::rows(&clues), Ok(0)),
            Err(fault) => (names::empty_table(), Err(fault)),
        };
        let reply = self.held(call, Reply::of(answer, 0), |_, slot| {
            let (lent_file, mut lent) = (lend(file), lend(table));
            let number = ffi::read_names(&lent_file, &mut lent, slot);
            same(call, "table", &lent, &after);
            same(call, "file", &lent_file, file);
            number
        });
        if right_length {
            let read = Table::read(file);
            assert_eq!(read.as_ref().map(|_| 0).map_err(|r| *r), reply.result());
            if let Ok(read) = read {
                same(call, "wrapper's table", read.as_bytes(), &after);
            }
        }
        table.copy_from_slice(&after);
        reply
    }

    pub fn bench_table(&mut self, table: &mut [u8]) -> Reply {
        let call = Call::BenchTable;
        let clues = names::read_file(&BENCH_FILE).expect("the bench's file is a good one");
        let (number, after) = match table.len() {
            TABLE_BYTES => (0, names::rows(&clues)),
            _ => (number::BAD_TABLE, table.to_vec()),
        };
        let mut lent = lend(table);
        assert_eq!(ffi::bench_table(&mut lent), number, "{call:?}: the number");
        same(call, "table", &lent, &after);
        same(
            call,
            "wrapper's table",
            Table::bench().as_bytes(),
            &names::rows(&clues),
        );
        self.tally.counts[call as usize][usize::from(number)] += 1;
        table.copy_from_slice(&after);
        Reply {
            number,
            place: 0,
            value: 0,
        }
    }

    pub fn check_table(&mut self, table: &[u8]) -> Reply {
        let call = Call::CheckTable;
        let answer = names::read_table(table).map(|_| 0);
        let reply = self.held(call, Reply::of(answer, 0), |_, slot| {
            let lent = lend(table);
            let number = ffi::check_table(&lent, slot);
            same(call, "table", &lent, table);
            number
        });
        let taken = Table::from_bytes(table);
        assert_eq!(taken.as_ref().map(|_| 0).map_err(|r| *r), reply.result());
        if let Ok(taken) = taken {
            same(call, "wrapper's table", taken.as_bytes(), table);
        }
        reply
    }

    pub fn decode(&mut self, table: &[u8], root: u8, label: &[u16]) -> (Reply, [u8; LABEL_WORDS]) {
        let call = Call::Decode;
        let answer = labels::decode(table, root, label);
        let names = answer.unwrap_or([0; LABEL_WORDS]);
        let reply = self.held(call, Reply::of(answer.map(|_| 0), 0), |room, slot| {
            let (lent_table, lent_label) = (lend(table), lend(label));
            let mut given = vec![UNTOUCHED_BYTE; room.words];
            let number = ffi::decode(&lent_table, root, &lent_label, &mut given, slot);
            same(
                call,
                "names",
                &given,
                &written(&names, room.words, UNTOUCHED_BYTE),
            );
            same(call, "table", &lent_table, table);
            same(call, "label", &lent_label, label);
            number
        });
        if let Ok(table) = Table::from_bytes(table) {
            assert_eq!(table.decode(root, label), reply.result().map(|_| names));
        }
        (reply, names)
    }

    pub fn kinship(&mut self, first: &[u16], second: &[u16]) -> Reply {
        let call = Call::Kinship;
        let answer = labels::kinship(first, second);
        let reply = self.held(call, Reply::of(answer, 0), |_, slot| {
            let (lent_first, lent_second) = (lend(first), lend(second));
            let number = ffi::kinship(&lent_first, &lent_second, slot);
            same(call, "first", &lent_first, first);
            same(call, "second", &lent_second, second);
            number
        });
        let wrapped = jiszteruk::kinship(first, second);
        assert_eq!(wrapped.map(|kinship| kinship as usize), reply.result());
        reply
    }

    pub fn follows(&mut self, first: &[u16], second: &[u16]) -> Reply {
        let call = Call::Follows;
        let answer = labels::follows(first, second);
        let reply = self.held(call, Reply::of(answer.map(usize::from), 0), |_, slot| {
            let (lent_first, lent_second) = (lend(first), lend(second));
            let number = ffi::follows(&lent_first, &lent_second, slot);
            same(call, "first", &lent_first, first);
            same(call, "second", &lent_second, second);
            number
        });
        let wrapped = jiszteruk::follows(first, second);
        assert_eq!(wrapped.map(usize::from), reply.result());
        reply
    }

    pub fn new_store(&mut self, words: &mut [u16], root: u8, payload: [u16; 2]) -> Reply {
        let call = Call::NewStore;
        let mut after = words.to_vec();
        let answer = store::new_store(&mut after, root, payload);
        let reply = self.held(call, Reply::of(answer, 0), |_, slot| {
            let mut lent = lend(words);
            let number = ffi::new_store(&mut lent, root, payload, slot);
            same(call, "store", &lent, &after);
            number
        });
        let wrapped = jiszteruk::new_store(words, root, payload);
        assert_eq!(wrapped, reply.result());
        same(call, "wrapper's store", words, &after);
        reply
    }

    pub fn check_store(&mut self, table: &[u8], words: &[u16], count: usize) -> Reply {
        let call = Call::CheckStore;
        let answer = store::check(table, words, count).map(|_| 0);
        let reply = self.held(call, Reply::of(answer, 0), |_, slot| {
            let (lent_table, lent) = (lend(table), lend(words));
            let number = ffi::check_store(&lent_table, &lent, count, slot);
            same(call, "table", &lent_table, table);
            same(call, "store", &lent, words);
            number
        });
        if let Ok(table) = Table::from_bytes(table) {
            let wrapped = jiszteruk::check_store(&table, words, count);
            assert_eq!(wrapped.map(|_| 0), reply.result());
        }
        reply
    }

    pub fn enter(
        &mut self,
        table: &[u8],
        words: &mut [u16],
        count: usize,
        parent: &[u16],
        name: u8,
        payload: [u16; 2],
    ) -> (Reply, [u16; LABEL_WORDS]) {
        let call = Call::Enter;
        let mut after = words.to_vec();
        let answer = store::enter(table, &mut after, count, parent, name, payload);
        let (answer, label) = match answer {
            Ok((count, label)) => (Ok(count), labels::lay_out(&label)),
            Err(fault) => (Err(fault), [0; LABEL_WORDS]),
        };
        let reply = self.held(call, Reply::of(answer, count), |room, slot| {
            let (lent_table, mut lent, lent_parent) = (lend(table), lend(words), lend(parent));
            let mut given = vec![UNTOUCHED_WORD; room.words];
            let number = ffi::enter(
                &lent_table,
                &mut lent,
                count,
                &lent_parent,
                name,
                payload,
                &mut given,
                slot,
            );
            same(call, "store", &lent, &after);
            same(
                call,
                "label",
                &given,
                &written(&label, room.words, UNTOUCHED_WORD),
            );
            same(call, "table", &lent_table, table);
            same(call, "parent", &lent_parent, parent);
            number
        });
        if let Ok(table) = Table::from_bytes(table) {
            let mut lent = lend(words);
            let wrapped = jiszteruk::enter(&table, &mut lent, count, parent, name, payload);
            assert_eq!(wrapped.map(|entry| entry.count), reply.result());
            same(call, "wrapper's store", &lent, &after);
            if let Ok(entry) = wrapped {
                same(call, "wrapper's label", &entry.label, &label);
            }
        }
        words.copy_from_slice(&after);
        (reply, label)
    }

    pub fn delete(
        &mut self,
        table: &[u8],
        words: &mut [u16],
        count: usize,
        label: &[u16],
    ) -> Reply {
        let call = Call::Delete;
        let mut after = words.to_vec();
        let answer = store::delete(table, &mut after, count, label);
        let reply = self.held(call, Reply::of(answer, count), |_, slot| {
            let (lent_table, mut lent, lent_label) = (lend(table), lend(words), lend(label));
            let number = ffi::delete(&lent_table, &mut lent, count, &lent_label, slot);
            same(call, "store", &lent, &after);
            same(call, "table", &lent_table, table);
            same(call, "label", &lent_label, label);
            number
        });
        if let Ok(table) = Table::from_bytes(table) {
            let mut lent = lend(words);
            let wrapped = jiszteruk::delete(&table, &mut lent, count, label);
            assert_eq!(wrapped, reply.result());
            same(call, "wrapper's store", &lent, &after);
        }
        words.copy_from_slice(&after);
        reply
    }

    /// Cuts into an output of so many words and gives the output too.
    pub fn cut(
        &mut self,
        table: &[u8],
        words: &[u16],
        count: usize,
        name: u8,
        out_len: usize,
    ) -> (Reply, Vec<u16>) {
        let call = Call::Cut;
        let mut after = vec![UNTOUCHED_WORD; out_len];
        let answer = store::cut(table, words, count, name, &mut after);
        let reply = self.held(call, Reply::of(answer, 0), |_, slot| {
            let (lent_table, lent) = (lend(table), lend(words));
            let mut out = vec![UNTOUCHED_WORD; out_len];
            let number = ffi::cut(&lent_table, &lent, count, name, &mut out, slot);
            same(call, "output", &out, &after);
            same(call, "table", &lent_table, table);
            same(call, "store", &lent, words);
            number
        });
        if let Ok(table) = Table::from_bytes(table) {
            let mut out = vec![UNTOUCHED_WORD; out_len];
            let wrapped = jiszteruk::cut(&table, words, count, name, &mut out);
            assert_eq!(wrapped, reply.result());
            same(call, "wrapper's output", &out, &after);
        }
        (reply, after)
    }

    pub fn check_twig(&mut self, twig: &[u8]) -> Reply {
        let call = Call::CheckTwig;
        let answer = twigs::read_twig(twig).map(|_| 0);
        let reply = self.held(call, Reply::of(answer, 0), |_, slot| {
            let lent = lend(twig);
            let number = ffi::check_twig(&lent, slot);
            same(call, "twig", &lent, twig);
            number
        });
        let wrapped = jiszteruk::check_twig(twig);
        assert_eq!(wrapped.map(|_| 0), reply.result());
        reply
    }

    /// Matches into an output of so many words and gives the output too.
    pub fn match_twig(
        &mut self,
        table: &[u8],
        root: u8,
        twig: &[u8],
        counts: &[usize],
        buffer: &[u16],
        out_len: usize,
    ) -> (Reply, Vec<u16>) {
        let call = Call::FindMatches;
        let mut after = vec![UNTOUCHED_WORD; out_len];
        let answer = twigs::match_twig(table, root, twig, counts, buffer, &mut after);
        let reply = self.held(call, Reply::of(answer, 0), |_, slot| {
            let (lent_table, lent_twig) = (lend(table), lend(twig));
            let (lent_counts, lent) = (lend(counts), lend(buffer));
            let mut out = vec![UNTOUCHED_WORD; out_len];
            let number = ffi::match_twig(
                &lent_table,
                root,
                &lent_twig,
                &lent_counts,
                &lent,
                &mut out,
                slot,
            );
            same(call, "output", &out, &after);
            same(call, "table", &lent_table, table);
            same(call, "twig", &lent_twig, twig);
            same(call, "counts", &lent_counts, counts);
            same(call, "streams", &lent, buffer);
            number
        });
        if let Ok(table) = Table::from_bytes(table) {
            let mut out = vec![UNTOUCHED_WORD; out_len];
            let wrapped = jiszteruk::match_twig(&table, root, twig, counts, buffer, &mut out);
            assert_eq!(wrapped, reply.result());
            same(call, "wrapper's output", &out, &after);
        }
        (reply, after)
    }
}

/// The wrapper takes the words of a label exactly where they are one.
pub fn label_words(words: &[u16]) {
    let (wrapped, read) = (Label::from_words(words), labels::components(words));
    assert_eq!(wrapped.is_ok(), read.is_some());
    if let (Ok(label), Some(components)) = (wrapped, read) {
        assert_eq!(label.components(), components);
        assert_eq!(Label::from_components(&components), Ok(label));
    }
}
