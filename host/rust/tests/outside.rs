//! The library from outside: random calls beside a version written from the paper, in runs of
//! entries and deletions with the book beside them, with good and damaged arguments.

mod beside;
mod mixed;
mod paper;
mod runs;
mod samples;

use beside::{Beside, Call};
use paper::labels::{lay_out, Label, LABEL_WORDS};
use paper::names::{read_file, rows, Clues, ANY, BENCH_FILE, MAX_FILE, NAMES, TABLE_BYTES};
use paper::number;
use paper::store::{lay_out_records, Record, MAX_RECORDS, RECORD_WORDS};
use paper::twigs::{matches, plain_matches, read_twig, MAX_STREAM};
use runs::Run;
use samples::{Rng, Streams};

const SEED: u64 = 20_240_501;
/// The random runs, their calls on the store, and the single calls after each of these.
const RUNS: usize = 360;
const STEPS: usize = 60;
const SINGLE_CALLS: usize = 8;
/// Beyond so many lines a run deletes more than it enters.
const MOST_LINES: usize = 40;
/// The least number of calls that are compared.
const LEAST_CALLS: u64 = 200_000;

#[test]
fn the_library_does_what_the_paper_says() {
    let mut beside = Beside::new(SEED);
    let mut rng = Rng::new(SEED);
    for _ in 0..RUNS {
        random_run(&mut beside, &mut rng);
    }
    numbers_run_out(&mut beside, &mut rng);
    deepest_level(&mut beside, &mut rng);
    records_run_out(&mut beside, &mut rng);
    longest_files(&mut beside);
    full_slices(&mut beside, &mut rng);
    longest_streams(&mut beside);
    other_tables(&mut beside, &mut rng);
    beside.tally.print();
    for number in 1..=number::HIGHEST {
        assert_ne!(
            beside.tally.answered(number),
            0,
            "no call was refused {number}"
        );
    }
    for call in [Call::CheckStore, Call::Enter, Call::Delete, Call::Cut] {
        for number in number::OF_RECORDS {
            let answered = beside.tally.answered_by(call, number);
            assert_ne!(answered, 0, "{call:?} was not refused {number}");
        }
    }
    assert!(beside.tally.calls() >= LEAST_CALLS);
}

/// A run of random entries and deletions, with single calls between them.
fn random_run(beside: &mut Beside, rng: &mut Rng) {
    const ANY_ROOT_ONE_IN: usize = 20;
    const TWIGS_ONE_IN: usize = 3;
    const TWIGS: usize = 2;
    let clues = read_file(&samples::file(rng)).expect("the file is a good one");
    let parents: Vec<usize> = (0..NAMES).filter(|&name| !clues[name].is_empty()).collect();
    let root = match rng.one_in(ANY_ROOT_ONE_IN) {
        true => rng.below(NAMES),
        false => *rng.pick(&parents),
    };
    let mut run = Run::start(beside, rng, clues, root as u8);
    for _ in 0..STEPS {
        let twigs = if rng.one_in(TWIGS_ONE_IN) { TWIGS } else { 0 };
        let one_deletion_in = if run.count() > MOST_LINES { 2 } else { 6 };
        if rng.one_in(one_deletion_in) {
            run.random_deletion(beside, rng, twigs);
        } else {
            run.random_entry(beside, rng, twigs);
        }
        for _ in 0..SINGLE_CALLS {
            mixed::call(&run, beside, rng);
        }
    }
}

/// Room for one more record.
fn one_record(rng: &mut Rng) -> Vec<u16> {
    rng.words(RECORD_WORDS)
}

/// Names and children in which every name may stand below name 0.
fn widest_clue() -> Clues {
    let file: Vec<u8> = (0..NAMES).flat_map(|name| [0, name as u8]).collect();
    read_file(&file).expect("the file is a good one")
}

/// Each name a place before the last one uses up 63 numbers. When none is left for one place, 12,
/// there may be one for another; deletion gives none back. Without room the answer is 12 too.
fn numbers_run_out(beside: &mut Beside, rng: &mut Rng) {
    const LAST_NUMBER: u16 = 65_534;
    let mut run = Run::start(beside, rng, widest_clue(), 0);
    let root = lay_out(&[]);
    let mut name = NAMES as u8 - 1;
    let fault = loop {
        match run.enter(beside, &root, name, rng.payload(), one_record(rng)) {
            Ok(label) => drop(run.delete(beside, &lay_out(&label), Vec::new())),
            Err(fault) => break fault,
        }
        name = if name == 0 { NAMES as u8 - 1 } else { name - 1 };
    };
    assert_eq!(fault.number, number::NO_NUMBER);
    let last_name = (LAST_NUMBER % NAMES as u16) as u8;
    let last = run.enter(beside, &root, last_name, rng.payload(), one_record(rng));
    assert_eq!(last, Ok(vec![LAST_NUMBER]));
    for name in 0..NAMES as u8 {
        let room = rng.words(RECORD_WORDS * (usize::from(name) % 2));
        let refused = run.enter(beside, &root, name, rng.payload(), room);
        assert_eq!(
            refused.map_err(|fault| fault.number),
            Err(number::NO_NUMBER)
        );
    }
}

/// One element on each level. Below the last a wrong name is 10 and a right one 11.
fn deepest_level(beside: &mut Beside, rng: &mut Rng) {
    let clues = read_file(&[0, 0]).expect("the file is a good one");
    let mut run = Run::start(beside, rng, clues, 0);
    let mut label = Label::new();
    let fault = loop {
        match run.enter(beside, &lay_out(&label), 0, rng.payload(), one_record(rng)) {
            Ok(below) => label = below,
            Err(fault) => break fault,
        }
    };
    assert_eq!(fault.number, number::TOO_DEEP);
    let wrong_name = run.enter(beside, &lay_out(&label), 1, rng.payload(), Vec::new());
    assert_eq!(
        wrong_name.map_err(|fault| fault.number),
        Err(number::NOT_IN_CLUE)
    );
}

/// A run to 4,096 lines. Then 13 is answered however long the slice is, until a line is struck.
fn records_run_out(beside: &mut Beside, rng: &mut Rng) {
    const FAMILY: usize = 60;
    let clues = read_file(&[0, 0, 0, 1]).expect("the file is a good one");
    let mut run = Run::start(beside, rng, clues, 0);
    let mut parent = Label::new();
    while run.count() < MAX_RECORDS {
        let name = u8::from(!run.count().is_multiple_of(FAMILY));
        let entered = run.enter(
            beside,
            &lay_out(&parent),
            name,
            rng.payload(),
            one_record(rng),
        );
        let label = entered.expect("there is room");
        if name == 0 {
            parent = if label.len() < 4 { label } else { Label::new() };
        }
    }
    let root = lay_out(&[]);
    for records in [0, 1, 5] {
        let refused = run.enter(beside, &root, 1, [0, 0], rng.words(records * RECORD_WORDS));
        assert_eq!(refused.map_err(|fault| fault.number), Err(number::NO_SPACE));
    }
    let family = run.labels().into_iter().rfind(|label| label.len() == 1);
    let struck = run.delete(
        beside,
        &lay_out(&family.expect("the root has children")),
        Vec::new(),
    );
    assert!(struck.is_ok());
    assert!(run.enter(beside, &root, 1, [0, 0], one_record(rng)).is_ok());
}

/// Files up to 8,192 bytes are read.
fn longest_files(beside: &mut Beside) {
    let pair = |at: usize| [(at / NAMES) as u8, (at % NAMES) as u8];
    let full: Vec<u8> = (0..TABLE_BYTES).flat_map(pair).collect();
    assert_eq!(full.len(), MAX_FILE);
    let mut table = vec![0; TABLE_BYTES];
    assert!(beside.read_names(&full, &mut table).is_taken());
    assert!(beside.check_table(&table).is_taken());
    for longer in [1, 2] {
        let file = [&full[..], &vec![0; longer]].concat();
        assert_eq!(
            beside.read_names(&file, &mut table).number,
            number::FILE_LENGTH
        );
    }
    assert!(beside.read_names(&[], &mut table).is_taken());
    assert!(beside.read_names(&BENCH_FILE, &mut table).is_taken());
}

/// A root with children of one name, so many records in all.
fn flat_store(records: usize) -> Vec<u16> {
    let children = records - 1;
    let record = |at: usize| Record {
        label: if at == 0 {
            Vec::new()
        } else {
            vec![at as u16 - 1]
        },
        name: u8::from(at > 0),
        next: if at == 0 { children as u16 } else { 0 },
        payload: [at as u16, 0],
    };
    lay_out_records(&(0..records).map(record).collect::<Vec<_>>())
}

/// The table of the flat store.
fn flat_table() -> Vec<u8> {
    rows(&read_file(&[0, 1]).expect("the file is a good one"))
}

/// Slices longer than 4,096 records are good, counts over 4,096 are not.
fn full_slices(beside: &mut Beside, rng: &mut Rng) {
    let (table, root) = (flat_table(), lay_out(&[]));
    let over = MAX_RECORDS + 1;
    let mut words = flat_store(over);
    assert_eq!(
        beside.check_store(&table, &words, over).number,
        number::STORE_SIZE
    );
    assert!(beside.check_store(&table, &words, MAX_RECORDS).is_taken());
    let (reply, _) = beside.enter(&table, &mut words, MAX_RECORDS, &root, 1, rng.payload());
    assert_eq!((reply.number, reply.value), (number::NO_SPACE, MAX_RECORDS));
    let (reply, _) = beside.cut(&table, &words, MAX_RECORDS, ANY, MAX_RECORDS * LABEL_WORDS);
    assert_eq!((reply.number, reply.value), (0, MAX_RECORDS));
    let reply = beside.delete(&table, &mut words, MAX_RECORDS, &lay_out(&[7]));
    assert_eq!((reply.number, reply.value), (0, MAX_RECORDS - 1));
    let (reply, _) = beside.enter(&table, &mut words, reply.value, &root, 1, rng.payload());
    assert_eq!((reply.number, reply.value), (0, MAX_RECORDS));
    assert!(beside.new_store(&mut words, 63, rng.payload()).is_taken());
}

/// Streams of 4,096 labels are good, and longer ones are not. The number of matches has no bound;
/// where they do not fit the answer is 17 with a count of 0.
fn longest_streams(beside: &mut Beside) {
    let table = flat_table();
    let children: Vec<Label> = (0..=MAX_STREAM).map(|number| vec![number as u16]).collect();
    let most = &children[..MAX_STREAM];
    let leaf = [0, 0, 1, 0];
    let path = [&[255, 0, 0, 0][..], &leaf].concat();
    let words_of_match = 2 * LABEL_WORDS;

    let Streams { counts, buffer } = Streams::of(&[most.to_vec()]);
    let enough = MAX_STREAM * words_of_match;
    let (reply, _) = beside.match_twig(&table, 0, &path, &counts, &buffer, enough);
    assert_eq!((reply.number, reply.value), (0, MAX_STREAM));
    let (reply, _) = beside.match_twig(&table, 0, &path, &counts, &buffer, enough - 1);
    assert_eq!((reply.number, reply.value), (number::SHORT_OUTPUT, 0));

    let Streams { counts, buffer } = Streams::of(std::slice::from_ref(&children));
    let (reply, _) = beside.match_twig(&table, 0, &path, &counts, &buffer, enough);
    assert_eq!(reply.number, number::BAD_STREAM);

    const LEAVES: usize = 7;
    let twig = [&[255, 0, 0, 0][..], &leaf.repeat(LEAVES)].concat();
    let Streams { counts, buffer } = Streams::of(&vec![most.to_vec(); LEAVES]);
    let (reply, _) = beside.match_twig(&table, 0, &twig, &counts, &buffer, enough);
    assert_eq!((reply.number, reply.value), (number::SHORT_OUTPUT, 0));
}

/// A store that is whole under its table is refused under another by 24 or 25 alone. One that is
/// refused 19 or 23, or 24 at record 0, is refused under every table.
fn other_tables(beside: &mut Beside, rng: &mut Rng) {
    const STORES: usize = 300;
    const ENTRIES: usize = 12;
    const TABLES: usize = 6;
    let clues = |rng: &mut Rng| read_file(&samples::file(rng)).expect("the file is a good one");
    let (mut whole, mut torn) = (0, 0);
    for _ in 0..STORES {
        let own = clues(rng);
        let mut run = Run::start(beside, rng, own, 0);
        for _ in 0..ENTRIES {
            run.random_entry(beside, rng, 0);
        }
        let (damaged, count) = samples::lent_store(rng, &run.clues, &run.words);
        let fault = beside.check_store(&run.table, &damaged, count);
        let is_torn = match fault.number {
            number::BAD_LAYOUT | number::BAD_ORDER => true,
            number::BAD_NAME => fault.place == 0,
            _ => false,
        };
        for _ in 0..TABLES {
            let other = rows(&clues(rng));
            let reply = beside.check_store(&other, &run.words, run.count());
            assert!([0, number::BAD_NAME, number::BAD_NEXT].contains(&reply.number));
            whole += usize::from(!reply.is_taken());
            if is_torn {
                torn += 1;
                assert!(!beside.check_store(&other, &damaged, count).is_taken());
            }
        }
    }
    assert!(whole > STORES && torn > STORES);
}

/// The paper's version lists what the plain definition gives: pruning loses no match.
#[test]
fn pruning_loses_no_match() {
    const CASES: usize = 2_000;
    const MOST_RECORDS: usize = 4;
    const LABELS: usize = 6;
    let mut rng = Rng::new(SEED);
    for _ in 0..CASES {
        let clues = read_file(&samples::file(&mut rng)).expect("the file is a good one");
        let names = samples::names_in_use(&clues, 0);
        let twig = read_twig(&samples::twig(&mut rng, &names)).expect("the twig is a good one");
        if twig.len() > MOST_RECORDS {
            continue;
        }
        let label = |_| samples::decoding_label(&mut rng, &clues, 0);
        let labels: Vec<Label> = (0..LABELS).map(label).collect();
        let streams = samples::streams(&mut rng, &clues, 0, &twig, &labels);
        let listed = matches(&clues, 0, &twig, &streams, usize::MAX);
        assert_eq!(listed, plain_matches(&clues, 0, &twig, &streams));
    }
}
