//! Single calls on copies of what a run has, with arguments that are good or damaged.

use crate::beside::{label_words, Beside};
use crate::paper::labels::{lay_out, Label, LABEL_WORDS};
use crate::paper::names::ANY;
use crate::paper::store::RECORD_WORDS;
use crate::paper::twigs::{matches, read_twig};
use crate::runs::Run;
use crate::samples::{self, Rng, Streams};

/// The most matches for which a call gets room.
const MOST_MATCHES: usize = 300;

/// How often the bench's own table is asked for beside another one's check.
const BENCH_TABLE_ONE_IN: usize = 8;

/// Makes one random call.
pub fn call(run: &Run, beside: &mut Beside, rng: &mut Rng) {
    match rng.below(32) {
        0 | 1 => read_names(beside, rng),
        2 => tables(run, beside, rng),
        3..=6 => decode(run, beside, rng),
        7..=10 => two_labels(run, beside, rng),
        11 => new_store(beside, rng),
        12..=14 => check_store(run, beside, rng),
        15..=19 => enter(run, beside, rng),
        20..=22 => delete(run, beside, rng),
        23..=25 => cut(run, beside, rng),
        26 | 27 => check_twig(run, beside, rng),
        _ => match_twig(run, beside, rng),
    }
}

fn read_names(beside: &mut Beside, rng: &mut Rng) {
    let mut table = vec![rng.byte(); samples::table_len(rng)];
    let file = samples::damaged_file(rng);
    beside.read_names(&file, &mut table);
}

fn tables(run: &Run, beside: &mut Beside, rng: &mut Rng) {
    beside.check_table(&run.table);
    beside.check_table(&samples::damaged_table(rng, &run.table));
    if rng.one_in(BENCH_TABLE_ONE_IN) {
        beside.bench_table(&mut vec![rng.byte(); samples::table_len(rng)]);
    }
}

fn decode(run: &Run, beside: &mut Beside, rng: &mut Rng) {
    let label = match rng.below(4) {
        0 => lay_out(&samples::decoding_label(rng, &run.clues, run.root)).to_vec(),
        1 => lay_out(&samples::label(rng)).to_vec(),
        _ => run.handed_in(rng),
    };
    let root = samples::maybe_damaged_root(rng, run.root);
    let table = samples::maybe_damaged_table(rng, &run.table);
    beside.decode(&table, root, &label);
}

/// Kinship and follows of two labels, often one a prefix of the other.
fn two_labels(run: &Run, beside: &mut Beside, rng: &mut Rng) {
    let first = run.handed_in(rng);
    let second = match rng.below(3) {
        0 => run.handed_in(rng),
        1 => lay_out(&samples::label(rng)).to_vec(),
        _ => {
            let living = run.living(rng);
            lay_out(&living[..rng.below(living.len() + 1)]).to_vec()
        }
    };
    let (first, second) = if rng.one_in(2) {
        (first, second)
    } else {
        (second, first)
    };
    beside.kinship(&first, &second);
    beside.follows(&first, &second);
    label_words(&first);
}

fn new_store(beside: &mut Beside, rng: &mut Rng) {
    let len = *rng.pick(&[
        0,
        1,
        19,
        RECORD_WORDS,
        21,
        39,
        2 * RECORD_WORDS,
        5 * RECORD_WORDS,
    ]);
    let mut words = rng.words(len);
    beside.new_store(&mut words, rng.byte() % 80, rng.payload());
}

fn check_store(run: &Run, beside: &mut Beside, rng: &mut Rng) {
    let (words, count) = samples::lent_store(rng, &run.clues, &run.words);
    let table = samples::maybe_damaged_table(rng, &run.table);
    beside.check_store(&table, &words, count);
}

fn enter(run: &Run, beside: &mut Beside, rng: &mut Rng) {
    let (mut words, count) = samples::lent_store(rng, &run.clues, &run.words);
    let table = samples::maybe_damaged_table(rng, &run.table);
    let parent = run.handed_in(rng);
    let name = run.name_below(rng, &parent);
    beside.enter(&table, &mut words, count, &parent, name, rng.payload());
}

fn delete(run: &Run, beside: &mut Beside, rng: &mut Rng) {
    let (mut words, count) = samples::lent_store(rng, &run.clues, &run.words);
    let table = samples::maybe_damaged_table(rng, &run.table);
    beside.delete(&table, &mut words, count, &run.handed_in(rng));
}

fn cut(run: &Run, beside: &mut Beside, rng: &mut Rng) {
    let (words, count) = samples::lent_store(rng, &run.clues, &run.words);
    let table = samples::maybe_damaged_table(rng, &run.table);
    let name = match rng.below(6) {
        0 => rng.byte(),
        1 => ANY,
        _ => *rng.pick(run.names()),
    };
    let asked = (name != ANY).then_some(name);
    let needed = run.book.stream(asked).len() * LABEL_WORDS;
    let room = samples::out_len(rng, needed);
    beside.cut(&table, &words, count, name, room);
}

fn check_twig(run: &Run, beside: &mut Beside, rng: &mut Rng) {
    let twig = run.twig(rng);
    let damaged = samples::damaged_twig(rng, &twig);
    beside.check_twig(&twig);
    beside.check_twig(&damaged);
}

fn match_twig(run: &Run, beside: &mut Beside, rng: &mut Rng) {
    let mut twig = run.twig(rng);
    let (mut root, mut table) = (run.root, run.table.clone());
    let nodes = read_twig(&twig).expect("the twig is a good one");
    let labels = labels(run, rng);
    let lists = samples::streams(rng, &run.clues, root, &nodes, &labels);
    let found = matches(&run.clues, root, &nodes, &lists, MOST_MATCHES).len();
    let room = samples::out_len(rng, found * nodes.len() * LABEL_WORDS);
    let mut streams = Streams::of(&lists);
    match rng.below(8) {
        0 => twig = samples::damaged_twig(rng, &twig),
        1 => root = samples::maybe_damaged_root(rng, root),
        2 => table = samples::maybe_damaged_table(rng, &table),
        3 | 4 => samples::damage_streams(rng, &mut streams),
        _ => {}
    }
    beside.match_twig(&table, root, &twig, &streams.counts, &streams.buffer, room);
}

/// Labels for streams: the run's, or some that no store need have.
fn labels(run: &Run, rng: &mut Rng) -> Vec<Label> {
    const MOST: usize = 60;
    if rng.one_in(3) {
        let label = |_| samples::decoding_label(rng, &run.clues, run.root);
        (0..MOST).map(label).collect()
    } else {
        run.labels()
    }
}
