//! Pseudo-random arguments, good ones and damaged ones.

use crate::paper::labels::{
    components, lay_out, lay_out_all, name_of, Label, LABEL_WORDS, MAX_COMPONENT, MAX_DEPTH,
};
use crate::paper::names::{Clues, ANY, BENCH_FILE, FILLER, NAMES, TABLE_BYTES};
use crate::paper::store::{MAX_RECORDS, NAME_AT, NEXT_AT, RECORD_WORDS};
use crate::paper::twigs::{leaves, Twig, MAX_STREAM, MAX_TWIG, NODE_BYTES, NO_PARENT};

/// Splitmix64: the same numbers for the same seed.
pub struct Rng {
    state: u64,
}

impl Rng {
    pub fn new(seed: u64) -> Rng {
        Rng { state: seed }
    }

    fn next(&mut self) -> u64 {
        self.state = self.state.wrapping_add(0x9E37_79B9_7F4A_7C15);
        let mut mixed = self.state;
        mixed = (mixed ^ (mixed >> 30)).wrapping_mul(0xBF58_476D_1CE4_E5B9);
        mixed = (mixed ^ (mixed >> 27)).wrapping_mul(0x94D0_49BB_1331_11EB);
        mixed ^ (mixed >> 31)
    }

    /// A number below the bound.
    pub fn below(&mut self, bound: usize) -> usize {
        (self.next() % bound as u64) as usize
    }

    pub fn one_in(&mut self, times: usize) -> bool {
        self.below(times) == 0
    }

    pub fn word(&mut self) -> u16 {
        self.next() as u16
    }

    pub fn byte(&mut self) -> u8 {
        self.next() as u8
    }

    pub fn payload(&mut self) -> [u16; 2] {
        [self.word(), self.word()]
    }

    pub fn pick<'a, T>(&mut self, choices: &'a [T]) -> &'a T {
        &choices[self.below(choices.len())]
    }

    pub fn words(&mut self, len: usize) -> Vec<u16> {
        (0..len).map(|_| self.word()).collect()
    }
}

/// Every pair of these parents and children, parent by parent.
fn all_pairs(parents: usize, children: usize) -> Vec<u8> {
    let pair = |at: usize| [(at / children) as u8, (at % children) as u8];
    (0..parents * children).flat_map(pair).collect()
}

/// Pairs of few names, none twice.
fn few_pairs(rng: &mut Rng) -> Vec<u8> {
    let names = 2 + rng.below(5);
    let mut pairs: Vec<[u8; 2]> = Vec::new();
    for _ in 0..2 + rng.below(14) {
        let pair = [rng.below(names) as u8, rng.below(names) as u8];
        if !pairs.contains(&pair) {
            pairs.push(pair);
        }
    }
    pairs.concat()
}

/// A good child-name file.
pub fn file(rng: &mut Rng) -> Vec<u8> {
    match rng.below(12) {
        0 | 1 => BENCH_FILE.to_vec(),
        2 => vec![0, 0],
        3 => vec![0, 1, 0, 0, 1, 0],
        4 => all_pairs(1, NAMES),
        5 => all_pairs(3, 5),
        6 => all_pairs(NAMES, NAMES),
        7 => vec![63, 62, 63, 63, 62, 63, 62, 0],
        _ => few_pairs(rng),
    }
}

/// A child-name file, most often with a fault.
pub fn damaged_file(rng: &mut Rng) -> Vec<u8> {
    let mut file = file(rng);
    match rng.below(8) {
        0 => file.push(0),
        1 => file.extend(all_pairs(NAMES, NAMES)),
        2 => file.extend(&[0; 2]),
        3 => file.clear(),
        4 => {
            let at = rng.below(file.len());
            file[at] = *rng.pick(&[64, 65, 128, 254, 255]);
        }
        5 => {
            let pair = 2 * rng.below(file.len() / 2);
            let again = [file[pair], file[pair + 1]];
            let to = 2 * rng.below(file.len() / 2 + 1);
            file.splice(to..to, again);
        }
        6 => {
            let at = rng.below(file.len());
            file[at] = rng.byte();
        }
        _ => {}
    }
    file
}

/// A table with a fault, or one of another length.
pub fn damaged_table(rng: &mut Rng, table: &[u8]) -> Vec<u8> {
    let mut table = table.to_vec();
    let row = NAMES * rng.below(NAMES);
    let (first, second) = (row + rng.below(NAMES), row + rng.below(NAMES));
    match rng.below(7) {
        0 => table.resize(*rng.pick(&[0, 1, 64, 4_095, 4_097, 8_192]), FILLER),
        1 => table[first] = *rng.pick(&[64, 65, 254]),
        2 => table[first] = rng.byte(),
        3 => table[row + NAMES - 1] = rng.below(NAMES) as u8,
        4 => table[row] = FILLER,
        5 => table[first] = table[second],
        _ => table.swap(first, second),
    }
    table
}

/// A table that is sometimes damaged.
pub fn maybe_damaged_table(rng: &mut Rng, table: &[u8]) -> Vec<u8> {
    const ONE_IN: usize = 12;
    if rng.one_in(ONE_IN) {
        damaged_table(rng, table)
    } else {
        table.to_vec()
    }
}

/// A root name that is sometimes another one or none.
pub fn maybe_damaged_root(rng: &mut Rng, root: u8) -> u8 {
    match rng.below(16) {
        0 => *rng.pick(&[64, 65, 128, 254, 255]),
        1 => rng.byte(),
        2 => rng.below(NAMES) as u8,
        _ => root,
    }
}

fn component(rng: &mut Rng) -> u16 {
    match rng.below(12) {
        0 => rng.word().min(MAX_COMPONENT),
        1 => MAX_COMPONENT - rng.below(4) as u16,
        _ => rng.below(5) as u16,
    }
}

/// A label of random components that may decode or not.
pub fn label(rng: &mut Rng) -> Label {
    let deepest = *rng.pick(&[1, 3, 5, MAX_DEPTH]);
    (0..rng.below(deepest + 1))
        .map(|_| component(rng))
        .collect()
}

/// A label that decodes.
pub fn decoding_label(rng: &mut Rng, clues: &Clues, root: u8) -> Label {
    let mut label = label(rng);
    while name_of(clues, root, &label).is_none() {
        label.pop();
    }
    label
}

/// The words of a label with a fault of layout, or of another label.
pub fn damaged_label(rng: &mut Rng, label: &[u16]) -> Vec<u16> {
    let mut words = lay_out(label).to_vec();
    let depth = label.len();
    match rng.below(8) {
        0 => words.resize(*rng.pick(&[0, 1, 15, 17, 20, 32]), 0),
        1 => words[0] = *rng.pick(&[16, 17, 255, u16::MAX]),
        2 if depth > 0 => words[1 + rng.below(depth)] = u16::MAX,
        3 if depth < MAX_DEPTH => words[1 + depth + rng.below(MAX_DEPTH - depth)] = 1,
        4 => words[0] = rng.below(LABEL_WORDS + 1) as u16,
        5 => words[1 + rng.below(MAX_DEPTH)] = rng.word(),
        6 if depth > 0 => words[1 + rng.below(depth)] = component(rng),
        _ => words = rng.words(LABEL_WORDS),
    }
    words
}

/// Raises next numbers to near the top, which leaves a sound store sound.
pub fn raised(rng: &mut Rng, clues: &Clues, words: &[u16]) -> Vec<u16> {
    let mut words = words.to_vec();
    for record in words.chunks_mut(RECORD_WORDS) {
        let no_clue = clues[usize::from(record[NAME_AT])].is_empty();
        if no_clue || usize::from(record[0]) == MAX_DEPTH || rng.one_in(3) {
            continue;
        }
        let below_top = *rng.pick(&[0, 1, 2, 3, 64, 65, 128]);
        record[NEXT_AT] = record[NEXT_AT].max(u16::MAX - below_top);
    }
    words
}

/// Damages one field of one record, or the order of records.
fn damage_record(rng: &mut Rng, words: &mut [u16], count: usize) {
    let at = rng.below(count);
    let other = if at > 0 { at - 1 } else { rng.below(count) };
    let record = at * RECORD_WORDS..(at + 1) * RECORD_WORDS;
    let copy = words[record.clone()].to_vec();
    let depth = usize::from(copy[0]).min(MAX_DEPTH);
    let field = |within: usize| record.start + within;
    let near = |rng: &mut Rng, word: u16| *rng.pick(&[word.wrapping_add(1), word.wrapping_sub(1)]);
    match rng.below(12) {
        0 => words[field(0)] = *rng.pick(&[0, 1, 15, 16, u16::MAX]),
        1 => words[field(0)] = near(rng, copy[0]),
        2 if depth > 0 => words[field(depth)] = near(rng, copy[depth]),
        3 => words[field(1 + rng.below(MAX_DEPTH))] = *rng.pick(&[1, MAX_COMPONENT, u16::MAX]),
        4 if depth < MAX_DEPTH => words[field(depth + 1)] = rng.below(3) as u16,
        5 => words[field(NAME_AT)] = *rng.pick(&[0, 1, 2, 63, 64, 255, 256, u16::MAX]),
        6 => words[field(NAME_AT)] = copy[NAME_AT].wrapping_add(256),
        7 => words[field(NEXT_AT)] = *rng.pick(&[0, 1, 2, u16::MAX]),
        8 => words[field(NEXT_AT)] = near(rng, copy[NEXT_AT]),
        9 => words.copy_within(
            other * RECORD_WORDS..(other + 1) * RECORD_WORDS,
            record.start,
        ),
        10 => words[record].fill(0),
        _ => {
            let moved = words[other * RECORD_WORDS..(other + 1) * RECORD_WORDS].to_vec();
            words[other * RECORD_WORDS..(other + 1) * RECORD_WORDS].copy_from_slice(&copy);
            words[record].copy_from_slice(&moved);
        }
    }
}

/// A length or a count that a store with these records may have or not.
fn damage_size(rng: &mut Rng, words: &mut Vec<u16>, count: usize) -> usize {
    let len = words.len();
    match rng.below(8) {
        0 => words.resize(*rng.pick(&[0, 1, 19, 20, 21]), 0),
        1 => words.truncate(len - 1),
        2 => words.resize(len + 1 + rng.below(RECORD_WORDS), 0),
        3 => words.truncate(len - RECORD_WORDS),
        _ => {
            let over = words.len() / RECORD_WORDS + 1;
            let huge = usize::MAX / RECORD_WORDS + 2;
            let counts = [
                0,
                count - 1,
                count + 1,
                over,
                MAX_RECORDS + 1,
                huge,
                usize::MAX,
            ];
            return *rng.pick(&counts);
        }
    }
    count
}

/// The records in use of a store, damaged or raised, in a slice of its own; and a count.
pub fn lent_store(rng: &mut Rng, clues: &Clues, in_use: &[u16]) -> (Vec<u16>, usize) {
    let mut count = in_use.len() / RECORD_WORDS;
    let kind = rng.below(8);
    let mut words = if kind < 3 {
        raised(rng, clues, in_use)
    } else {
        in_use.to_vec()
    };
    words.extend(spare(rng));
    match kind {
        3 | 4 => damage_record(rng, &mut words, count),
        5 => count = damage_size(rng, &mut words, count),
        6 => {
            damage_record(rng, &mut words, count);
            damage_record(rng, &mut words, count);
            if rng.one_in(4) {
                count = damage_size(rng, &mut words, count);
            }
        }
        _ => {}
    }
    (words, count)
}

/// What stands behind the records in use: free records or none, now and then a part of one.
pub fn spare(rng: &mut Rng) -> Vec<u16> {
    let part = if rng.one_in(16) {
        rng.below(RECORD_WORDS)
    } else {
        0
    };
    let records = *rng.pick(&[0, 1, 1, 1, 2, 2, 3, 5]);
    rng.words(records * RECORD_WORDS + part)
}

/// A name asked for: mostly one of these, or any.
fn name_asked(rng: &mut Rng, names: &[u8]) -> u8 {
    match rng.below(8) {
        0 | 1 => ANY,
        2 => rng.below(NAMES) as u8,
        _ => *rng.pick(names),
    }
}

/// A good twig of random nodes.
pub fn twig(rng: &mut Rng, names: &[u8]) -> Vec<u8> {
    let nodes = 1 + rng.below(MAX_TWIG / NODE_BYTES);
    let chain = rng.one_in(3);
    let mut twig = Vec::new();
    for node in 0..nodes {
        let parent = match node {
            0 => NO_PARENT,
            _ if chain => node as u8 - 1,
            _ => rng.below(node) as u8,
        };
        let edge = u8::from(!rng.one_in(3));
        twig.extend([parent, edge, name_asked(rng, names), 0]);
    }
    twig
}

/// A good twig laid over these labels and names, so that there is a match. The labels are those of
/// a whole tree.
pub fn twig_over(rng: &mut Rng, tree: &[(Label, u8)]) -> Vec<u8> {
    let nodes = 1 + rng.below(MAX_TWIG / NODE_BYTES);
    let mut chosen = vec![rng.pick(tree).clone()];
    let at_root = chosen[0].0.is_empty() && rng.one_in(2);
    let asked = |rng: &mut Rng, name: u8| if rng.one_in(4) { ANY } else { name };
    let mut twig = vec![NO_PARENT, u8::from(!at_root), asked(rng, chosen[0].1), 0];
    for _ in 1..nodes {
        let parent = rng.below(chosen.len());
        let above = chosen[parent].0.clone();
        let below: Vec<_> = tree
            .iter()
            .filter(|(label, _)| label.starts_with(&above) && *label != above)
            .collect();
        if below.is_empty() {
            continue;
        }
        let (label, name) = *rng.pick(&below);
        let by_child = label.len() == above.len() + 1 && rng.one_in(2);
        twig.extend([parent as u8, u8::from(!by_child), asked(rng, *name), 0]);
        chosen.push((label.clone(), *name));
    }
    twig
}

/// A twig with a fault in one field or in its length.
pub fn damaged_twig(rng: &mut Rng, twig: &[u8]) -> Vec<u8> {
    let mut twig = twig.to_vec();
    let node = NODE_BYTES * rng.below(twig.len() / NODE_BYTES);
    match rng.below(8) {
        0 => twig.truncate(*rng.pick(&[0, 1, 2, 3, 5])),
        1 => twig.resize(*rng.pick(&[33, 36, 40, 64]), 0),
        2 => twig[node] = *rng.pick(&[0, 1, 7, 8, 254, NO_PARENT]),
        3 => twig[node] = (node / NODE_BYTES) as u8,
        4 => twig[node + 1] = *rng.pick(&[2, 3, 255]),
        5 => twig[node + 2] = *rng.pick(&[64, 65, 254]),
        6 => twig[node + 3] = *rng.pick(&[1, 255]),
        _ => {
            let at = rng.below(twig.len());
            twig[at] = rng.byte();
        }
    }
    twig
}

/// The streams of a twig's leaves: how many labels each has, and all labels one after the other.
#[derive(Clone, Debug)]
pub struct Streams {
    pub counts: Vec<usize>,
    pub buffer: Vec<u16>,
}

impl Streams {
    /// One stream after the other.
    pub fn of(streams: &[Vec<Label>]) -> Streams {
        Streams {
            counts: streams.iter().map(Vec::len).collect(),
            buffer: lay_out_all(streams.iter().flatten()),
        }
    }
}

/// Good streams for a twig's leaves, of some of these labels.
pub fn streams(
    rng: &mut Rng,
    clues: &Clues,
    root: u8,
    twig: &Twig,
    labels: &[Label],
) -> Vec<Vec<Label>> {
    const ONE_LEFT_OUT_IN: usize = 6;
    let mut stream_of = |leaf: usize| {
        let asked = twig[leaf].name;
        let wanted = |label: &&Label| match name_of(clues, root, label) {
            Some(name) => asked.is_none() || asked == Some(name),
            None => false,
        };
        let mut stream: Vec<Label> = labels.iter().filter(wanted).cloned().collect();
        stream.retain(|_| !rng.one_in(ONE_LEFT_OUT_IN));
        stream.sort();
        stream.dedup();
        stream
    };
    leaves(twig).into_iter().map(&mut stream_of).collect()
}

/// Damages the counts, the length or a label of streams.
pub fn damage_streams(rng: &mut Rng, streams: &mut Streams) {
    let Streams { counts, buffer } = streams;
    let stream = rng.below(counts.len());
    match rng.below(10) {
        0 => counts.push(*rng.pick(&[0, 1])),
        1 => drop(counts.pop()),
        2 => counts[stream] = *rng.pick(&[MAX_STREAM, MAX_STREAM + 1, usize::MAX]),
        3 => counts[stream] = counts[stream].wrapping_add(*rng.pick(&[1, usize::MAX])),
        4 => buffer.push(0),
        5 => drop(buffer.pop()),
        6 => {
            let to = rng.below(counts.len());
            if counts[stream] > 0 {
                counts[stream] -= 1;
                counts[to] += 1;
            }
        }
        _ if buffer.len() < LABEL_WORDS => {}
        kind => {
            let labels = buffer.len() / LABEL_WORDS;
            let at = LABEL_WORDS * rng.below(labels);
            let other = LABEL_WORDS * rng.below(labels);
            let label = buffer[at..at + LABEL_WORDS].to_vec();
            match (kind, components(&label)) {
                (7, _) => buffer.copy_within(other..other + LABEL_WORDS, at),
                (8, Some(label)) => {
                    let words = damaged_label(rng, &label);
                    let kept = words.len().min(LABEL_WORDS);
                    buffer[at..at + kept].copy_from_slice(&words[..kept]);
                }
                (_, Some(mut label)) if label.len() < MAX_DEPTH => {
                    label.push(component(rng));
                    buffer[at..at + LABEL_WORDS].copy_from_slice(&lay_out(&label));
                }
                _ => buffer[at + 1] = buffer[at + 1].wrapping_add(1),
            }
        }
    }
}

/// The length of an output for a result of so many words: enough, just enough, or too little.
pub fn out_len(rng: &mut Rng, needed: usize) -> usize {
    match rng.below(6) {
        0 => needed.saturating_sub(1),
        1 => needed.saturating_sub(LABEL_WORDS),
        2 => 0,
        3 => needed + 1 + rng.below(2 * LABEL_WORDS),
        _ => needed,
    }
}

/// The names that have a clue or stand in one; the root too.
pub fn names_in_use(clues: &Clues, root: u8) -> Vec<u8> {
    let parents = (0..NAMES).filter(|&name| !clues[name].is_empty());
    let mut names: Vec<u8> = parents.map(|name| name as u8).collect();
    names.extend(clues.iter().flatten());
    names.push(root);
    names.sort_unstable();
    names.dedup();
    names
}

/// A table's length, mostly the right one.
pub fn table_len(rng: &mut Rng) -> usize {
    *rng.pick(&[
        TABLE_BYTES,
        TABLE_BYTES,
        TABLE_BYTES,
        TABLE_BYTES - 1,
        TABLE_BYTES + 1,
        0,
    ])
}
