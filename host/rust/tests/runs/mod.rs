//! Runs of entries and deletions, with the book of the paper kept beside each.

use std::collections::HashSet;

use crate::beside::{Beside, Reply};
use crate::paper::book::Book;
use crate::paper::labels::{lay_out, lay_out_all, Label, LABEL_WORDS};
use crate::paper::names::{rows, Clues, ANY, NAMES};
use crate::paper::store::RECORD_WORDS;
use crate::paper::twigs::{leaves, matches, read_twig, Match};
use crate::paper::{Answer, Fault};
use crate::samples::{self, Rng, Streams};

/// The most matches that are compared before and after a call.
const MOST_MATCHES: usize = 200;

/// A twig with its full list of matches.
struct Asked {
    twig: Vec<u8>,
    list: Vec<Match>,
}

pub struct Run {
    pub clues: Clues,
    pub table: Vec<u8>,
    pub root: u8,
    /// The words of the records in use.
    pub words: Vec<u16>,
    pub book: Book,
    /// Every label given out, and those whose line was struck.
    given: HashSet<Label>,
    struck: Vec<Label>,
    names: Vec<u8>,
    /// How often a call goes for the deepest line.
    deepest_one_in: usize,
}

/// A call and the book agree: on the refusal, or that there is none.
fn agree<T>(reply: Reply, book: &Answer<T>) {
    let fault = Fault {
        number: reply.number,
        place: reply.place,
    };
    match book {
        Ok(_) => assert!(
            reply.is_taken(),
            "the book accepts what is refused: {reply:?}"
        ),
        Err(expected) => assert_eq!(fault, *expected, "the book refuses otherwise"),
    }
}

/// The matches that give no node a label of this kind.
fn without(list: &[Match], gone: impl Fn(&Label) -> bool) -> Vec<Match> {
    let kept = list.iter().filter(|labels| !labels.iter().any(&gone));
    kept.cloned().collect()
}

impl Run {
    /// A run begins at an accepted new store.
    pub fn start(beside: &mut Beside, rng: &mut Rng, clues: Clues, root: u8) -> Run {
        let mut words = rng.words(RECORD_WORDS);
        words.extend(samples::spare(rng));
        words.truncate(words.len() / RECORD_WORDS * RECORD_WORDS);
        let payload = rng.payload();
        let reply = beside.new_store(&mut words, root, payload);
        let book = Book::open(words.len(), root, payload);
        agree(reply, &book);
        words.truncate(RECORD_WORDS);
        Run {
            table: rows(&clues),
            names: samples::names_in_use(&clues, root),
            clues,
            root,
            words,
            book: book.expect("length and root are good"),
            given: HashSet::from([Label::new()]),
            struck: Vec::new(),
            deepest_one_in: *rng.pick(&[2, 5, 5]),
        }
    }

    pub fn count(&self) -> usize {
        self.book.lines.len()
    }

    /// The records in use in a slice of a length of its own.
    fn lent(&self, spare: Vec<u16>) -> Vec<u16> {
        [&self.words[..], &spare].concat()
    }

    /// Makes an entry and compares it with the book.
    pub fn enter(
        &mut self,
        beside: &mut Beside,
        parent: &[u16],
        name: u8,
        payload: [u16; 2],
        spare: Vec<u16>,
    ) -> Answer<Label> {
        let (mut lent, count) = (self.lent(spare), self.count());
        let (reply, words) = beside.enter(&self.table, &mut lent, count, parent, name, payload);
        let line = self
            .book
            .enter(&self.clues, lent.len(), parent, name, payload);
        agree(reply, &line);
        self.compare(reply, &lent);
        let label = line?;
        assert_eq!(words, lay_out(&label), "the entry answers its line's label");
        assert!(
            self.given.insert(label.clone()),
            "{label:?} is given out twice"
        );
        let path = &self.book.lines[&label].path;
        let (reply, names) = beside.decode(&self.table, self.root, &words);
        assert!(reply.is_taken());
        assert_eq!(
            names[..path.len()],
            path[..],
            "decoding gives the line's path"
        );
        Ok(label)
    }

    /// Makes a deletion and compares it with the book.
    pub fn delete(&mut self, beside: &mut Beside, label: &[u16], spare: Vec<u16>) -> Answer<Label> {
        let (mut lent, count) = (self.lent(spare), self.count());
        let reply = beside.delete(&self.table, &mut lent, count, label);
        let line = self.book.delete(lent.len(), label);
        agree(reply, &line);
        self.compare(reply, &lent);
        let label = line?;
        self.struck.push(label.clone());
        Ok(label)
    }

    /// After a call the count is the number of lines, and the records in use are the lines.
    fn compare(&mut self, reply: Reply, lent: &[u16]) {
        assert_eq!(
            reply.value,
            self.count(),
            "the count is the number of lines"
        );
        let in_use = &lent[..reply.value * RECORD_WORDS];
        assert!(
            in_use == self.book.records(),
            "the records in use are the lines"
        );
        self.words = in_use.to_vec();
    }

    /// The lines' labels and names.
    pub fn tree(&self) -> Vec<(Label, u8)> {
        let lines = self.book.lines.iter();
        lines
            .map(|(label, line)| (label.clone(), line.path[label.len()]))
            .collect()
    }

    pub fn labels(&self) -> Vec<Label> {
        self.book.lines.keys().cloned().collect()
    }

    /// A line's label: any one's, or the deepest one's that may have children.
    pub fn living(&self, rng: &mut Rng) -> Label {
        let may_have = |name: u8| !self.clues[usize::from(name)].is_empty();
        let tree = self.tree();
        let parents = tree.iter().filter(|(_, name)| may_have(*name));
        let deepest = parents.max_by_key(|(label, _)| label.len());
        match deepest {
            Some((label, _)) if rng.one_in(self.deepest_one_in) => label.clone(),
            _ => rng.pick(&tree).0.clone(),
        }
    }

    /// The words of a label to hand in: mostly a line's.
    pub fn handed_in(&self, rng: &mut Rng) -> Vec<u16> {
        let living = self.living(rng);
        match rng.below(20) {
            0 => samples::damaged_label(rng, &living),
            1 => lay_out(&samples::label(rng)).to_vec(),
            2 if !self.struck.is_empty() => lay_out(rng.pick::<Label>(&self.struck)).to_vec(),
            _ => lay_out(&living).to_vec(),
        }
    }

    /// A name to enter below a parent: mostly one of its clue.
    pub fn name_below(&self, rng: &mut Rng, parent: &[u16]) -> u8 {
        let depth = usize::from(*parent.first().unwrap_or(&0));
        let line = parent
            .get(1..=depth)
            .and_then(|label| self.book.lines.get(label));
        let clue = line.map(|line| &self.clues[usize::from(line.path[depth])]);
        match (rng.below(16), clue) {
            (0, _) => rng.byte(),
            (1, _) => rng.below(NAMES) as u8,
            (_, Some(clue)) if !clue.is_empty() => *rng.pick(clue),
            _ => *rng.pick(&self.names),
        }
    }

    pub fn names(&self) -> &[u8] {
        &self.names
    }

    pub fn twig(&self, rng: &mut Rng) -> Vec<u8> {
        if rng.one_in(3) {
            samples::twig(rng, &self.names)
        } else {
            samples::twig_over(rng, &self.tree())
        }
    }

    /// The full list of a twig's matches by the book's lines, if it is short enough. Streams cut
    /// from the slice and matched with room enough give this list.
    fn full_list(&self, beside: &mut Beside, rng: &mut Rng, twig: &[u8]) -> Option<Vec<Match>> {
        let nodes = read_twig(twig).expect("the twig is a good one");
        let asked: Vec<_> = leaves(&nodes)
            .iter()
            .map(|&leaf| nodes[leaf].name)
            .collect();
        let lines: Vec<_> = asked.iter().map(|&name| self.book.stream(name)).collect();
        let list = matches(&self.clues, self.root, &nodes, &lines, MOST_MATCHES + 1);
        if list.len() > MOST_MATCHES {
            return None;
        }
        for (&name, lines) in asked.iter().zip(&lines) {
            self.compare_stream(beside, rng, name, lines);
        }
        let Streams { counts, buffer } = Streams::of(&lines);
        let expected = lay_out_all(list.iter().flatten());
        let room = expected.len() + rng.below(2);
        let (reply, out) = beside.match_twig(&self.table, self.root, twig, &counts, &buffer, room);
        assert_eq!((reply.number, reply.value), (0, list.len()));
        assert_eq!(
            out[..expected.len()],
            expected,
            "the matches are the full list"
        );
        Some(list)
    }

    /// The stream cut from the slice is the line labels that the name asks for.
    fn compare_stream(
        &self,
        beside: &mut Beside,
        rng: &mut Rng,
        name: Option<u8>,
        lines: &[Label],
    ) {
        let room = lines.len() * LABEL_WORDS + rng.below(2);
        let name = name.unwrap_or(ANY);
        let (reply, out) = beside.cut(&self.table, &self.words, self.count(), name, room);
        assert_eq!((reply.number, reply.value), (0, lines.len()));
        assert_eq!(out[..reply.value * LABEL_WORDS], lay_out_all(lines));
    }

    /// Some twigs with their full lists.
    fn ask(&self, beside: &mut Beside, rng: &mut Rng, twigs: usize) -> Vec<Asked> {
        let mut asked = Vec::new();
        for _ in 0..twigs {
            let twig = self.twig(rng);
            if let Some(list) = self.full_list(beside, rng, &twig) {
                asked.push(Asked { twig, list });
            }
        }
        asked
    }

    /// A random entry. The list after it, less the matches with the new label, is the list before.
    pub fn random_entry(&mut self, beside: &mut Beside, rng: &mut Rng, twigs: usize) {
        let parent = self.handed_in(rng);
        let name = self.name_below(rng, &parent);
        let before = self.ask(beside, rng, twigs);
        let entered = self.enter(beside, &parent, name, rng.payload(), samples::spare(rng));
        for Asked { twig, list } in before {
            if let Some(after) = self.full_list(beside, rng, &twig) {
                let is_new = |label: &Label| entered.as_ref() == Ok(label);
                assert_eq!(without(&after, is_new), list);
            }
        }
    }

    /// A random deletion. The list before it, less the matches with a struck label, is the list
    /// after.
    pub fn random_deletion(&mut self, beside: &mut Beside, rng: &mut Rng, twigs: usize) {
        let label = self.handed_in(rng);
        let before = self.ask(beside, rng, twigs);
        let deleted = self.delete(beside, &label, samples::spare(rng));
        for Asked { twig, list } in before {
            let after = self.full_list(beside, rng, &twig);
            let struck = |label: &Label| deleted.as_ref().is_ok_and(|top| label.starts_with(top));
            assert_eq!(Some(without(&list, struck)), after);
        }
    }
}
