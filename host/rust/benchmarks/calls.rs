//! What is timed: calls that can be made over and over, by the library, the quick reference and the
//! plain one.
use super::*;

/// Whose call: the library's, the quick reference's, or the plain reference's, which is compared and
/// not timed.
#[derive(Clone, Copy, Debug)]
pub enum Who {
    Library,
    Quick,
    Plain,
}

/// A call that can be made over and over.
pub trait Call {
    /// Makes the call.
    fn make(&mut self, who: Who) -> R<usize>;
    /// Makes ready for the next call; not timed.
    fn reset(&mut self) {}
    /// Sets all that the call may write to what it was at first.
    fn blank(&mut self) {
        self.reset()
    }
    /// All that the call may write.
    fn written(&self) -> Vec<u16> {
        vec![]
    }
}

/// What an output holds before a call: no label has such a word.
const BLANK: u16 = 0xffff;
const PAYLOAD: [u16; 2] = [3, 5];

/// The check of a store.
pub struct Check<'a> {
    d: &'a Data,
}

impl Check<'_> {
    pub fn new(d: &Data) -> Check<'_> {
        Check { d }
    }
}

impl Call for Check<'_> {
    fn make(&mut self, who: Who) -> R<usize> {
        let Data { t, s, count, .. } = self.d;
        match who {
            Who::Library => library::check(t, s, *count),
            Who::Quick => quick::checks(t, s, *count).map(|_| 0),
            Who::Plain => store_check(t, &table_check(t)?, s, *count).map(|_| 0),
        }
    }
}

/// An element entered as near to the front as can be, so that nearly every record moves.
pub struct Entry<'a> {
    d: &'a Data,
    before: Vec<u16>,
    count: usize,
    parent: Lab,
    name: u8,
    s: Vec<u16>,
    label: Lab,
}

impl Entry<'_> {
    /// The entry brings a store to the tree's number of records, so the tree's last record is deleted
    /// before. The parent is the one whose subtree ends first, and the name the first that may stand
    /// below it.
    pub fn new(d: &Data) -> Entry<'_> {
        let mut before = d.s.clone();
        let last = *lab(&before, (d.count - 1) * REC);
        let count = delete(&d.t, &mut before, d.count, &last).unwrap();
        let first_below = |r: usize| d.t[before[r * REC + 16] as usize][0];
        let parents = (0..count).filter(|&r| first_below(r) != 255 && before[r * REC] < 15);
        let r = parents
            .min_by_key(|&r| subtree_end(&before, count, r))
            .unwrap();
        Entry {
            d,
            parent: *lab(&before, r * REC),
            name: first_below(r),
            s: before.clone(),
            before,
            count,
            label: [0; LAB],
        }
    }
}

impl Call for Entry<'_> {
    fn make(&mut self, who: Who) -> R<usize> {
        let Entry {
            d,
            count,
            parent,
            name,
            s,
            label,
            ..
        } = self;
        match who {
            Who::Library => library::enter(&d.t, s, *count, parent, *name, PAYLOAD, label),
            Who::Quick => quick::enter(&d.t, s, *count, parent, *name, PAYLOAD, label),
            Who::Plain => entry(&d.t, s, *count, parent, *name as u16, PAYLOAD, label),
        }
    }
    fn reset(&mut self) {
        self.s.copy_from_slice(&self.before);
        self.label = [0; LAB];
    }
    fn written(&self) -> Vec<u16> {
        [&self.s[..], &self.label].concat()
    }
}

/// The deletion of the element that `Entry` enters.
pub struct Deletion<'a> {
    d: &'a Data,
    before: Vec<u16>,
    count: usize,
    s: Vec<u16>,
    label: Lab,
}

impl Deletion<'_> {
    pub fn new(d: &Data) -> Deletion<'_> {
        let mut e = Entry::new(d);
        let count = e.make(Who::Plain).unwrap();
        Deletion {
            d,
            before: e.s.clone(),
            count,
            s: e.s,
            label: e.label,
        }
    }
}

impl Call for Deletion<'_> {
    fn make(&mut self, who: Who) -> R<usize> {
        let t = &self.d.t;
        match who {
            Who::Library => library::delete(t, &mut self.s, self.count, &self.label),
            Who::Quick => quick::delete(t, &mut self.s, self.count, &self.label),
            Who::Plain => delete(t, &mut self.s, self.count, &self.label),
        }
    }
    fn reset(&mut self) {
        self.s.copy_from_slice(&self.before)
    }
    fn written(&self) -> Vec<u16> {
        self.s.clone()
    }
}

/// The stream of a name, cut from a store.
pub struct Cut<'a> {
    d: &'a Data,
    name: u8,
    out: Vec<u16>,
}

impl Cut<'_> {
    /// The room is a label more than the stream takes.
    pub fn new(d: &Data, name: u8) -> Cut<'_> {
        Cut {
            d,
            name,
            out: vec![BLANK; d.stream(name).len() + LAB],
        }
    }
}

impl Call for Cut<'_> {
    fn make(&mut self, who: Who) -> R<usize> {
        let Data { t, s, count, .. } = self.d;
        match who {
            Who::Library => library::cut(t, s, *count, self.name, &mut self.out),
            Who::Quick => cut_fast(t, s, *count, self.name, &mut self.out),
            Who::Plain => cut(t, s, *count, self.name, &mut self.out),
        }
    }
    fn blank(&mut self) {
        self.out.fill(BLANK)
    }
    fn written(&self) -> Vec<u16> {
        self.out.clone()
    }
}

/// The matches of a twig, from the streams of its leaves.
pub struct Matching {
    t: Table,
    twig: Vec<u8>,
    counts: Vec<usize>,
    buf: Vec<u16>,
    out: Vec<u16>,
}

impl Matching {
    /// A twig over the streams cut from a tree; the room is a label more than its matches take.
    pub fn new(d: &Data, twig: &[u8]) -> Matching {
        let (counts, buf) = d.streams(twig);
        let n = matching(
            Algo::Fast,
            &d.t,
            d.root,
            twig,
            &counts,
            &buf,
            &mut vec![0; ROOM],
        )
        .unwrap();
        Matching {
            t: d.t,
            twig: twig.to_vec(),
            counts,
            buf,
            out: vec![BLANK; n * twig.len() / 4 * LAB + LAB],
        }
    }

    /// An adversarial twig, with the room that it comes with.
    pub fn adverse(case: &str) -> Matching {
        let (t, twig, counts, buf, room) = hard(case);
        let out = vec![BLANK; room * twig.len() / 4 * LAB];
        Matching {
            t,
            twig,
            counts,
            buf,
            out,
        }
    }

    /// How many labels the streams have.
    pub fn labels(&self) -> usize {
        self.buf.len() / LAB
    }
}

impl Call for Matching {
    fn make(&mut self, who: Who) -> R<usize> {
        let Matching {
            t,
            twig,
            counts,
            buf,
            out,
        } = self;
        match who {
            Who::Library => library::match_twig(t, 0, twig, counts, buf, out),
            Who::Quick => matching(Algo::Fast, t, 0, twig, counts, buf, out),
            Who::Plain => matching(Algo::MaskSkip, t, 0, twig, counts, buf, out),
        }
    }
    fn blank(&mut self) {
        self.out.fill(BLANK)
    }
    fn written(&self) -> Vec<u16> {
        self.out.clone()
    }
}

/// The matches of a twig, with each leaf's stream cut from the store in front.
pub struct CutAndMatch<'a> {
    d: &'a Data,
    names: Vec<u8>,
    m: Matching,
}

impl CutAndMatch<'_> {
    pub fn new<'a>(d: &'a Data, twig: &[u8]) -> CutAndMatch<'a> {
        let w = parse_twig(twig).unwrap();
        CutAndMatch {
            d,
            names: (0..w.k).filter(|&q| w.leaf[q]).map(|q| w.name[q]).collect(),
            m: Matching::new(d, twig),
        }
    }

    /// How many different labels the last node has in the matches of the last call.
    pub fn last_labels(&self, matches: usize) -> usize {
        let width = self.m.twig.len() / 4 * LAB;
        let mut labels: Vec<&[u16]> = self.m.out[..matches * width]
            .chunks(width)
            .map(|x| &x[width - LAB..])
            .collect();
        labels.sort();
        labels.dedup();
        labels.len()
    }
}

impl Call for CutAndMatch<'_> {
    fn make(&mut self, who: Who) -> R<usize> {
        let Data { t, s, count, .. } = self.d;
        let mut at = 0;
        for (i, &name) in self.names.iter().enumerate() {
            let out = &mut self.m.buf[at..];
            let n = match who {
                Who::Library => library::cut(t, s, *count, name, out)?,
                Who::Quick => cut_fast(t, s, *count, name, out)?,
                Who::Plain => cut(t, s, *count, name, out)?,
            };
            self.m.counts[i] = n;
            at += n * LAB;
        }
        self.m.make(who)
    }
    fn blank(&mut self) {
        self.m.blank()
    }
    fn written(&self) -> Vec<u16> {
        self.m.written()
    }
}
