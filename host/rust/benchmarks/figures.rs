//! A call with its least times, and what must hold before it is timed.
use super::*;

/// In a round a program makes at most so many calls.
pub const CALLS: usize = 100;
/// In a round a program begins no call after so many nanoseconds.
pub const BUDGET: f64 = 4e6;

#[derive(Clone, Copy, PartialEq)]
pub enum Kind {
    Check,
    Entry,
    Deletion,
    Cutting,
    Twig,
    Adverse,
}

/// A call on a tree of so many elements, with its times.
pub struct Figure<'a> {
    pub kind: Kind,
    pub name: String,
    pub elements: usize,
    /// How many records or labels the call reads.
    pub read: usize,
    pub answer: R<usize>,
    call: Box<dyn Call + 'a>,
    /// The least times of the library and of the quick reference.
    pub ns: [f64; 2],
    pub peer: Option<Peer<'a>>,
}

/// What stands beside a twig, by its number for libxml2, in ns.
pub struct Peer<'a> {
    twig: usize,
    call: CutAndMatch<'a>,
    /// The library with cutting in front.
    pub whole: f64,
    /// libxml2 listing every match.
    pub list: f64,
    /// libxml2's one expression, which gives the set of the last node's elements.
    pub set: f64,
}

/// The least time of the calls of a round, in ns.
fn least(call: &mut dyn Call, who: Who) -> f64 {
    let (start, mut least) = (Instant::now(), f64::MAX);
    for i in 0..CALLS {
        if i > 0 && start.elapsed().as_nanos() as f64 >= BUDGET {
            break;
        }
        call.reset();
        let begin = Instant::now();
        black_box(black_box(&mut *call).make(who)).ok();
        least = least.min(begin.elapsed().as_nanos() as f64);
    }
    least
}

/// The answer of a call, and what it writes.
fn outcome(call: &mut dyn Call, who: Who) -> (R<usize>, Vec<u16>) {
    call.blank();
    let answer = call.make(who);
    (answer, call.written())
}

impl<'a> Figure<'a> {
    /// The library and the quick reference answer and write what the plain reference does. Only
    /// adversarial twigs are refused.
    pub fn new(
        kind: Kind,
        name: String,
        elements: usize,
        read: usize,
        mut call: Box<dyn Call + 'a>,
    ) -> Figure<'a> {
        let plain = outcome(&mut *call, Who::Plain);
        assert!(
            plain.0.is_ok() || kind == Kind::Adverse,
            "{name}, {elements}: {:?}",
            plain.0
        );
        for who in [Who::Quick, Who::Library] {
            let other = outcome(&mut *call, who);
            assert!(
                other.0 == plain.0,
                "{name}, {elements}: {who:?} answers {:?}, the plain reference {:?}",
                other.0,
                plain.0
            );
            assert!(
                other.1 == plain.1,
                "{name}, {elements}: {who:?} writes something else than the plain reference"
            );
        }
        Figure {
            kind,
            name,
            elements,
            read,
            answer: plain.0,
            call,
            ns: [f64::MAX; 2],
            peer: None,
        }
    }

    /// A twig on a tree; with cutting in front it has the same matches. libxml2 lists as many, and
    /// its one expression has as many elements as the last node has labels.
    pub fn twig(
        name: &str,
        d: &'a Data,
        bytes: &[u8],
        twig: usize,
        xpath: &mut Xpath,
    ) -> Figure<'a> {
        let m = Matching::new(d, bytes);
        let read = m.labels();
        let mut f = Figure::new(Kind::Twig, name.into(), d.count, read, Box::new(m));
        let mut call = CutAndMatch::new(d, bytes);
        assert!(
            outcome(&mut call, Who::Library) == outcome(&mut *f.call, Who::Plain),
            "{name}, {}: cutting changes the matches",
            d.count
        );
        let [matches, list, found, set] = xpath.ask(twig);
        assert!(
            matches == f.matches() as f64,
            "{name}, {}: {matches} matches by libxml2, {} by the library",
            d.count,
            f.matches()
        );
        assert!(
            found == call.last_labels(f.matches()) as f64,
            "{name}, {}: {found} elements by libxml2",
            d.count
        );
        f.peer = Some(Peer {
            twig,
            call,
            whole: f64::MAX,
            list,
            set,
        });
        f
    }

    /// One round: the least times are kept.
    pub fn round(&mut self, xpath: &mut Xpath) {
        for (i, who) in [Who::Library, Who::Quick].into_iter().enumerate() {
            self.ns[i] = self.ns[i].min(least(&mut *self.call, who))
        }
        if let Some(p) = &mut self.peer {
            p.whole = p.whole.min(least(&mut p.call, Who::Library));
            let [_, list, _, set] = xpath.ask(p.twig);
            (p.list, p.set) = (p.list.min(list), p.set.min(set));
        }
    }

    /// How many matches the call lists.
    pub fn matches(&self) -> usize {
        if matches!(self.kind, Kind::Twig | Kind::Adverse) {
            self.answer.unwrap_or(0)
        } else {
            0
        }
    }
    /// The library's time to the quick reference's.
    pub fn ratio(&self) -> f64 {
        self.ns[0] / self.ns[1]
    }
    /// libxml2's time for the list of matches to the library's.
    pub fn lead(&self) -> f64 {
        self.peer.as_ref().map_or(f64::MAX, |p| p.list / self.ns[0])
    }
    /// The size of the tree; an adversarial twig has none.
    pub fn size(&self) -> String {
        if self.kind == Kind::Adverse {
            String::new()
        } else {
            self.elements.to_string()
        }
    }
    /// The call, and the size of the tree that it is made on.
    pub fn place(&self) -> String {
        format!("{} {}", self.name, self.size()).trim_end().into()
    }
}
