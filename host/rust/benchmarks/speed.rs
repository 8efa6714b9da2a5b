//! Times of the library beside those of a quick reference in plain Rust and of libxml2's XPath, on
//! the same data and in turns. `bench/run` builds and runs it. It names a copy of the reference in
//! JISZTERUK_REFERENCE, with `main` renamed. What is not defined in this folder stands there: the
//! data (`bench`, `deep`, `hard`), the twigs (`queries`, `CASES`), and the calls, plain and quick.
#![allow(dead_code, clippy::all)]

include!(env!(
    "JISZTERUK_REFERENCE",
    "bench/run sets this to the path of the reference"
));

mod calls;
mod figures;
mod library;
mod quick;
mod report;
mod xpath;
use calls::*;
use figures::*;
use xpath::*;

/// The sizes of the trees; twigs are asked of the deep tree at the first and the last only.
const SIZES: [usize; 3] = [1024, 1350, 4096];
const ROUNDS: usize = 20;

/// The calls on a store.
fn store_figures<'a>(d: &'a Data, out: &mut Vec<Figure<'a>>) {
    let (tree, leaf, word) = if d.name.starts_with("bench") {
        ("bench", 4, "curve")
    } else {
        ("deep", 1, "b")
    };
    let mut add = |kind, what: String, call: Box<dyn Call + 'a>| {
        out.push(Figure::new(
            kind,
            format!("{tree}: {what}"),
            d.count,
            d.count,
            call,
        ))
    };
    add(Kind::Check, "store check".into(), Box::new(Check::new(d)));
    add(Kind::Entry, "entry".into(), Box::new(Entry::new(d)));
    add(
        Kind::Deletion,
        "deletion".into(),
        Box::new(Deletion::new(d)),
    );
    add(
        Kind::Cutting,
        format!("cutting {word}"),
        Box::new(Cut::new(d, leaf)),
    );
    add(
        Kind::Cutting,
        "cutting all".into(),
        Box::new(Cut::new(d, 255)),
    );
}

/// The twigs with the trees that they are asked of.
fn questions<'a>(
    benches: &'a [Data; 3],
    deeps: &'a [Data; 3],
) -> Vec<(&'a Data, &'static str, Vec<u8>)> {
    let mut all = vec![];
    for (kind, name, twig) in queries() {
        let trees = if kind == "bench" {
            vec![&benches[0], &benches[1], &benches[2]]
        } else {
            vec![&deeps[0], &deeps[2]]
        };
        for d in trees {
            all.push((d, name, twig.clone()))
        }
    }
    all
}

/// speed XPATH FOLDER [ROUNDS]. The calls and the programs take turns, since a machine's speed
/// changes while they run.
fn main() {
    let args: Vec<String> = std::env::args()
        .skip(1)
        .filter(|a| a != "--bench")
        .collect();
    let [program, folder, rest @ ..] = &args[..] else {
        panic!("usage: speed XPATH FOLDER [ROUNDS]")
    };
    let rounds = rest
        .first()
        .map_or(ROUNDS, |x| x.parse().expect("a number of rounds"));
    let (benches, deeps) = (SIZES.map(bench), SIZES.map(deep));
    let asked = questions(&benches, &deeps);
    let mut xpath = Xpath::start(program, folder, &asked);

    let mut figures = vec![];
    for d in benches.iter().chain(&deeps) {
        store_figures(d, &mut figures)
    }
    for (i, (d, name, twig)) in asked.iter().enumerate() {
        figures.push(Figure::twig(name, d, twig, i, &mut xpath))
    }
    for case in CASES {
        let m = Matching::adverse(case);
        figures.push(Figure::new(
            Kind::Adverse,
            case.into(),
            MAXN,
            m.labels(),
            Box::new(m),
        ));
    }
    eprintln!(
        "{} calls answer and write the same; rounds: {rounds}",
        figures.len()
    );
    for _ in 0..rounds {
        for f in &mut figures {
            f.round(&mut xpath)
        }
    }

    report::print_figures(&figures);
    println!();
    report::print_growth(&figures);
    println!();
    report::print_goals(&figures);
}
