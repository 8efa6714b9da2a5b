//! The tables: the figures, how they grow, and the worst of them beside the goals.
use super::*;

/// A ratio to two places.
fn two(ratio: f64) -> String {
    format!("{ratio:.2}")
}

/// A row of a table in Markdown; the first cell is a name.
fn row(cells: &[&str]) {
    let rest: String = cells[1..].iter().map(|c| format!(" {c:>10} |")).collect();
    println!("| {:<40} |{rest}", cells[0]);
}

/// The head of a table.
fn head(cells: &[&str]) {
    row(cells);
    println!("|---|{}", "--:|".repeat(cells.len() - 1));
}

/// A row of the figures.
fn print_figure(f: &Figure) {
    let answer = match (f.kind, f.answer) {
        (Kind::Check, _) => String::new(),
        (_, Ok(n)) => n.to_string(),
        (_, Err(r)) => format!("refused {}", r.0),
    };
    let peer = match &f.peer {
        Some(p) => [us(p.whole), us(p.list), two(f.lead()), us(p.set)],
        None => Default::default(),
    };
    let [whole, list, lead, set] = peer;
    let (size, read) = (f.size(), f.read.to_string());
    let times = f.ns.map(us);
    let ratio = two(f.ratio());
    row(&[
        &f.name, &size, &read, &answer, &times[0], &times[1], &ratio, &whole, &list, &lead, &set,
    ]);
}

/// Every figure.
pub fn print_figures(figures: &[Figure]) {
    head(&[
        "us",
        "elements",
        "read",
        "answer",
        "library",
        "quick",
        "ratio",
        "with cut",
        "libxml2",
        "to library",
        "set only",
    ]);
    for f in figures {
        print_figure(f)
    }
}

/// How the times grow from 1,024 to 4,096 elements, beside what is read and listed.
pub fn print_growth(figures: &[Figure]) {
    head(&[
        "growth from 1,024 to 4,096",
        "data",
        "library",
        "to data",
        "quick",
        "to data",
    ]);
    for small in figures
        .iter()
        .filter(|f| f.elements == SIZES[0] && f.kind != Kind::Adverse)
    {
        let large = figures
            .iter()
            .find(|f| f.elements == SIZES[2] && f.name == small.name)
            .unwrap();
        let data = (large.read + large.matches()) as f64 / (small.read + small.matches()) as f64;
        let [ours, quick] = [0, 1].map(|i| large.ns[i] / small.ns[i]);
        let [data, ours, ours_to_data, quick, quick_to_data] =
            [data, ours, ours / data, quick, quick / data].map(two);
        row(&[
            &small.name,
            &data,
            &ours,
            &ours_to_data,
            &quick,
            &quick_to_data,
        ]);
    }
}

/// The median ratio of the eleven twigs at a size.
fn median(figures: &[Figure], elements: usize) -> f64 {
    let mut ratios: Vec<f64> = figures
        .iter()
        .filter(|f| f.kind == Kind::Twig && f.elements == elements)
        .map(Figure::ratio)
        .collect();
    ratios.sort_by(f64::total_cmp);
    assert!(ratios.len() == 11);
    ratios[5]
}

/// The kinds of calls, and the most that the library's time may be to the quick reference's.
const LIMITS: [(Kind, &str, f64); 6] = [
    (Kind::Check, "store check to quick", 1.5),
    (Kind::Entry, "entry to quick", 1.5),
    (Kind::Deletion, "deletion to quick", 1.5),
    (Kind::Cutting, "cutting to quick", 1.5),
    (Kind::Twig, "matching to quick, each twig", 2.0),
    (
        Kind::Adverse,
        "matching to quick, each adversarial twig",
        2.0,
    ),
];
/// The most that the median ratio of the eleven twigs may be.
const MEDIAN_LIMIT: f64 = 1.5;

/// A goal, and whether it is kept.
fn print_goal(what: &str, asked: &str, worst: f64, kept: bool, at: &str) {
    row(&[
        what,
        asked,
        &two(worst),
        if kept { "kept" } else { "MISSED" },
        at,
    ]);
}

/// The worst of each kind beside its goal.
pub fn print_goals(figures: &[Figure]) {
    head(&["goal", "asked", "worst", "", "at"]);
    for (kind, what, limit) in LIMITS {
        let alike = figures.iter().filter(|f| f.kind == kind);
        let f = alike
            .max_by(|a, b| a.ratio().total_cmp(&b.ratio()))
            .unwrap();
        print_goal(
            what,
            &format!("<= {limit:.1}"),
            f.ratio(),
            f.ratio() <= limit,
            &f.place(),
        );
    }
    for elements in [SIZES[0], SIZES[2]] {
        let ratio = median(figures, elements);
        let asked = format!("<= {MEDIAN_LIMIT:.1}");
        print_goal(
            "matching to quick, median of the eleven",
            &asked,
            ratio,
            ratio <= MEDIAN_LIMIT,
            &elements.to_string(),
        );
    }
    let f = figures
        .iter()
        .min_by(|a, b| a.lead().total_cmp(&b.lead()))
        .unwrap();
    print_goal(
        "libxml2 to the library, each twig",
        "> 1.0",
        f.lead(),
        f.lead() > 1.0,
        &f.place(),
    );
}
