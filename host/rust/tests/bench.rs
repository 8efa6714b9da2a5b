//! The paper's bench checks and wrong turns by the safe wrappers, with the values that the paper
//! gives.

use jiszteruk::{check_twig, follows, kinship, match_twig};
use jiszteruk::{Kinship, Label, Refusal, Store, Table};

const GARAGE: u8 = 0;
const VEHICLE: u8 = 1;
const TEST: u8 = 2;
const AXLE: u8 = 3;
const CURVE: u8 = 4;
const NOTE: u8 = 5;
const ANY: u8 = 255;
const NODE_BYTES: usize = 4;
const NO_PAYLOAD: [u16; 2] = [0, 0];
const ROOM: usize = 100;

fn garage() -> (Table, Store) {
    let store = Store::new(ROOM, GARAGE, NO_PAYLOAD).expect("room and root are good");
    (Table::bench(), store)
}

fn enter(table: &Table, store: &mut Store, parent: &Label, name: u8) -> Label {
    let entered = store.enter(table, parent, name, NO_PAYLOAD);
    entered.unwrap_or_else(|refusal| panic!("{name} below {parent}: {refusal}"))
}

/// The last components that these names get below a parent.
fn given(table: &Table, store: &mut Store, parent: &Label, names: &[u8]) -> Vec<u16> {
    let label = |&name| enter(table, store, parent, name);
    let labels: Vec<Label> = names.iter().map(label).collect();
    labels.iter().map(|label| label[label.depth()]).collect()
}

fn label(components: &[u16]) -> Label {
    Label::from_components(components).expect("the components are good")
}

/// The matches of a twig, a line for each; the names are those of its leaves.
fn found(table: &Table, store: &Store, twig: &[u8], leaves: &[u8]) -> Vec<String> {
    let cut = |&name| store.cut(table, name).expect("the name is good");
    let streams: Vec<Vec<u16>> = leaves.iter().map(cut).collect();
    let labels = |stream: &Vec<u16>| stream.len() / Label::WORDS;
    let counts: Vec<usize> = streams.iter().map(labels).collect();
    let mut out = [0; ROOM * Label::WORDS];
    let found = match_twig(table, GARAGE, twig, &counts, &streams.concat(), &mut out);
    let words_of_match = twig.len() / NODE_BYTES * Label::WORDS;
    let matches = out.chunks(words_of_match);
    matches
        .take(found.expect("there is room"))
        .map(line)
        .collect()
}

/// The labels of a match, parted by spaces.
fn line(words: &[u16]) -> String {
    let shown = |words| Label::from_words(words).expect("it is a label").to_string();
    let labels: Vec<String> = words.chunks(Label::WORDS).map(shown).collect();
    labels.join(" ")
}

#[test]
fn a_deleted_vehicle_gives_no_number_back() {
    let (table, mut store) = garage();
    assert_eq!(
        given(&table, &mut store, &Label::ROOT, &[VEHICLE; 3]),
        [0, 1, 2]
    );
    store.delete(&table, &label(&[0])).expect("it is there");
    assert_eq!(given(&table, &mut store, &Label::ROOT, &[VEHICLE]), [3]);
}

#[test]
fn numbers_below_a_vehicle_and_a_test() {
    let (table, mut store) = garage();
    let vehicle = enter(&table, &mut store, &Label::ROOT, VEHICLE);
    let below = given(
        &table,
        &mut store,
        &vehicle,
        &[TEST, NOTE, TEST, NOTE, NOTE],
    );
    assert_eq!(below, [0, 1, 2, 3, 5]);
    let below = given(&table, &mut store, &label(&[0, 0]), &[AXLE, CURVE, AXLE]);
    assert_eq!(below, [1, 2, 4]);
}

#[test]
fn decoding() {
    let table = Table::bench();
    let names = table
        .decode(GARAGE, &label(&[1, 2, 4, 0]))
        .expect("it decodes");
    assert_eq!(names[..5], [GARAGE, VEHICLE, TEST, AXLE, CURVE]);
    let refusal = Refusal {
        number: Refusal::EMPTY_CLUE,
        place: 4,
    };
    assert_eq!(table.decode(GARAGE, &label(&[0, 0, 0, 0])), Err(refusal));
}

#[test]
fn kin() {
    let note = label(&[1, 0]);
    assert_eq!(kinship(&Label::ROOT, &note), Ok(Kinship::HigherAncestor));
    assert_eq!(kinship(&note, &note), Ok(Kinship::Same));
}

/// With 64 names in the clue the 1,024th child of place 62 gets the largest number. One of place 63
/// is refused then.
#[test]
fn the_widest_clue() {
    const CHILDREN: usize = 1_024;
    let file: Vec<u8> = (0..64).flat_map(|name| [0, name]).collect();
    let table = Table::read(&file).expect("the file is good");
    let mut store = Store::new(CHILDREN + 2, 0, NO_PAYLOAD).expect("room and root are good");
    let numbers = given(&table, &mut store, &Label::ROOT, &[62; CHILDREN]);
    assert_eq!(numbers.last(), Some(&Label::MAX_COMPONENT));
    let refusal = store
        .enter(&table, &Label::ROOT, 63, NO_PAYLOAD)
        .unwrap_err();
    assert_eq!(refusal.number, Refusal::NO_NUMBER);
}

#[test]
fn eight_twig_records_and_nine() {
    let twig = [&[255, 1, 255, 0][..], &[0, 1, 255, 0].repeat(8)].concat();
    assert_eq!(check_twig(&twig[..32]), Ok(()));
    assert_eq!(check_twig(&twig).unwrap_err().number, Refusal::TWIG_LENGTH);
}

/// The store and the twig of the program that prints matches.
#[test]
fn the_printed_matches() {
    let (table, mut store) = garage();
    enter(&table, &mut store, &Label::ROOT, VEHICLE);
    let vehicle = enter(&table, &mut store, &Label::ROOT, VEHICLE);
    store.delete(&table, &label(&[0])).expect("it is there");
    let test = enter(&table, &mut store, &vehicle, TEST);
    given(&table, &mut store, &test, &[AXLE, CURVE]);
    let axle = enter(&table, &mut store, &test, AXLE);
    enter(&table, &mut store, &axle, CURVE);
    enter(&table, &mut store, &Label::ROOT, VEHICLE);

    let twig = [255, 1, VEHICLE, 0, 0, 1, AXLE, 0, 0, 1, CURVE, 0];
    let expected = [
        "1 1.0.1 1.0.2",
        "1 1.0.1 1.0.4.0",
        "1 1.0.4 1.0.2",
        "1 1.0.4 1.0.4.0",
    ];
    assert_eq!(found(&table, &store, &twig, &[AXLE, CURVE]), expected);
}

#[test]
fn a_descendant_edge_is_not_met_by_the_element_itself() {
    let (table, mut store) = garage();
    enter(&table, &mut store, &Label::ROOT, VEHICLE);
    let twig = [255, 1, ANY, 0, 0, 1, ANY, 0];
    assert_eq!(found(&table, &store, &twig, &[ANY]), [". 0"]);
}

/// An axle with two curves as children: both must stand below the same axle.
#[test]
fn curves_at_equal_depth_need_not_share_an_axle() {
    let (table, mut store) = garage();
    let vehicle = enter(&table, &mut store, &Label::ROOT, VEHICLE);
    let test = enter(&table, &mut store, &vehicle, TEST);
    for _ in 0..2 {
        let axle = enter(&table, &mut store, &test, AXLE);
        enter(&table, &mut store, &axle, CURVE);
    }
    let twig = [255, 1, AXLE, 0, 0, 0, CURVE, 0, 0, 0, CURVE, 0];
    let expected = ["0.0.1 0.0.1.0 0.0.1.0", "0.0.4 0.0.4.0 0.0.4.0"];
    assert_eq!(found(&table, &store, &twig, &[CURVE, CURVE]), expected);
}

#[test]
fn a_longer_label_may_come_first() {
    assert_eq!(follows(&label(&[2]), &label(&[1, 0])), Ok(true));
    assert_eq!(follows(&label(&[1, 0]), &label(&[2])), Ok(false));
}
