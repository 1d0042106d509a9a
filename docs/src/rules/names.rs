//! The names of satellites, types and fields. Those of the fields come from the
//! documents: here is how a printed one is read.

use super::documents::{Document, DOCUMENT_000, DOCUMENT_001, DOCUMENT_002, DOCUMENT_004};
use super::table::Row;

/// The satellites by number, as 01 counts them, each with the document that
/// names its fields.
pub const SATELLITES: [(&str, &Document); 7] = [
    ("HADES-D", &DOCUMENT_001),
    ("HADES-ICM", &DOCUMENT_002),
    ("MARIA-G", &DOCUMENT_002),
    ("UNNE-1", &DOCUMENT_002),
    ("HADES-R", &DOCUMENT_002),
    ("UNNE-1B", &DOCUMENT_004),
    ("HADES-SA", &DOCUMENT_000),
];

/// The names of the types: the headings of document 002, which has a table for
/// every type of the rules ("Sunsenors" there is a misprint).
pub const TYPES: [(u32, &str); 9] = [
    (1, "Power"),
    (2, "Temperature"),
    (5, "Temp stats"),
    (6, "Sunsensors"),
    (7, "ICM game messages"),
    (8, "Deploy"),
    (10, "Nebrija University Game"),
    (11, "Fraunhofer experiment information"),
    (12, "Ephemeris"),
];

/// The names of the fields of a satellite's type, as many as the row has fields.
/// A damaged one is that of document 002 at the same place.
pub fn names(satellite: usize, row: &Row) -> Vec<String> {
    let (document, kind) = (SATELLITES[satellite].1, row.number);
    let own = document.packet(kind);
    let mut names = Vec::new();
    for (place, mut print) in own.names().enumerate() {
        if own.damaged.contains(&place) {
            print = DOCUMENT_002.packet(kind).name(place);
        }
        names.extend(spell_out(print));
    }
    assert_eq!(
        names.len(),
        row.fields(),
        "document {} and the table differ in the field count of type {}",
        document.number,
        kind
    );
    names
}

/// The names that one printed name stands for: itself up to the first blank,
/// bracket or colon, in lower case, and for a list one name for each member,
/// the last index fastest. The list's sizes are in brackets.
fn spell_out(print: &str) -> Vec<String> {
    let word = print
        .split(|sign| " [:".contains(sign))
        .next()
        .unwrap_or("");
    let mut names = vec![word.to_ascii_lowercase()];
    assert!(names[0].chars().all(is_name_sign), "damaged: {}", print);
    for size in sizes(print) {
        let mut members = Vec::new();
        for name in &names {
            for index in 0..size {
                members.push(format!("{}[{}]", name, index));
            }
        }
        names = members;
    }
    names
}

/// The numbers in brackets.
fn sizes(print: &str) -> Vec<usize> {
    let mut sizes = Vec::new();
    for part in print.split('[').skip(1) {
        let digits = part.split(']').next().unwrap_or("");
        sizes.push(digits.parse().expect("a number in brackets"));
    }
    sizes
}

fn is_name_sign(sign: char) -> bool {
    sign.is_ascii_lowercase() || sign.is_ascii_digit() || sign == '_' || sign == '.'
}
