//! A second program for the layouts: which fields a frame has, where they lie
//! and what they are called.
//!
//! Widths and names come from different papers and meet only here: the names
//! from the satellite teams' documents, the widths from 01, and those of type 1,
//! for which 01 has no line, from the documents too. What can be worked out is
//! worked out: places and frame lengths are sums of widths. Where two papers
//! disagree about a number the program stops with a message.
//!
//! ```text
//! layouts table     SAT TYPE FIELDS BYTES, a heading and one line a frame
//! layouts fields    a line `fields SAT TYPE` for each frame, and below it what
//!                   the operators' command answers to that line
//! ```
//!
//! The answer is a heading, a line `FIELD NAME BIT WIDTH` for each field and an
//! empty line. FIELD counts from 0, BIT from the first bit of the body.

#[allow(dead_code)]
#[path = "../rules/mod.rs"]
mod rules;

use rules::names::{names, SATELLITES};
use rules::table::{Row, Satellite, TABLE};
use std::env;
use std::ffi::OsString;
use std::io::{self, Write};
use std::process::ExitCode;

fn main() -> io::Result<ExitCode> {
    let arguments: Vec<OsString> = env::args_os().skip(1).collect();
    let text = match arguments.as_slice() {
        [word] if word == "table" => table(),
        [word] if word == "fields" => fields(),
        _ => {
            eprintln!("usage: layouts table | layouts fields");
            return Ok(ExitCode::from(2));
        }
    };
    io::stdout().write_all(text.as_bytes())?;
    Ok(ExitCode::SUCCESS)
}

/// The type byte, and the two bytes of the checksum.
const AROUND_BODY: usize = 1 + 2;

/// The bits from type byte to checksum, by the widths of the fields.
fn bits(widths: impl Iterator<Item = usize>) -> usize {
    8 * AROUND_BODY + widths.sum::<usize>()
}

/// The widths must fill the bytes that 01, or 02, gives a row.
fn compare_bytes(row: &Row) {
    assert_eq!(
        bits(row.widths()),
        8 * row.bytes,
        "type {}: the widths and the bytes from type byte to checksum differ",
        row.number
    );
}

/// Where the widths are the documents', they must have the sum that the
/// satellite's own document prints, 248 bits for type 1 (02, "One"), and be the
/// row's.
fn compare_document(satellite: usize, row: &Row) {
    let document = SATELLITES[satellite].1;
    if let Some((widths, sum)) = document.widths(row.number) {
        let place = format!("document {}, type {}", document.number, row.number);
        let added = bits(widths.iter().copied());
        assert_eq!(added, sum, "{place}: the widths have not the printed sum");
        let table: Vec<usize> = row.widths().collect();
        assert_eq!(widths, table, "{place}: the widths are not the table's");
    }
}

/// Every satellite's number with each of its rows, about which the papers agree.
fn rows() -> impl Iterator<Item = (usize, &'static Satellite, &'static Row)> {
    let satellites = TABLE.iter().enumerate();
    let all = satellites.flat_map(|(number, satellite)| {
        let rows = satellite.rows.iter();
        rows.map(move |row| (number, satellite, row))
    });
    all.inspect(|(number, _, row)| {
        compare_bytes(row);
        compare_document(*number, row);
    })
}

/// The printed table of 01: satellite, type, field count, frame length.
fn table() -> String {
    let mut text = String::from("sat type fields bytes\n");
    for (number, satellite, row) in rows() {
        let bytes = satellite.type_place() + bits(row.widths()) / 8;
        text += &format!("{} {} {} {}\n", number, row.number, row.fields(), bytes);
    }
    text
}

/// Every field of every frame: number, name, first bit and width.
fn fields() -> String {
    let mut text = String::new();
    for (number, _, row) in rows() {
        text += &format!("fields {} {}\nfield name start width\n", number, row.number);
        let mut bit = 0;
        for (field, (width, name)) in row.widths().zip(names(number, row)).enumerate() {
            text += &format!("{} {} {} {}\n", field, name, bit, width);
            bit += width;
        }
        text.push('\n');
    }
    text
}
