//! How long the library takes to read, write and edit frames of type 6, beside the second program: in one process, rounds in turn,
//! the median of the rounds' ratios.

#[allow(dead_code)]
#[path = "../cases/drawing.rs"]
mod drawing;
mod interface;
#[allow(dead_code)]
#[path = "../rules/mod.rs"]
mod rules;

use drawing::{written, Maker};
use rules::frames;
use rules::table::TABLE;

const TYPE: u32 = 6;
const FRAMES: usize = 50;
/// How often a round goes over the frames.
const TURNS: usize = 40;
const ROUNDS: usize = 101;

/// A frame, its values, and an edit.
struct Case {
    satellite: u32,
    values: Vec<u32>,
    frame: Vec<u8>,
    field: u32,
    value: u32,
}

fn case(maker: &mut Maker, satellite: u32) -> Case {
    let row = TABLE[satellite as usize].row(TYPE).expect("a sender of the type");
    let values = maker.wide_values(row);
    let frame = written(satellite, row, &values);
    let field = maker.between(0, values.len() - 1);
    let value = maker.wide_values(row)[field];
    Case { satellite, values, frame, field: field as u32, value }
}

/// The satellites that send the type.
fn senders() -> Vec<u32> {
    (0u32..).zip(&TABLE).filter(|(_, sender)| sender.row(TYPE).is_some()).map(|(number, _)| number).collect()
}

/// The same ones at every call.
fn cases() -> Vec<Case> {
    let (mut maker, senders) = (Maker::new(1), senders());
    (0..FRAMES).map(|k| case(&mut maker, senders[k % senders.len()])).collect()
}

#[repr(C)]
struct Time {
    seconds: i64,
    nanoseconds: i64,
}

extern "C" {
    fn clock_gettime(clock: i32, time: *mut Time) -> i32;
}

/// What this thread has had of the processor, in nanoseconds.
fn now() -> f64 {
    const OF_THREAD: i32 = 3;
    let mut time = Time { seconds: 0, nanoseconds: 0 };
    let refused = unsafe { clock_gettime(OF_THREAD, &mut time) };
    assert_eq!(refused, 0, "there is no clock of a thread");
    time.seconds as f64 * 1e9 + time.nanoseconds as f64
}

/// A function that the compiler cannot see through, so that every call is made.
fn opaque<F: Copy>(by: F) -> F {
    unsafe { std::ptr::read_volatile(&by) }
}

fn read(cases: &mut [Case], by: fn(u32, &[u8], &mut [u32]) -> (u32, u32, u32)) {
    let by = opaque(by);
    for case in cases {
        let told = by(case.satellite, &case.frame, &mut case.values);
        assert_eq!(told, (0, TYPE, case.values.len() as u32));
    }
}

fn write(cases: &mut [Case], by: fn(u32, u32, &[u32], &mut [u8]) -> (u32, u32)) {
    let by = opaque(by);
    for case in cases {
        let told = by(case.satellite, TYPE, &case.values, &mut case.frame);
        assert_eq!(told, (0, case.frame.len() as u32));
    }
}

fn edit(cases: &mut [Case], by: fn(u32, &mut [u8], u32, u32) -> (u32, u32)) {
    let by = opaque(by);
    for case in cases {
        let told = by(case.satellite, &mut case.frame, case.field, case.value);
        assert_eq!(told, (0, case.frame.len() as u32));
    }
}

/// Nanoseconds that a call takes in one round.
fn round(cases: &mut [Case], job: &dyn Fn(&mut [Case])) -> f64 {
    let start = now();
    for _ in 0..TURNS {
        job(cases);
    }
    (now() - start) / (TURNS * FRAMES) as f64
}

fn median(mut of: Vec<f64>) -> f64 {
    of.sort_by(|a, b| a.total_cmp(b));
    of[of.len() / 2]
}

/// Rounds in turn, after one of each that is not counted.
fn compare(name: &str, ours: &dyn Fn(&mut [Case]), theirs: &dyn Fn(&mut [Case])) {
    let (mut left, mut right) = (cases(), cases());
    round(&mut left, ours);
    round(&mut right, theirs);
    let mut rounds = vec![];
    for _ in 0..ROUNDS {
        rounds.push((round(&mut left, ours), round(&mut right, theirs)));
    }
    let same = left.iter().zip(&right).all(|(a, b)| a.values == b.values && a.frame == b.frame);
    assert!(same, "{name}: the two left other contents");
    let ratio = median(rounds.iter().map(|(a, b)| a / b).collect());
    let (a, b) = rounds.into_iter().unzip();
    println!("{name:<6} library {:7.0} ns, second program {:7.0} ns, ratio {ratio:.2}", median(a), median(b));
}

fn main() {
    compare("read", &|cases| read(cases, interface::read), &|cases| read(cases, frames::read));
    compare("write", &|cases| write(cases, interface::write), &|cases| write(cases, frames::write));
    compare("edit", &|cases| edit(cases, interface::edit), &|cases| edit(cases, frames::edit));
}
