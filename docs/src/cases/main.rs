//! Prints cases, a line each: a call and, behind a bar, what 01 says is answered and left in the lent buffer.

mod asked;
mod damage;
mod drawing;
mod leaves;
mod lines;
mod mixed;
mod numbers;
mod offences;
mod rows;
#[allow(dead_code)]
#[path = "../rules/mod.rs"]
mod rules;
mod words;

use drawing::Maker;
use std::io::Read;
use std::process::ExitCode;

const DEFAULT_SEED: u64 = 1;
const DEFAULT_COUNT: u64 = 13_000;

const USAGE: &str = "usage: cases [SEED [COUNT]]
       cases answer < CALLS
Prints COUNT cases with contents drawn from SEED: first those picked by hand, then every group once,
then mixed ones until there are COUNT. With fewer than the groups have, just the groups.
With the word answer: answers the calls on standard input, one to a line.";

/// Behind a complaint about words.
const SEE: &str = "; see cases --help";

fn number(word: Option<&String>, default: u64) -> Result<u64, String> {
    match word {
        None => Ok(default),
        Some(word) => word.parse().map_err(|_| format!("cases: \"{word}\" is no number from 0 to {}{SEE}", u64::MAX)),
    }
}

fn print_answers() -> Result<(), String> {
    let mut calls = String::new();
    std::io::stdin().read_to_string(&mut calls).map_err(|cause| format!("cases: {cause}"))?;
    let mut maker = Maker::new(0);
    let answered = asked::answer(&mut maker, &calls);
    maker.flush();
    answered
}

fn print_all(seed: u64, count: u64) -> Result<(), String> {
    let mut maker = Maker::new(seed);
    asked::answer(&mut maker, asked::PICKED)?;
    asked::answer(&mut maker, asked::LEAVES)?;
    leaves::every_field(&mut maker);
    leaves::drawn(&mut maker);
    rows::accepted_rows(&mut maker);
    rows::both_ends(&mut maker);
    rows::edits(&mut maker);
    rows::shared_bytes(&mut maker);
    offences::refusals(&mut maker);
    damage::damaged(&mut maker);
    damage::lengths(&mut maker);
    damage::mislabelled(&mut maker);
    numbers::far_numbers(&mut maker);
    rows::counts(&mut maker);
    numbers::temperatures(&mut maker);
    numbers::days(&mut maker);
    mixed::controls(&mut maker);
    mixed::until(&mut maker, count);
    maker.flush();
    Ok(())
}

fn run(words: &[String]) -> Result<(), String> {
    let answers = words.first().is_some_and(|word| word == "answer");
    if let Some(word) = words.get(if answers { 1 } else { 2 }) {
        return Err(format!("cases: one word too many, \"{word}\"{SEE}"));
    }
    if answers {
        return print_answers();
    }
    print_all(number(words.first(), DEFAULT_SEED)?, number(words.get(1), DEFAULT_COUNT)?)
}

fn main() -> ExitCode {
    let words: Vec<String> = std::env::args().skip(1).collect();
    if words.iter().any(|word| word == "--help" || word == "-h") {
        println!("{USAGE}");
        return ExitCode::SUCCESS;
    }
    match run(&words) {
        Ok(()) => ExitCode::SUCCESS,
        Err(complaint) => {
            eprintln!("{complaint}");
            ExitCode::from(2)
        }
    }
}
