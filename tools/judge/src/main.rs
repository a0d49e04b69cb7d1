//! Holds the port against the Rust that it was made from.
mod bench;
mod cards;
mod compare;
mod draw;
mod families;
mod growth;
mod input;
mod job;
mod leaves;
mod oracle;
mod port;
mod rng;
mod rules;
mod settings;
mod steer;
mod turns;

const HELP: &str = "judge jobs [--seeds N] [--from SEED] [--family NAME] [--ways]
judge settings [--seeds N] [--from SEED] [--family NAME] [--ways]
judge job SEED [--family NAME] [--settings]
judge leaves [--calls N] [--from SEED]
judge bench [--before] [--photographs N] [--repeats N] [--width N] [--dim N] [--lens yes|no|fisheye] [--marking yes|no]
            [--side rust|port|before]
judge growth [--photographs N] [--repeats N]
judge cards LIST ANSWERS [--seeds N] [--of-each N] [--marks] [--family NAME]
judge card FILE";

/// The value behind a word, if the word is there.
fn value<'a>(words: &'a [String], name: &str) -> Option<&'a str> {
    words.iter().position(|w| w == name).map(|i| words.get(i + 1).map_or("", |w| w.as_str()))
}

/// Whether the word is there.
fn said(words: &[String], name: &str) -> bool {
    words.iter().any(|w| w == name)
}

fn number(words: &[String], name: &str, default: u64) -> u64 {
    value(words, name).map_or(default, |w| w.parse().unwrap_or_else(|_| panic!("{name} wants a number")))
}

fn main() {
    oracle::keep_quiet();
    let words: Vec<String> = std::env::args().skip(1).collect();
    let family = value(&words, "--family");
    let good = match words.first().map(|w| w.as_str()) {
        Some(kind @ ("jobs" | "settings")) => compare::run(&compare::Options {
            settings: kind == "settings",
            first: number(&words, "--from", 0),
            count: number(&words, "--seeds", 2000),
            family,
            ways: said(&words, "--ways"),
        }),
        Some("job") => compare::explain(words.get(1).and_then(|w| w.parse().ok()).expect("judge job SEED"), family, said(&words, "--settings")),
        Some("leaves") => leaves::run(number(&words, "--from", 0), number(&words, "--calls", 1_000_000)),
        Some("bench" | "growth") if !cfg!(port) => {
            println!("no port to time");
            false
        }
        Some("bench") => bench::run(&bench::Options {
            photographs: number(&words, "--photographs", 4),
            repeats: number(&words, "--repeats", 25),
            before: said(&words, "--before"),
            side: value(&words, "--side"),
            width: value(&words, "--width"),
            dim: value(&words, "--dim"),
            lens: value(&words, "--lens"),
            marking: value(&words, "--marking"),
        }),
        Some("growth") => growth::run(number(&words, "--photographs", 4), number(&words, "--repeats", 25)),
        Some("cards") if words.len() > 2 => cards::run(&cards::Options {
            seeds: number(&words, "--seeds", 4000),
            of_each: number(&words, "--of-each", 2) as usize,
            marks: said(&words, "--marks"),
            family,
            list: &words[1],
            answers: &words[2],
        }),
        Some("card") if words.len() > 1 => cards::one(&words[1]),
        _ => {
            println!("{HELP}");
            false
        }
    };
    std::process::exit(if good { 0 } else { 1 });
}
