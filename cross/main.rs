//! The cross-check: runs the library and an independent implementation on the same inputs and compares everything.
//!
//!   cross run TIMES PARTS SEED KIND SERVER..   a kind of cases, or `all`: TIMES times as many as by default, of which one
//!                                              in PARTS
//!   cross one SEED KIND SERVER..               one case again
//!   cross vectors DIR                          the independent implementation against worked vectors
//!   cross expect                               reads `W H ; labels` lines, prints the seven tables of each by the paper
//!
//! SERVER.. is the command that starts the library's side, server.c.
//!
//! Progress goes to standard error, the summary to standard output. The status is 1 where something differs.

mod kinds;
mod naive;
mod request;
mod sheets;
mod shrink;
mod vectors;

use kinds::{kinds, Both, Kind};
use request::Server;
use sheets::Random;
use std::path::Path;
use std::process::ExitCode;

const USAGE: &str = "usage: cross run TIMES PARTS SEED KIND SERVER.. | one SEED KIND SERVER.. | vectors DIR | expect";
/// The most that TIMES can be, so that every case has an index of 32 bits.
const MOST_TIMES: u64 = 100_000;

fn main() -> ExitCode {
    let arguments: Vec<String> = std::env::args().skip(1).collect();
    let words: Vec<&str> = arguments.iter().map(String::as_str).collect();
    let number = |word: &str| word.parse().unwrap_or_else(|_| refuse(&format!("{word} is no number")));
    let both = |from: usize| Both::new(Server::new(arguments[from..].to_vec()));
    let kinds = |name: &str| {
        let chosen: Vec<Kind> = kinds().into_iter().filter(|kind| name == "all" || kind.name == name).collect();
        if chosen.is_empty() {
            let known: Vec<&str> = kinds().iter().map(|kind| kind.name).collect();
            refuse(&format!("there is no kind `{name}`; the kinds are all, {}", known.join(", ")));
        }
        chosen
    };
    let agreed = match words[..] {
        ["run", times, parts, seed, kind, _, ..] => {
            run(both(5), &kinds(kind), number(times), number(parts).max(1) as usize, number(seed))
        }
        ["one", seed, kind, _, ..] => kinds(kind).iter().all(|kind| {
            let mut both = both(3);
            both.at(kind.name, 0, 1);
            agrees(&mut both, kind, number(seed))
        }),
        ["vectors", folder] => vectors::run(Path::new(folder)),
        ["expect"] => vectors::expect(),
        _ => refuse("the words are none of these"),
    };
    ExitCode::from(u8::from(!agreed))
}

/// Ends with status 2.
fn refuse(what: &str) -> ! {
    eprintln!("cross: {what}; {USAGE}");
    std::process::exit(2)
}

/// Runs the case of a seed: its upper half is the case's index. Where the two sides differ, says so with the smallest
/// case found.
fn agrees(both: &mut Both, kind: &Kind, seed: u64) -> bool {
    let sheet = (kind.sheet)((seed >> 32) as usize, &mut Random(!seed));
    match (kind.compare)(both, &sheet, &mut Random(seed)) {
        Ok(()) => true,
        Err(difference) => {
            println!("DIFFERS kind `{}` seed {seed}: {:?}: {}", kind.name, difference.request.call, difference.what);
            shrink::report(both, kind, sheet, seed, difference);
            false
        }
    }
}

/// A time in words.
fn in_words(seconds: u64) -> String {
    match seconds {
        0..=119 => format!("{seconds} s"),
        120..=7199 => format!("{} minutes", seconds / 60),
        7200..=172_799 => format!("{} hours", seconds / 3600),
        _ => format!("{} days", seconds / 86400),
    }
}

/// Runs the cases of some kinds and prints how many there were.
fn run(mut both: Both, kinds: &[Kind], times: u64, parts: usize, start: u64) -> bool {
    if times == 0 || times > MOST_TIMES {
        refuse(&format!("TIMES is 1 to {MOST_TIMES}, not {times}"));
    }
    let indices = |kind: &Kind| (0..kind.cases * times as usize).step_by(parts);
    let cases: usize = kinds.iter().map(|kind| indices(kind).len()).sum();
    let seconds = times * kinds.iter().map(|kind| kind.seconds).sum::<u64>();
    eprintln!("cross: {cases} cases, about {} of one core", in_words(seconds));
    let mut summary = Vec::new();
    let mut total = 0;
    for kind in kinds {
        let indices = indices(kind);
        let cases = indices.len();
        both.calls = 0;
        for (done, index) in indices.enumerate() {
            both.at(kind.name, done, cases);
            if !agrees(&mut both, kind, ((index as u64) << 32) | (start & 0xFFFF_FFFF)) {
                return false;
            }
        }
        summary.push(format!("{:14} {cases:8} cases {:9} calls", kind.name, both.calls));
        total += both.calls;
    }
    for line in summary {
        println!("{line}");
    }
    println!("cross: {total} calls compared, all agree");
    true
}
