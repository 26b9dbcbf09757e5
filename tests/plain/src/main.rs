//! The manager, sessions, remove locks, cancel slots, texts and the judge once more, in plain Rust and without proofs:
//! what `irp_bench` and `irpx check` are timed against.
//!
//! It does the same work: the same calls with the same answers, the same bytes of a transcript, the same verdicts. It
//! promises less: nothing is proved, a store's closures are trusted, and its reader takes no escapes. `bin/ratios`
//! builds both and prints how they compare.

mod asking;
mod caller;
mod cursor;
mod devices;
mod done;
mod headers;
mod judge;
mod locks;
mod manager;
mod orders;
mod packet;
mod packets;
mod pairs;
mod reader;
mod rules;
mod samples;
mod session;
mod slots;
mod status;
mod table;
#[cfg(test)]
mod tests;
mod texts;
mod types;
mod works;
mod writer;

use crate::judge::Verdict;
use crate::orders::{explore, script, Act, ACTS};
use crate::samples::{sample_of, sends};
use crate::table::{rounds, time_rows, Amount};
use crate::works::By;
use std::fs;
use std::io;
use std::process::ExitCode;

const USAGE: &str = "usage: plain [--quick] locks|slots|calls|write|read|check
       plain judge < TRANSCRIPT
       plain orders SEATS STEPS
       plain write calls|sends ENTRIES FILE
       plain write orders SEATS STEPS FILE";

/// Writes a transcript of about so many entries: of rounds of calls in four seats, or of sends of 500 packets through
/// four devices, again and again. None where there is no such kind.
fn write_sample(kind: &str, entries: u32, path: &str) -> Option<io::Result<()>> {
    let (devices, packets) = (4, 500);
    let first_calls = 2 * devices - 1 + packets;
    let batches = entries.saturating_sub(first_calls) / 4 / packets;
    let work = match kind {
        "calls" => rounds(entries, By::Seats(4)),
        "sends" => sends(devices, packets, batches, By::Seats(1)),
        _ => return None,
    };
    Some(fs::write(path, sample_of(&work).text))
}

/// Prints the verdict on the transcript of standard input, as `irpx check` does, and answers the same status.
fn judge_input() -> io::Result<u8> {
    Ok(match texts::check(&mut io::stdin().lock())? {
        Verdict::Legal(entries) => {
            println!("legal {entries}");
            0
        }
        Verdict::Illegal(entry) => {
            println!("illegal {entry}");
            2
        }
        Verdict::Refused(line) => {
            eprintln!("plain: transcript refused: line {line}");
            1
        }
    })
}

/// So many seats, and the steps of each at one remove lock. None where there aren't so many.
fn seats_and_steps(seats: &str, steps: &str) -> Option<(usize, &'static [Act])> {
    let seats = seats.parse().ok().filter(|it| (1..=64).contains(it))?;
    let steps: usize = steps.parse().ok()?;
    Some((seats, ACTS.get(..steps)?))
}

/// Explores every order, and says what `irp_orders --never 'held(lock 0) > 64'` says.
fn tell_orders(seats: usize, steps: &[Act]) -> u8 {
    let ends = explore(seats, steps);
    if ends.most_held > 64 {
        println!("never: it holds in an order");
        return 2;
    }
    let (orders, outcomes) = (ends.orders, ends.outcomes);
    println!("never: it holds in none of {orders} orders, {outcomes} outcomes");
    0
}

/// Does what the words ask for, and answers the exit status. None where they aren't words of the program.
fn run(words: &[&str]) -> Option<io::Result<u8>> {
    match words {
        ["judge"] => Some(judge_input()),
        ["write", kind, entries, path] => {
            let entries = entries.parse().ok().filter(|it| *it <= 1_000_000)?;
            let written = write_sample(kind, entries, path)?;
            Some(written.map(|()| 0))
        }
        ["orders", seats, steps] => {
            let (seats, steps) = seats_and_steps(seats, steps)?;
            Some(Ok(tell_orders(seats, steps)))
        }
        ["write", "orders", seats, steps, path] => {
            let (seats, steps) = seats_and_steps(seats, steps)?;
            Some(fs::write(path, script(seats, steps)).map(|()| 0))
        }
        ["--quick", word] => time_rows(word, Amount::Little).then_some(Ok(0)),
        [word] => time_rows(word, Amount::All).then_some(Ok(0)),
        _ => None,
    }
}

fn main() -> ExitCode {
    let words: Vec<String> = std::env::args().skip(1).collect();
    let words: Vec<&str> = words.iter().map(String::as_str).collect();
    match run(&words) {
        Some(Ok(status)) => ExitCode::from(status),
        Some(Err(error)) => {
            eprintln!("plain: {error}");
            ExitCode::from(5)
        }
        None => {
            eprintln!("{USAGE}");
            ExitCode::from(4)
        }
    }
}
