//! The table of all loads, and the loop that times them. Names and numbers are those of `irp_bench`.

use crate::done::Done;
use crate::pairs::{acquire_and_release, add_and_subtract, pairs_on_slots, Pair};
use crate::samples::{perform, record_sample, sends, Sample, Task};
use crate::works::{do_work, Batch, By, Work};
use std::time::Duration;

/// How often each load is timed. The least time counts.
const ROUNDS: u32 = 5;

/// How many pairs a thread makes on a remove lock.
const PAIRS: u32 = 2_000_000;

/// How often cancel slots are opened.
const TABLES: u32 = 16_000;

/// How many calls are made in rounds, by all callers together.
const CALLS: u32 = 1_000_000;

/// How many packets are allocated and given back.
const UNUSED: u32 = 20_000;

/// How many packets are sent, one after another, by the manager alone; and in a session.
const PACKETS: u32 = 1_000;

const RECORDED_PACKETS: u32 = 500;

/// How often each of them is sent.
const SENDS: u32 = 40;

/// The least part of a count. A text has a multiple of four entries.
const LEAST: u32 = 40;

/// How much of it is timed: all, or a thousandth of it in one round, to see that it runs.
#[derive(Clone, Copy, PartialEq, Eq)]
pub enum Amount {
    All,
    Little,
}

/// Who makes the calls of a load.
#[derive(Clone, Copy)]
enum Who {
    Alone,
    AloneWithLists,
    Recorded,
}

/// What is timed, for a number: of threads, slots, live packets, devices or entries.
#[derive(Clone, Copy)]
enum Load {
    Lock,
    Word,
    Slot(Pair),
    Rounds(Who),
    Entries(Who),
    Unused(Who),
    Sends(Who),
    Text(Task),
}

/// What a word asks for: a load with its name, and perhaps another that is timed beside it, for each of some numbers.
struct Row {
    word: &'static str,
    name: &'static str,
    load: Load,
    beside: Option<(&'static str, Load)>,
    numbers: &'static [u32],
}

/// All that the program times, in this order.
static TABLE: [Row; 12] = [
    Row {
        word: "locks",
        name: "acquire and release, threads",
        load: Load::Lock,
        beside: Some(("fetch-add and fetch-sub", Load::Word)),
        numbers: &[1, 4],
    },
    Row {
        word: "slots",
        name: "publish and withdraw, slots",
        load: Load::Slot(Pair::Withdrawn),
        beside: Some(("two swaps and a fetch-or", Load::Slot(Pair::Bare))),
        numbers: &[64],
    },
    Row {
        word: "slots",
        name: "publish and request, slots",
        load: Load::Slot(Pair::Requested),
        beside: Some(("two swaps and a fetch-or", Load::Slot(Pair::Bare))),
        numbers: &[64],
    },
    Row {
        word: "calls",
        name: "a recorded call, of four, threads",
        load: Load::Rounds(Who::Recorded),
        beside: Some(("by the manager alone", Load::Rounds(Who::Alone))),
        numbers: &[1, 2, 4, 8],
    },
    Row {
        word: "calls",
        name: "a recorded call, of four, entries",
        load: Load::Entries(Who::Recorded),
        beside: Some(("by the manager alone", Load::Entries(Who::Alone))),
        numbers: &[1_000, 10_000, 100_000, 1_000_000],
    },
    Row {
        word: "calls",
        name: "a packet allocated and given back, live packets",
        load: Load::Unused(Who::Alone),
        beside: Some(("recorded", Load::Unused(Who::Recorded))),
        numbers: &[1, 64, 4_096],
    },
    Row {
        word: "calls",
        name: "a send, devices",
        load: Load::Sends(Who::Alone),
        beside: Some(("recorded", Load::Sends(Who::Recorded))),
        numbers: &[1, 4, 16, 32],
    },
    Row {
        word: "calls",
        name: "a send that answers a list, devices",
        load: Load::Sends(Who::AloneWithLists),
        beside: None,
        numbers: &[1, 4, 16, 32],
    },
    Row {
        word: "write",
        name: "write_transcript, entries",
        load: Load::Text(Task::Write),
        beside: None,
        numbers: &[100_000, 1_000_000],
    },
    Row {
        word: "read",
        name: "read_transcript, entries",
        load: Load::Text(Task::Read),
        beside: None,
        numbers: &[100_000, 1_000_000],
    },
    Row {
        word: "check",
        name: "check, entries",
        load: Load::Text(Task::Judge),
        beside: None,
        numbers: &[10_000, 100_000, 1_000_000],
    },
    Row {
        word: "check",
        name: "read and judged in blocks, entries",
        load: Load::Text(Task::Check),
        beside: None,
        numbers: &[1_000_000],
    },
];

/// So much of a count: all of it, or a thousandth, but enough that there is something.
fn part(count: u32, amount: Amount) -> u32 {
    match amount {
        Amount::All => count,
        Amount::Little => (count / 1000).max(LEAST),
    }
}

fn by(who: Who, seats: u32) -> By {
    match who {
        Who::Alone => By::Alone,
        Who::AloneWithLists => By::AloneWithLists,
        Who::Recorded => By::Seats(seats),
    }
}

/// So many calls in rounds, all callers together.
pub fn rounds(calls: u32, by: By) -> Work {
    let callers = match by {
        By::Seats(seats) => seats,
        _ => 1,
    };
    Work {
        devices: 0,
        packets: 0,
        locations: 1,
        batch: Batch::Rounds {
            count: calls / 4 / callers,
        },
        batches: 1,
        by,
    }
}

/// Packets that are allocated and given back, while so many are live, this one too.
fn unused(count: u32, live: u32, by: By) -> Work {
    Work {
        devices: 0,
        packets: live - 1,
        locations: 16,
        batch: Batch::Unused { count },
        batches: 1,
        by,
    }
}

/// Times a work that is done so often, one time after another.
fn time_work(work: &Work, times: u32) -> Done {
    let taken: Duration = (0..times).map(|_| do_work(work).taken).sum();
    Done::new(work.count() * times, taken)
}

/// Runs a load once.
fn run(load: Load, number: u32, amount: Amount, sample: Option<&Sample>) -> Done {
    match load {
        Load::Lock => acquire_and_release(number, part(PAIRS, amount)),
        Load::Word => add_and_subtract(number, part(PAIRS, amount)),
        Load::Slot(pair) => pairs_on_slots(pair, number, part(TABLES, amount)),
        Load::Rounds(who) => time_work(&rounds(part(CALLS, amount), by(who, number)), 1),
        Load::Entries(who) => {
            let work = rounds(part(number, amount), by(who, 1));
            time_work(&work, CALLS / number)
        }
        Load::Unused(who) => time_work(&unused(part(UNUSED, amount), number, by(who, 1)), 1),
        Load::Sends(who) => {
            let packets = match who {
                Who::Recorded => RECORDED_PACKETS,
                _ => PACKETS,
            };
            let batches = if amount == Amount::All { SENDS } else { 1 };
            time_work(&sends(number, packets, batches, by(who, 1)), 1)
        }
        Load::Text(task) => perform(task, sample.expect("a text's load has a sample")),
    }
}

/// The transcript that a row wants for a number.
fn sample_for(row: &Row, number: u32, amount: Amount) -> Option<Sample> {
    let entries = match row.load {
        Load::Text(_) => number,
        _ => return None,
    };
    Some(record_sample(part(entries, amount)))
}

/// The text of a row's line for one of its numbers: its least times, of loads that take turns.
fn line_of(row: &Row, number: u32, amount: Amount) -> String {
    let sample = sample_for(row, number, amount);
    let run = |load| run(load, number, amount, sample.as_ref());
    let mut least = run(row.load);
    let mut beside = row.beside.map(|(name, load)| (name, load, run(load)));
    let more = if amount == Amount::All { ROUNDS - 1 } else { 0 };
    for _ in 0..more {
        least = least.min(run(row.load));
        if let Some((_, load, done)) = &mut beside {
            *done = done.min(run(*load));
        }
    }
    let told = beside.map_or(String::new(), |(name, _, done)| format!("; {name}: {done}"));
    format!("{} {number}: {least}{told}", row.name)
}

/// Times the rows of a word, and prints a line for each of their numbers. Whether there is such a row.
pub fn time_rows(word: &str, amount: Amount) -> bool {
    let mut is_known = false;
    for row in TABLE.iter().filter(|it| it.word == word) {
        is_known = true;
        for number in row.numbers {
            println!("plain: {}", line_of(row, *number, amount));
        }
    }
    is_known
}
