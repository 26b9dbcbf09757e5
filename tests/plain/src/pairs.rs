//! Pairs of calls on one remove lock and on cancel slots, and the bare atomic steps that they make.

use crate::done::Done;
use crate::locks::{RemoveLock, RemoveSeat};
use crate::slots::{open, Outcome, SlotOwner, Slots};
use crate::types::IrpRef;
use std::hint::black_box;
use std::sync::atomic::{AtomicU64, Ordering::SeqCst};
use std::thread;
use std::time::{Duration, Instant};

/// The packet that each owner publishes.
const PACKET: IrpRef = IrpRef { slot: 0, use_no: 1 };

/// What is timed on cancel slots.
#[derive(Clone, Copy)]
pub enum Pair {
    /// An owner publishes a packet, and withdraws it.
    Withdrawn,
    /// An owner publishes a packet, and a canceller requests it.
    Requested,
    /// Two swaps and a fetch-or on one word.
    Bare,
}

/// Does this so often in each of so many threads, and answers how long it took from the first thread's start.
fn in_threads(threads: u32, count: u32, each: impl Fn(u32) + Sync) -> Done {
    let start = Instant::now();
    thread::scope(|scope| {
        for _ in 0..threads {
            scope.spawn(|| each(count));
        }
    });
    Done::new(count, start.elapsed())
}

/// Pairs of acquire and release in so many threads, each with a seat of its own, all on one lock.
pub fn acquire_and_release(threads: u32, count: u32) -> Done {
    let locks = [RemoveLock::new()];
    in_threads(threads, count, |count| {
        let mut seat = RemoveSeat::default();
        for tag in 0..count {
            assert!(seat.acquire(&locks, 0, tag).is_ok());
            assert!(seat.release(&locks, 0, tag).is_ok());
        }
    })
}

/// Bare pairs of fetch-add and fetch-sub in so many threads, all on one word.
pub fn add_and_subtract(threads: u32, count: u32) -> Done {
    let word = AtomicU64::new(0);
    in_threads(threads, count, |count| {
        for _ in 0..count {
            word.fetch_add(2, SeqCst);
            word.fetch_sub(2, SeqCst);
        }
    })
}

/// Makes the pair of calls on the slot of each of these owners.
fn pairs_of(pair: Pair, slots: &Slots, owners: &mut [SlotOwner]) {
    for (number, owner) in owners.iter_mut().enumerate() {
        slots.publish(owner, PACKET);
        let outcome = match pair {
            Pair::Withdrawn => slots.withdraw(owner),
            _ => slots.request(number as u32),
        };
        assert!(matches!(outcome, Outcome::Taken(_)));
    }
}

fn bare_steps(word: &AtomicU64, count: usize) {
    for _ in 0..count {
        word.swap(PACKET.use_no, SeqCst);
        word.fetch_or(1, SeqCst);
        word.swap(0, SeqCst);
    }
}

/// Times pairs of calls on slots, of which so many are opened at once, so often, or as many bare steps. To open them is
/// not in the time.
pub fn pairs_on_slots(pair: Pair, slots: u32, tables: u32) -> Done {
    let word = AtomicU64::new(0);
    let mut taken = Duration::ZERO;
    for _ in 0..tables {
        let (opened, mut owners) = open(slots);
        let start = Instant::now();
        match pair {
            Pair::Bare => bare_steps(black_box(&word), owners.len()),
            _ => pairs_of(pair, &opened, &mut owners),
        }
        taken += start.elapsed();
    }
    Done::new(tables * slots, taken)
}
