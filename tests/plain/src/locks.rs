//! Remove locks, and seats that know which references they hold.

use crate::status::Status;
use std::sync::atomic::{AtomicU64, Ordering::SeqCst};

/// STATUS_DELETE_PENDING: removal has begun.
const DELETE_PENDING: Status = 0xC000_0056;

/// The most references that a seat holds.
const MOST_HELD: usize = 64;

/// A lock's word: twice its references and attempts, plus 1 once removal has begun.
pub struct RemoveLock(pub AtomicU64);

/// Why a lock refuses.
#[derive(Clone, Copy, PartialEq, Eq, Debug)]
pub enum Refused {
    NoLock,
    SeatFull,
    NotHeld,
    Removing(Status),
}

/// One caller's place at the locks: the references that it holds, each a lock and a tag.
#[derive(Default)]
pub struct RemoveSeat {
    held: Vec<(u32, u32)>,
}

impl RemoveLock {
    pub fn new() -> RemoveLock {
        RemoveLock(AtomicU64::new(0))
    }

    /// Adds a reference, and takes it back where removal has begun. Whether it stays.
    fn acquire(&self) -> bool {
        if self.0.fetch_add(2, SeqCst) & 1 == 0 {
            return true;
        }
        self.0.fetch_sub(2, SeqCst);
        false
    }
}

impl RemoveSeat {
    /// Takes a reference under this tag.
    pub fn acquire(&mut self, locks: &[RemoveLock], lock: u32, tag: u32) -> Result<(), Refused> {
        let found = locks.get(lock as usize).ok_or(Refused::NoLock)?;
        if self.held.len() >= MOST_HELD {
            return Err(Refused::SeatFull);
        }
        if !found.acquire() {
            return Err(Refused::Removing(DELETE_PENDING));
        }
        self.held.push((lock, tag));
        Ok(())
    }

    /// Gives back the reference under this tag that was taken last.
    pub fn release(&mut self, locks: &[RemoveLock], lock: u32, tag: u32) -> Result<(), Refused> {
        let found = locks.get(lock as usize).ok_or(Refused::NoLock)?;
        let place = self.held.iter().rposition(|it| *it == (lock, tag));
        self.held.swap_remove(place.ok_or(Refused::NotHeld)?);
        found.0.fetch_sub(2, SeqCst);
        Ok(())
    }
}
