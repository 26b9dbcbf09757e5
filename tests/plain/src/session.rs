//! A session: the manager and its history behind a `Mutex`, with a seat for each thread.

use crate::asking::Store;
use crate::manager::{Manager, Told};
use crate::types::{Call, Entry, Header, Reply, MOST_ENTRIES};
use std::sync::{Mutex, PoisonError};

/// What the seats of a session share.
struct Book {
    manager: Manager,
    store: Store,
    history: Vec<Entry>,
}

/// A session with its header.
pub struct Session {
    book: Mutex<Book>,
    header: Header,
}

/// One caller's place in a session. It keeps its entries.
pub struct Seat {
    number: u32,
    /// How many entries of the history it has seen.
    seen: u64,
    entries: Vec<Entry>,
}

/// What a caller gets for a recorded call.
#[derive(Clone, Copy, Debug)]
pub struct Receipt {
    pub reply: Reply,
    /// How many questions were asked in the call.
    pub questions: usize,
}

/// Opens a session with one remove lock and so many seats. Its transcript is of form 2 where there is a number of
/// cancel slots, else of form 1.
pub fn open(store: Store, seats: u32, slots: Option<u32>) -> (Session, Vec<Seat>) {
    let header = store.header(1, seats, slots);
    let book = Book {
        manager: Manager::new(header.locks, header.limit()),
        store,
        history: Vec::new(),
    };
    let made = (0..seats).map(|number| Seat {
        number,
        seen: 0,
        entries: Vec::new(),
    });
    let session = Session {
        book: Mutex::new(book),
        header,
    };
    (session, made.collect())
}

impl Session {
    /// Makes a call, and records it: an entry in the history, and a copy of it in the seat. None where the seat has
    /// seen more than the history has, or the history is full. `knows_drained` tells whether the caller knows a lock
    /// drained.
    pub fn call(
        &self,
        seat: &mut Seat,
        call: Call,
        knows_drained: impl Fn(u32) -> bool,
    ) -> Option<Receipt> {
        let mut turn = self.book.lock().unwrap_or_else(PoisonError::into_inner);
        let book = &mut *turn;
        let number = book.history.len() as u64;
        if number < seat.seen || book.history.len() >= MOST_ENTRIES {
            return None;
        }
        let lock = book.manager.lock_of(&call);
        let is_drained = lock.is_some_and(knows_drained);
        let mut asked = Vec::new();
        let told = Told {
            is_drained,
            slot: None,
        };
        let reply = book.manager.apply(&mut book.store, &call, told, &mut asked);
        let questions = asked.len();
        let entry = Entry {
            number,
            seat: seat.number,
            call,
            lock,
            is_drained,
            asked,
            reply,
        };
        seat.entries.push(entry.clone());
        book.history.push(entry);
        drop(turn);
        seat.seen = number + 1;
        Some(Receipt { reply, questions })
    }

    /// Closes the session: its header and its history, which has each seat's entries in order. None where a seat's
    /// entries are others.
    pub fn close(self, seats: &[Seat]) -> Option<(Header, Vec<Entry>)> {
        let book = self.book.into_inner();
        let history = book.unwrap_or_else(PoisonError::into_inner).history;
        let is_kept = |seat: &Seat| {
            let own = history.iter().filter(|it| it.seat == seat.number);
            seat.entries.iter().eq(own)
        };
        seats.iter().all(is_kept).then_some((self.header, history))
    }
}
