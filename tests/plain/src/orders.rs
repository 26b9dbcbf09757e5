//! Every order of the atomic steps of seats at one remove lock, as `irp_orders` explores those of a script. States
//! that are equal after as many atomic steps are joined.

use std::collections::HashMap;

/// What a seat does at the lock, under a tag.
#[derive(Clone, Copy)]
pub enum Act {
    Acquire(u32),
    Release(u32),
    BeginRemove(u32),
    Drained,
}

/// The acts of each seat, as far as it makes so many.
pub const ACTS: [Act; 10] = [
    Act::Acquire(0),
    Act::Acquire(1),
    Act::Drained,
    Act::Release(0),
    Act::BeginRemove(1),
    Act::Acquire(2),
    Act::Drained,
    Act::Release(2),
    Act::Acquire(3),
    Act::Drained,
];

/// How an act was answered.
#[derive(Clone, Copy, PartialEq, Eq, Hash)]
enum Told {
    Done,
    DeletePending,
    NotHeld,
    AlreadyRemoving,
    /// The lock's word, where it isn't drained.
    Busy(u64),
}

/// A seat: its answers so far, and what it holds.
#[derive(Clone, PartialEq, Eq, Hash, Default)]
struct SeatState {
    told: Vec<Told>,
    held: Vec<u32>,
    /// An atomic step of the next act was made, and one is left.
    is_midway: bool,
    knows_removed: bool,
}

/// The lock's word (twice its references and attempts, plus 1 once removal has begun), and the seats.
#[derive(Clone, PartialEq, Eq, Hash)]
struct State {
    word: u64,
    seats: Vec<SeatState>,
}

/// How the orders end.
#[derive(Debug, PartialEq, Eq)]
pub struct Ends {
    pub orders: u128,
    pub outcomes: usize,
    /// The most references that an end leaves.
    pub most_held: u64,
}

impl SeatState {
    /// Answers the act, which is over.
    fn tell(&mut self, told: Told) {
        self.is_midway = false;
        self.told.push(told);
    }

    /// Gives up a reference under a tag. Whether there was one.
    fn give(&mut self, tag: u32) -> bool {
        let place = self.held.iter().position(|it| *it == tag);
        place.map(|it| self.held.remove(it)).is_some()
    }

    fn acquire(&mut self, word: &mut u64, tag: u32) {
        if self.is_midway {
            *word -= 2;
            self.tell(Told::DeletePending);
        } else if self.knows_removed {
            self.tell(Told::DeletePending);
        } else if *word & 1 == 1 {
            *word += 2;
            self.is_midway = true;
        } else {
            *word += 2;
            self.held.push(tag);
            self.tell(Told::Done);
        }
    }

    fn release(&mut self, word: &mut u64, tag: u32) {
        if self.give(tag) {
            *word -= 2;
            self.tell(Told::Done);
        } else {
            self.tell(Told::NotHeld);
        }
    }

    fn begin_remove(&mut self, word: &mut u64, tag: u32) {
        if self.is_midway {
            self.release(word, tag);
        } else if !self.held.contains(&tag) {
            self.tell(Told::NotHeld);
        } else {
            self.knows_removed = true;
            if *word & 1 == 1 {
                self.tell(Told::AlreadyRemoving);
            } else {
                *word |= 1;
                self.is_midway = true;
            }
        }
    }

    fn drained(&mut self, word: u64) {
        self.tell(if word == 1 {
            Told::Done
        } else {
            Told::Busy(word)
        });
    }
}

impl State {
    /// The state after the next atomic step of a seat, which has one.
    fn after(&self, seat: usize, acts: &[Act]) -> State {
        let mut next = self.clone();
        let State { word, seats } = &mut next;
        let seat = &mut seats[seat];
        match acts[seat.told.len()] {
            Act::Acquire(tag) => seat.acquire(word, tag),
            Act::Release(tag) => seat.release(word, tag),
            Act::BeginRemove(tag) => seat.begin_remove(word, tag),
            Act::Drained => seat.drained(*word),
        }
        next
    }
}

/// Explores every order of so many seats that make these acts each.
pub fn explore(seats: usize, acts: &[Act]) -> Ends {
    let opening = State {
        word: 0,
        seats: vec![SeatState::default(); seats],
    };
    let mut ends: HashMap<State, u128> = HashMap::new();
    let mut states = HashMap::from([(opening, 1)]);
    while !states.is_empty() {
        let mut later: HashMap<State, u128> = HashMap::new();
        for (state, orders) in states {
            let is_left = |it: &usize| state.seats[*it].told.len() < acts.len();
            let left: Vec<usize> = (0..seats).filter(is_left).collect();
            for seat in &left {
                *later.entry(state.after(*seat, acts)).or_default() += orders;
            }
            if left.is_empty() {
                *ends.entry(state).or_default() += orders;
            }
        }
        states = later;
    }
    Ends {
        orders: ends.values().sum(),
        outcomes: ends.len(),
        most_held: ends.keys().map(|it| it.word / 2).max().unwrap_or(0),
    }
}

/// The script of so many seats that make these acts each, in turns.
pub fn script(seats: usize, acts: &[Act]) -> String {
    let mut steps = Vec::new();
    for act in acts {
        let (name, tag) = match act {
            Act::Acquire(tag) => ("acquire", Some(tag)),
            Act::Release(tag) => ("release", Some(tag)),
            Act::BeginRemove(tag) => ("begin_remove", Some(tag)),
            Act::Drained => ("drained", None),
        };
        let tag = tag.map_or(String::new(), |it| format!(",\"tag\":{it}"));
        for seat in 0..seats {
            steps.push(format!(
                "{{\"do\":\"{name}\",\"lock\":0,\"seat\":{seat}{tag}}}"
            ));
        }
    }
    let nothing = "\"cancels\":[],\"completions\":[],\"dispatches\":[],\"drivers\":[[]]";
    let steps = steps.join(",");
    format!(
        "{{{nothing},\"form\":1,\"locks\":1,\"seats\":{seats},\"setup\":[],\"steps\":[{steps}]}}\n"
    )
}
