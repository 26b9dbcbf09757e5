//! Who answers for the drivers: the trait, and a store of closures.

use crate::rules::{Known, RoutineId, Rule};
use crate::types::{Answer, CancelAnswer, Header, Plan, Shown, LAST_MAJOR};

/// Who is asked for dispatches, completion routines and cancel routines.
pub trait Ask {
    /// The dispatch of a driver for a major, where it has one. The driver is one that there is.
    fn dispatch_of(&self, driver: u32, major: u8) -> Option<u32>;
    /// How many drivers there are.
    fn drivers(&self) -> u32;
    /// The routines that there are.
    fn known(&self) -> &Known;
    fn plan(&mut self, id: u32, shown: &Shown) -> Plan;
    fn answer(&mut self, id: RoutineId, shown: &Shown) -> Answer;
    fn cancel_answer(&mut self, id: u32, shown: &Shown) -> CancelAnswer;
}

/// A driver's dispatch for each major.
pub type Table = [Option<u32>; LAST_MAJOR as usize + 1];

/// The table of these pairs of a major and a dispatch.
pub fn table_of(pairs: &[(u8, u32)]) -> Table {
    let mut table = [None; LAST_MAJOR as usize + 1];
    for &(major, dispatch) in pairs {
        table[major as usize] = Some(dispatch);
    }
    table
}

type Routine = Box<dyn Fn(&Shown) -> Answer + Send>;
type Dispatch = Box<dyn Fn(&Shown) -> Plan + Send>;

/// Completion routines, dispatches and drivers. Each closure has to keep its rule; nothing checks that it does.
#[derive(Default)]
pub struct Store {
    routines: [Vec<Routine>; 5],
    dispatches: Vec<Dispatch>,
    drivers: Vec<(Vec<(u8, u32)>, Table)>,
    known: Known,
}

impl Store {
    pub fn add(&mut self, rule: Rule, routine: Routine) -> RoutineId {
        let place = rule as usize;
        self.routines[place].push(routine);
        self.known.completions[place] += 1;
        let no = self.known.completions[place] - 1;
        RoutineId { rule, no }
    }

    pub fn add_dispatch(&mut self, dispatch: Dispatch) -> u32 {
        self.dispatches.push(dispatch);
        self.dispatches.len() as u32 - 1
    }

    pub fn add_driver(&mut self, pairs: &[(u8, u32)]) -> u32 {
        self.drivers.push((pairs.to_vec(), table_of(pairs)));
        self.drivers.len() as u32 - 1
    }

    /// The header of a session with so many remove locks, seats and cancel slots. Each dispatch may name all routines.
    pub fn header(&self, locks: u32, seats: u32, slots: Option<u32>) -> Header {
        Header {
            slots,
            locks,
            seats,
            cancels: Vec::new(),
            completions: self.known.completions,
            dispatches: vec![self.known; self.dispatches.len()],
            drivers: self.drivers.iter().map(|(it, _)| it.clone()).collect(),
        }
    }
}

impl Ask for Store {
    fn dispatch_of(&self, driver: u32, major: u8) -> Option<u32> {
        self.drivers[driver as usize].1[major as usize]
    }

    fn drivers(&self) -> u32 {
        self.drivers.len() as u32
    }

    fn known(&self) -> &Known {
        &self.known
    }

    fn plan(&mut self, id: u32, shown: &Shown) -> Plan {
        self.dispatches[id as usize](shown)
    }

    fn answer(&mut self, id: RoutineId, shown: &Shown) -> Answer {
        self.routines[id.rule as usize][id.no as usize](shown)
    }

    fn cancel_answer(&mut self, _id: u32, _shown: &Shown) -> CancelAnswer {
        unreachable!("a store has no cancel routine")
    }
}
