//! Who makes the calls that are timed.

use crate::asking::Store;
use crate::manager::{Manager, Told};
use crate::session::{Seat, Session};
use crate::types::{Asked, Call, Reply, MOST_LOCATIONS};
use std::hint::black_box;

/// How a call was answered.
#[derive(Clone, Copy)]
pub struct Answered {
    pub reply: Reply,
    /// How many questions were asked in the call.
    pub questions: usize,
}

/// Who makes calls of a manager, one after another.
pub trait Caller {
    fn make(&mut self, call: Call) -> Answered;
}

/// The manager alone. Each call puts its questions into a list that is kept, or answers a list of its own.
pub struct Alone {
    manager: Manager,
    store: Store,
    kept: Option<Vec<Asked>>,
}

impl Alone {
    /// A manager with one remove lock. `keeps` tells whether a list is kept.
    pub fn new(store: Store, keeps: bool) -> Alone {
        Alone {
            manager: Manager::new(1, MOST_LOCATIONS as u8),
            store,
            kept: keeps.then(Vec::new),
        }
    }
}

impl Caller for Alone {
    fn make(&mut self, call: Call) -> Answered {
        let (manager, store) = (&mut self.manager, &mut self.store);
        let mut own = Vec::new();
        let asked = self.kept.as_mut().unwrap_or(&mut own);
        asked.clear();
        let reply = manager.apply(store, &call, Told::default(), asked);
        Answered {
            reply,
            questions: black_box(&*asked).len(),
        }
    }
}

/// A seat, whose calls of a session are recorded.
pub struct Recorder<'a> {
    pub session: &'a Session,
    pub seat: Seat,
}

impl Caller for Recorder<'_> {
    fn make(&mut self, call: Call) -> Answered {
        let receipt = self.session.call(&mut self.seat, call, |_| false);
        let receipt = receipt.expect("the history has room");
        Answered {
            reply: receipt.reply,
            questions: receipt.questions,
        }
    }
}
