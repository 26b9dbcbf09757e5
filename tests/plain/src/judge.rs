//! The judge: makes each entry's call again, with closures that answer what the entry says, and compares.

use crate::asking::{table_of, Ask, Table};
use crate::headers::{read_header, read_word};
use crate::manager::{Manager, Told};
use crate::reader::read_entry;
use crate::rules::{cancel_rule_allows, Known, RoutineId};
use crate::status::INVALID_DEVICE_REQUEST;
use crate::types::*;

/// The most bytes of a line, without its newline.
const LONGEST_LINE: usize = 65_536;

/// What is said of a transcript.
#[derive(Clone, Copy, Debug, PartialEq, Eq)]
pub enum Verdict {
    /// So many entries, all legal.
    Legal(u64),
    /// The first entry that isn't.
    Illegal(u64),
    /// The first line that was refused, from 1.
    Refused(u64),
}

/// What is fixed of the closures.
struct Tables {
    drivers: Vec<Table>,
    known: Known,
    dispatches: Vec<Known>,
    cancels: Vec<u8>,
}

/// Answers what an entry says, as long as it was asked that, and the answer is allowed.
struct Replay<'a> {
    tables: &'a Tables,
    asked: &'a [Asked],
    next: usize,
    differs: bool,
}

impl Replay<'_> {
    /// The entry's next question.
    fn next(&self) -> Option<&Asked> {
        self.asked.get(self.next)
    }
}

impl Ask for Replay<'_> {
    fn dispatch_of(&self, driver: u32, major: u8) -> Option<u32> {
        self.tables.drivers[driver as usize][major as usize]
    }

    fn drivers(&self) -> u32 {
        self.tables.drivers.len() as u32
    }

    fn known(&self) -> &Known {
        &self.tables.known
    }

    fn plan(&mut self, asked_id: u32, seen: &Shown) -> Plan {
        if let Some(&Asked::Dispatch { id, shown, plan }) = self.next() {
            let may = &self.tables.dispatches[asked_id as usize];
            if id == asked_id && shown == *seen && may.allows(seen, &plan) {
                self.next += 1;
                return plan;
            }
        }
        self.differs = true;
        Plan::Finish {
            status: INVALID_DEVICE_REQUEST,
            information: 0,
        }
    }

    fn answer(&mut self, asked_id: RoutineId, seen: &Shown) -> Answer {
        if let Some(&Asked::Completion { id, shown, answer }) = self.next() {
            if id == asked_id && shown == *seen && id.rule.allows(seen, &answer) {
                self.next += 1;
                return answer;
            }
        }
        self.differs = true;
        Answer {
            keep: false,
            mark: false,
            replacement: None,
        }
    }

    fn cancel_answer(&mut self, asked_id: u32, seen: &Shown) -> CancelAnswer {
        if let Some(&Asked::Cancel { id, shown, answer }) = self.next() {
            let rule = self.tables.cancels[asked_id as usize];
            if id == asked_id && shown == *seen && cancel_rule_allows(rule, &answer) {
                self.next += 1;
                return answer;
            }
        }
        self.differs = true;
        CancelAnswer::Leave
    }
}

/// A judge that is fed entry by entry.
pub struct Judge {
    manager: Manager,
    tables: Tables,
    entries: u64,
    illegal: Option<u64>,
    made: Vec<Asked>,
}

impl Judge {
    pub fn new(header: &Header) -> Judge {
        let known = Known {
            completions: header.completions,
            cancels: header.cancels.len() as u32,
        };
        let tables = Tables {
            drivers: header.drivers.iter().map(|it| table_of(it)).collect(),
            known,
            dispatches: header.dispatches.clone(),
            cancels: header.cancels.clone(),
        };
        Judge {
            manager: Manager::new(header.locks, header.limit()),
            tables,
            entries: 0,
            illegal: None,
            made: Vec::new(),
        }
    }

    /// Judges the next entry. Behind one that is illegal none is looked at.
    pub fn feed(&mut self, entry: &Entry) {
        if self.illegal.is_none() && !self.follows(entry) {
            self.illegal = Some(self.entries);
        }
        self.entries += 1;
    }

    pub fn verdict(&self) -> Verdict {
        match self.illegal {
            Some(entry) => Verdict::Illegal(entry),
            None => Verdict::Legal(self.entries),
        }
    }

    /// Whether the manager can have made the entry. It then has made it.
    fn follows(&mut self, entry: &Entry) -> bool {
        let lock = self.manager.lock_of(&entry.call);
        if entry.number != self.entries
            || entry.lock != lock
            || (lock.is_none() && entry.is_drained)
        {
            return false;
        }
        let slot = match (&entry.call, &entry.reply) {
            (Call::Allocate { .. }, Reply::Irp(irp)) => Some(irp.slot),
            _ => None,
        };
        if slot.is_some_and(|it| self.manager.has_packet(it)) {
            return false;
        }
        let told = Told {
            is_drained: entry.is_drained,
            slot,
        };
        let mut replay = Replay {
            tables: &self.tables,
            asked: &entry.asked,
            next: 0,
            differs: false,
        };
        self.made.clear();
        let manager = &mut self.manager;
        let reply = manager.apply(&mut replay, &entry.call, told, &mut self.made);
        !replay.differs && replay.next == entry.asked.len() && reply == entry.reply
    }
}

/// What a line of a transcript is.
pub enum Line {
    Header(Header),
    /// The entry lies where the reader was told to put it.
    Entry,
    Word,
}

/// Reads a transcript line by line.
#[derive(Default)]
pub struct Reader {
    header: Option<Header>,
    has_words: bool,
    entries: usize,
}

impl Reader {
    /// Reads the next line, without its newline. An entry is put into `entry`. None where the line is refused.
    pub fn next(&mut self, line: &[u8], entry: &mut Entry) -> Option<Line> {
        if line.len() > LONGEST_LINE {
            return None;
        }
        let Some(header) = &self.header else {
            let header = read_header(line)?;
            self.header = Some(header.clone());
            return Some(Line::Header(header));
        };
        let is_entry = read_entry(line, header.slots.is_some(), entry).is_some();
        self.place(line, is_entry.then_some(entry))
    }

    /// Takes a line behind the header, with the entry that was read of it, if it is one. None where it is refused.
    pub fn place(&mut self, line: &[u8], entry: Option<&Entry>) -> Option<Line> {
        let header = self.header.as_ref()?;
        let Some(entry) = entry else {
            read_word(line, header)?;
            self.has_words = true;
            return Some(Line::Word);
        };
        if entry.seat >= header.seats || self.has_words || self.entries == MOST_ENTRIES {
            return None;
        }
        self.entries += 1;
        Some(Line::Entry)
    }
}

/// An entry to read lines into.
pub fn blank_entry() -> Entry {
    Entry {
        number: 0,
        seat: 0,
        call: Call::Allocate { size: 0 },
        lock: None,
        is_drained: false,
        asked: Vec::new(),
        reply: Reply::Done,
    }
}
