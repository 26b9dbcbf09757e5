//! The works that are timed: batches of calls by the manager alone, and in a session.

use crate::asking::Store;
use crate::caller::{Alone, Caller, Recorder};
use crate::rules::{RoutineId, Rule, Setting};
use crate::session::{open, Seat, Session};
use crate::status::{PENDING, SUCCESS};
use crate::types::*;
use std::thread;
use std::time::{Duration, Instant};

/// The major function code of a read.
const READ: u8 = 0x03;

/// The routine of rule Watch, on success, on error and on cancel.
const WATCH: Setting = Setting {
    routine: RoutineId {
        rule: Rule::Watch,
        no: 0,
    },
    context: 8,
    on_success: true,
    on_error: true,
    on_cancel: true,
};

/// What is timed between two readings of the clock.
#[derive(Clone, Copy)]
pub enum Batch {
    /// So many packets are allocated with one location, a completion is refused, they are given back, and giving them
    /// back again is refused.
    Rounds { count: u32 },
    /// So many packets are allocated with 16 locations, and given back.
    Unused { count: u32 },
    /// Each packet that is there is sent to the highest device.
    Sent,
}

/// Who makes the calls.
#[derive(Clone, Copy)]
pub enum By {
    /// The manager alone, whose caller keeps one list of questions.
    Alone,
    /// The manager alone, which answers each call with a list of questions of its own.
    AloneWithLists,
    /// So many seats of a session, each in a thread of its own.
    Seats(u32),
}

/// What is timed, and what is there before: a stack of so many devices, and so many packets.
#[derive(Clone, Copy)]
pub struct Work {
    pub devices: u32,
    pub packets: u32,
    pub locations: u8,
    pub batch: Batch,
    /// How often, by each caller.
    pub batches: u32,
    pub by: By,
}

/// How long the batches took, and the transcript where they were recorded.
pub struct Outcome {
    pub taken: Duration,
    pub transcript: Option<(Header, Vec<Entry>)>,
}

impl Work {
    /// How often it does what is timed, all callers together: so many calls of rounds, packets, or sends.
    pub fn count(&self) -> u32 {
        let once = match self.batch {
            Batch::Rounds { count } => 4 * count,
            Batch::Unused { count } => count,
            Batch::Sent => self.packets,
        };
        let callers = match self.by {
            By::Seats(seats) => seats,
            _ => 1,
        };
        once * self.batches * callers
    }
}

/// A store whose one driver's dispatch passes a read down with the completion routine where a device stands below, and
/// else finishes it with success.
fn store() -> Store {
    let mut store = Store::default();
    store.add(
        Rule::Watch,
        Box::new(|shown| Answer {
            keep: false,
            mark: Rule::right_mark(shown, false),
            replacement: None,
        }),
    );
    let dispatch = store.add_dispatch(Box::new(|shown| match shown.has_lower {
        true => Plan::Forward { set: Some(WATCH) },
        false => Plan::Finish {
            status: SUCCESS,
            information: 5,
        },
    }));
    store.add_driver(&[(READ, dispatch)]);
    store
}

fn allocate<C: Caller>(caller: &mut C, size: u8) -> IrpRef {
    match caller.make(Call::Allocate { size }).reply {
        Reply::Irp(irp) => irp,
        reply => panic!("an allocation was answered {reply:?}"),
    }
}

/// Makes a call that must be answered so.
fn answered<C: Caller>(caller: &mut C, call: Call, reply: Reply) {
    let given = caller.make(call).reply;
    assert!(given == reply, "{call:?} was answered {given:?}");
}

/// Makes a call that must be refused.
fn refused<C: Caller>(caller: &mut C, call: Call) {
    let given = caller.make(call).reply;
    assert!(matches!(given, Reply::Refused(_)), "{call:?}: {given:?}");
}

/// Makes the calls of one packet of `Batch::Rounds`.
fn round<C: Caller>(caller: &mut C) {
    let irp = allocate(caller, 1);
    let complete = Call::Complete {
        party: Party::Originator,
        irp,
        status: PENDING,
        information: 0,
    };
    refused(caller, complete);
    answered(caller, Call::Free { irp }, Reply::Done);
    refused(caller, Call::Free { irp });
}

/// Sends a packet to a device. It must come back with success, after two questions at each level.
fn send<C: Caller>(caller: &mut C, irp: IrpRef, target: u32) {
    let party = Party::Originator;
    let answered = caller.make(Call::CallDriver { party, irp, target });
    assert!(answered.reply == Reply::Status(SUCCESS));
    assert!(answered.questions == 2 * (target as usize + 1));
}

/// Makes the calls of a batch.
fn make_batch<C: Caller>(caller: &mut C, work: &Work, packets: &[IrpRef]) {
    match work.batch {
        Batch::Rounds { count } => (0..count).for_each(|_| round(caller)),
        Batch::Unused { count } => {
            for _ in 0..count {
                let irp = allocate(caller, 16);
                answered(caller, Call::Free { irp }, Reply::Done);
            }
        }
        Batch::Sent => {
            for irp in packets {
                send(caller, *irp, work.devices - 1);
            }
        }
    }
}

/// Makes a packet ready to be sent, and answers it in its new use.
fn ready<C: Caller>(caller: &mut C, used: IrpRef) -> IrpRef {
    let reuse = Call::Reuse {
        irp: used,
        status: SUCCESS,
    };
    let Reply::Irp(irp) = caller.make(reuse).reply else {
        panic!("a reuse was refused");
    };
    let fill = Call::SetNext {
        party: Party::Originator,
        irp,
        major: READ,
        word: 7,
    };
    answered(caller, fill, Reply::Done);
    let set = Call::SetRoutine {
        party: Party::Originator,
        irp,
        setting: WATCH,
    };
    answered(caller, set, Reply::Done);
    irp
}

/// Builds what is there before, and answers the packets.
fn set_up<C: Caller>(caller: &mut C, work: &Work) -> Vec<IrpRef> {
    let (driver, lock) = (0, 0);
    for device in 0..work.devices {
        let create = Call::CreateDevice { driver, lock };
        answered(caller, create, Reply::Device(device));
        if device > 0 {
            let to = device - 1;
            answered(caller, Call::Attach { device, to }, Reply::Device(to));
        }
    }
    let packets = 0..work.packets;
    packets.map(|_| allocate(caller, work.locations)).collect()
}

/// Does the work with this caller. How long the batches took, without what came before each.
fn timed<C: Caller>(caller: &mut C, work: &Work) -> Duration {
    let mut packets = set_up(caller, work);
    let mut taken = Duration::ZERO;
    for _ in 0..work.batches {
        for irp in &mut packets {
            *irp = ready(caller, *irp);
        }
        let start = Instant::now();
        make_batch(caller, work, &packets);
        taken += start.elapsed();
    }
    taken
}

/// Does the work in a seat, and answers the seat and how long it took.
fn in_seat(session: &Session, seat: Seat, work: &Work) -> (Seat, Duration) {
    let mut caller = Recorder { session, seat };
    let taken = timed(&mut caller, work);
    (caller.seat, taken)
}

/// Does the work in so many seats. Where there is more than one, the time runs from the first thread's start to the
/// last thread's end.
fn in_seats(seats: u32, work: &Work) -> Outcome {
    let (session, places) = open(store(), seats, Some(0));
    let start = Instant::now();
    let made: Vec<(Seat, Duration)> = thread::scope(|scope| {
        let begin = |seat| scope.spawn(|| in_seat(&session, seat, work));
        let threads: Vec<_> = places.into_iter().map(begin).collect();
        let ended = threads
            .into_iter()
            .map(|it| it.join().expect("no thread fails"));
        ended.collect()
    });
    let all = start.elapsed();
    let taken = if seats == 1 { made[0].1 } else { all };
    let places: Vec<Seat> = made.into_iter().map(|it| it.0).collect();
    let transcript = session.close(&places);
    assert!(
        transcript.is_some(),
        "a seat has other entries than the history"
    );
    Outcome { taken, transcript }
}

/// Does the work.
pub fn do_work(work: &Work) -> Outcome {
    let keeps = match work.by {
        By::Seats(seats) => return in_seats(seats, work),
        By::Alone => true,
        By::AloneWithLists => false,
    };
    Outcome {
        taken: timed(&mut Alone::new(store(), keeps), work),
        transcript: None,
    }
}
