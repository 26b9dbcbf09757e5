//! The values of the manager: references, what closures are shown and answer, calls, replies and entries.

use crate::rules::{Known, RoutineId, Setting};
use crate::status::Status;

/// The most locations that a packet may have, and devices that a stack may have.
pub const MOST_LOCATIONS: usize = 32;

/// The greatest major function code.
pub const LAST_MAJOR: u8 = 0x1b;

/// The most entries that a history may have.
pub const MOST_ENTRIES: usize = 1_000_000;

/// One use of a packet: its slot, and the number of the use.
#[derive(Clone, Copy, PartialEq, Eq, Debug)]
pub struct IrpRef {
    pub slot: u32,
    pub use_no: u64,
}

/// Who makes a call on a packet's content.
#[derive(Clone, Copy, PartialEq, Eq, Debug)]
pub enum Party {
    Originator,
    Device(u32),
}

/// Who owns a packet.
#[derive(Clone, Copy, PartialEq, Eq, Debug)]
pub enum Owner {
    Originator,
    Device(u32),
    Ended,
}

/// A status and information that take the place of a packet's own.
#[derive(Clone, Copy, PartialEq, Eq, Debug)]
pub struct Replacement {
    pub status: Status,
    pub information: u64,
}

/// What a completion routine answers.
#[derive(Clone, Copy, PartialEq, Eq, Debug)]
pub struct Answer {
    /// Unwinding stops, and the packet belongs to whoever set the routine.
    pub keep: bool,
    pub mark: bool,
    pub replacement: Option<Replacement>,
}

/// What a cancel routine answers.
#[derive(Clone, Copy, PartialEq, Eq, Debug)]
pub enum CancelAnswer {
    Finish { information: u64 },
    Leave,
}

/// What a dispatch does with a packet.
#[derive(Clone, Copy, PartialEq, Eq, Debug)]
pub enum Plan {
    Finish { status: Status, information: u64 },
    Hold { cancel: Option<u32> },
    HoldSlot,
    Skip,
    Forward { set: Option<Setting> },
    ForwardPend { set: Option<Setting> },
}

/// What a closure is shown of a packet.
#[derive(Clone, Copy, PartialEq, Eq, Debug)]
pub struct Shown {
    pub device: Option<u32>,
    pub irp: IrpRef,
    pub major: u8,
    pub location: u8,
    pub word: u64,
    pub status: Status,
    pub information: u64,
    pub pending_returned: bool,
    pub cancel: bool,
    pub context: u64,
    pub has_lower: bool,
}

/// One question: which closure, what it was shown, and what it answered.
#[derive(Clone, Copy, PartialEq, Eq, Debug)]
pub enum Asked {
    Dispatch {
        id: u32,
        shown: Shown,
        plan: Plan,
    },
    Completion {
        id: RoutineId,
        shown: Shown,
        answer: Answer,
    },
    Cancel {
        id: u32,
        shown: Shown,
        answer: CancelAnswer,
    },
}

/// A call of the manager.
#[derive(Clone, Copy, PartialEq, Eq, Debug)]
#[allow(clippy::enum_variant_names)]
pub enum Call {
    CreateDevice {
        driver: u32,
        lock: u32,
    },
    Attach {
        device: u32,
        to: u32,
    },
    Detach {
        lower: u32,
    },
    Delete {
        device: u32,
    },
    Allocate {
        size: u8,
    },
    Free {
        irp: IrpRef,
    },
    Reuse {
        irp: IrpRef,
        status: Status,
    },
    SetNext {
        party: Party,
        irp: IrpRef,
        major: u8,
        word: u64,
    },
    CopyToNext {
        party: Party,
        irp: IrpRef,
    },
    Skip {
        party: Party,
        irp: IrpRef,
    },
    SetRoutine {
        party: Party,
        irp: IrpRef,
        setting: Setting,
    },
    MarkPending {
        party: Party,
        irp: IrpRef,
    },
    CallDriver {
        party: Party,
        irp: IrpRef,
        target: u32,
    },
    Complete {
        party: Party,
        irp: IrpRef,
        status: Status,
        information: u64,
    },
    FinishTaken {
        irp: IrpRef,
        token: u64,
        status: Status,
        information: u64,
    },
    SetCancelRoutine {
        party: Party,
        irp: IrpRef,
        cancel: Option<u32>,
    },
    Cancel {
        irp: IrpRef,
    },
    Look {
        irp: IrpRef,
    },
}

/// What a Look tells of a packet.
#[derive(Clone, Copy, PartialEq, Eq, Debug)]
pub struct Seen {
    pub owner: Owner,
    pub current: u8,
    pub status: Status,
    pub information: u64,
    pub cancel: bool,
    pub cancel_routine: Option<u32>,
    pub pending_returned: bool,
    pub marked: bool,
}

/// How a call is answered.
#[derive(Clone, Copy, PartialEq, Eq, Debug)]
pub enum Reply {
    Done,
    Device(u32),
    Irp(IrpRef),
    Status(Status),
    Previous(Option<u32>),
    Cancelled(bool),
    Seen(Seen),
    Refused(Refusal),
}

/// One recorded call.
#[derive(Clone, PartialEq, Eq, Debug)]
pub struct Entry {
    pub number: u64,
    pub seat: u32,
    pub call: Call,
    /// The lock of the device that a Delete names, where it is one that was created.
    pub lock: Option<u32>,
    /// Whether that lock was known to be drained.
    pub is_drained: bool,
    pub asked: Vec<Asked>,
    pub reply: Reply,
}

/// What is fixed before the first call: the header of a transcript.
#[derive(Clone, PartialEq, Eq, Debug, Default)]
pub struct Header {
    /// The number of cancel slots in form 2; none in form 1.
    pub slots: Option<u32>,
    pub locks: u32,
    pub seats: u32,
    /// The rule of each cancel routine, by its place in `CANCEL_RULES`.
    pub cancels: Vec<u8>,
    /// How many completion routines there are of each rule.
    pub completions: [u32; 5],
    /// The routines that each dispatch may name.
    pub dispatches: Vec<Known>,
    /// Each driver's pairs of a major and a dispatch.
    pub drivers: Vec<Vec<(u8, u32)>>,
}

impl Header {
    /// How many locations a packet may have, and devices a stack: 16 in form 1, else 32.
    pub fn limit(&self) -> u8 {
        if self.slots.is_none() {
            16
        } else {
            MOST_LOCATIONS as u8
        }
    }
}

macro_rules! refusals {
    ($($name:ident),*) => {
        /// Why a call is refused.
        #[derive(Clone, Copy, PartialEq, Eq, Debug)]
        pub enum Refusal { $($name),* }

        impl Refusal {
            /// The refusal's name in texts.
            pub fn name(self) -> &'static str {
                match self { $(Refusal::$name => stringify!($name)),* }
            }

            /// The refusal of this name.
            pub fn named(name: &[u8]) -> Option<Refusal> {
                $(if name == stringify!($name).as_bytes() { return Some(Refusal::$name); })*
                None
            }
        }
    };
}

refusals!(
    NoIrp,
    Stale,
    NoDevice,
    DeviceGone,
    NotOwner,
    NoLocation,
    NotPrepared,
    AfterSkip,
    TooShort,
    WrongTarget,
    NoRoutine,
    BadStatus,
    CancelRoutineSet,
    AlreadyCancelled,
    InFlight,
    StillAttached,
    SameStack,
    TooDeep,
    Full,
    NothingAttached,
    NotDrained,
    BadSize,
    BadMajor,
    NoDriver,
    Ended,
    HistoryFull,
    NoLock,
    SlotHeld,
    NotSlotHeld
);
