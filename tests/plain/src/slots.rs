//! Cancel slots: a use of a packet that its owner publishes, and that one party at most takes.

use crate::types::IrpRef;
use std::sync::atomic::{AtomicU64, Ordering::SeqCst};

/// A flag that a canceller sets, and the number of the use that stands there, or 0.
struct CancelSlot {
    flag: AtomicU64,
    content: AtomicU64,
}

/// Cancel slots, by their numbers.
pub struct Slots {
    slots: Vec<CancelSlot>,
}

/// The one party that may publish a use in a slot, once, and withdraw it.
pub struct SlotOwner {
    slot: usize,
    has_published: bool,
    stands: bool,
}

/// The right to finish the use that was taken out.
#[derive(PartialEq, Eq, Debug)]
pub struct Token(pub u64);

/// How a publication, a withdrawal or a request went.
#[derive(PartialEq, Eq, Debug)]
pub enum Outcome {
    Standing,
    Taken(Token),
    Lost,
    Nothing,
    Used,
    NotStanding,
    NoSlot,
}

/// So many slots, with an owner for each.
pub fn open(count: u32) -> (Slots, Vec<SlotOwner>) {
    let slots = (0..count).map(|_| CancelSlot {
        flag: AtomicU64::new(0),
        content: AtomicU64::new(0),
    });
    let owners = (0..count).map(|slot| SlotOwner {
        slot: slot as usize,
        has_published: false,
        stands: false,
    });
    let slots = slots.collect();
    (Slots { slots }, owners.collect())
}

/// Takes out what stands in a slot: the outcome, which is `empty` where nothing does.
fn take(slot: &CancelSlot, empty: Outcome) -> Outcome {
    match slot.content.swap(0, SeqCst) {
        0 => empty,
        use_no => Outcome::Taken(Token(use_no)),
    }
}

impl Slots {
    /// Puts a use into the owner's slot, and takes it out again where a canceller has asked.
    pub fn publish(&self, owner: &mut SlotOwner, irp: IrpRef) -> Outcome {
        if owner.has_published {
            return Outcome::Used;
        }
        let slot = &self.slots[owner.slot];
        owner.has_published = true;
        slot.content.swap(irp.use_no, SeqCst);
        if slot.flag.load(SeqCst) == 0 {
            owner.stands = true;
            return Outcome::Standing;
        }
        take(slot, Outcome::Lost)
    }

    /// Takes the owner's use out of its slot.
    pub fn withdraw(&self, owner: &mut SlotOwner) -> Outcome {
        if !owner.stands {
            return Outcome::NotStanding;
        }
        owner.stands = false;
        take(&self.slots[owner.slot], Outcome::Lost)
    }

    /// Asks for what stands in a slot, for good.
    pub fn request(&self, slot: u32) -> Outcome {
        let Some(slot) = self.slots.get(slot as usize) else {
            return Outcome::NoSlot;
        };
        slot.flag.fetch_or(1, SeqCst);
        take(slot, Outcome::Nothing)
    }
}
