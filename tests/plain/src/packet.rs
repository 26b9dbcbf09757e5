//! A packet: its locations, what its owner does with it, and its unwinding.

use crate::asking::Ask;
use crate::rules::Setting;
use crate::status::{is_completable, is_success, Status};
use crate::types::*;

/// An I/O stack location. The default is a cleared one.
#[derive(Clone, Copy, Default)]
pub struct Location {
    pub word: u64,
    pub setting: Option<Setting>,
    pub device: Option<u32>,
    pub major: u8,
    pub pending: bool,
}

/// What the owner did to get the packet ready for the next lower device.
#[derive(Clone, Copy, PartialEq, Eq)]
pub enum Preparation {
    Nothing,
    Filled,
    Skipped,
}

/// A packet, or the place of one that was given back.
pub struct Packet {
    pub is_live: bool,
    pub use_no: u64,
    pub size: u8,
    pub current: u8,
    pub status: Status,
    pub information: u64,
    pub pending_returned: bool,
    pub is_cancelled: bool,
    pub cancel: Option<u32>,
    pub in_slot: bool,
    pub owner: Owner,
    pub preparation: Preparation,
    locations: [Location; MOST_LOCATIONS],
}

impl Packet {
    /// A place for a packet, with none in it.
    pub fn none() -> Packet {
        Packet {
            is_live: false,
            use_no: 0,
            size: 0,
            current: 1,
            status: 0,
            information: 0,
            pending_returned: false,
            is_cancelled: false,
            cancel: None,
            in_slot: false,
            owner: Owner::Ended,
            preparation: Preparation::Nothing,
            locations: [Location::default(); MOST_LOCATIONS],
        }
    }

    /// Begins a use of the packet, which is as newly allocated with so many locations, but for its status.
    pub fn begin(&mut self, size: u8, use_no: u64, status: Status) {
        self.is_live = true;
        self.use_no = use_no;
        self.size = size;
        self.current = size + 1;
        self.status = status;
        self.information = 0;
        self.pending_returned = false;
        self.is_cancelled = false;
        self.cancel = None;
        self.in_slot = false;
        self.owner = Owner::Originator;
        self.preparation = Preparation::Nothing;
        self.locations[..size as usize].fill(Location::default());
    }

    /// The location of this number, from 1 at the bottom.
    pub fn location(&self, number: u8) -> &Location {
        &self.locations[number as usize - 1]
    }

    pub fn location_mut(&mut self, number: u8) -> &mut Location {
        &mut self.locations[number as usize - 1]
    }

    /// Whether the device stands in a location at `current` or above.
    pub fn is_at(&self, device: u32) -> bool {
        (self.current..=self.size).any(|it| self.location(it).device == Some(device))
    }

    /// Whether `current` is a location that is marked pending.
    pub fn is_marked(&self) -> bool {
        self.current <= self.size && self.location(self.current).pending
    }

    /// The checks of each call that names a party.
    pub fn check_party(&self, party: Party) -> Result<(), Refusal> {
        let owns = match (self.owner, party) {
            (Owner::Ended, _) => return Err(Refusal::Ended),
            (Owner::Originator, Party::Originator) => true,
            (Owner::Device(owner), Party::Device(device)) => owner == device,
            _ => false,
        };
        match owns {
            false => Err(Refusal::NotOwner),
            true if self.in_slot => Err(Refusal::SlotHeld),
            true => Ok(()),
        }
    }

    /// The checks of a call on the owner's own location.
    fn check_own(&self) -> Result<(), Refusal> {
        if self.preparation == Preparation::Skipped {
            return Err(Refusal::AfterSkip);
        }
        if self.current > self.size {
            return Err(Refusal::NoLocation);
        }
        Ok(())
    }

    fn check_not_skipped(&self) -> Result<(), Refusal> {
        match self.preparation {
            Preparation::Skipped => Err(Refusal::AfterSkip),
            _ => Ok(()),
        }
    }

    fn check_no_cancel_routine(&self) -> Result<(), Refusal> {
        match self.cancel {
            Some(_) => Err(Refusal::CancelRoutineSet),
            None => Ok(()),
        }
    }

    pub fn set_next(&mut self, major: u8, word: u64) -> Result<(), Refusal> {
        self.check_not_skipped()?;
        if self.current == 1 {
            return Err(Refusal::TooShort);
        }
        if major > LAST_MAJOR {
            return Err(Refusal::BadMajor);
        }
        *self.location_mut(self.current - 1) = Location {
            major,
            word,
            ..Location::default()
        };
        self.preparation = Preparation::Filled;
        Ok(())
    }

    pub fn copy_to_next(&mut self) -> Result<(), Refusal> {
        self.check_own()?;
        if self.current == 1 {
            return Err(Refusal::TooShort);
        }
        self.copy_down();
        self.preparation = Preparation::Filled;
        Ok(())
    }

    /// Copies the current location's major and word to the next lower one.
    pub fn copy_down(&mut self) {
        let Location { major, word, .. } = *self.location(self.current);
        *self.location_mut(self.current - 1) = Location {
            major,
            word,
            ..Location::default()
        };
    }

    pub fn skip(&mut self) -> Result<(), Refusal> {
        self.check_own()?;
        self.check_no_cancel_routine()?;
        if self.preparation == Preparation::Filled {
            *self.location_mut(self.current - 1) = Location::default();
        }
        self.current += 1;
        self.preparation = Preparation::Skipped;
        Ok(())
    }

    /// Sets a completion routine, which is there or not, in the next lower location.
    pub fn set_routine(&mut self, setting: Setting, is_there: bool) -> Result<(), Refusal> {
        self.check_not_skipped()?;
        if self.preparation == Preparation::Nothing {
            return Err(Refusal::NotPrepared);
        }
        if !is_there {
            return Err(Refusal::NoRoutine);
        }
        self.location_mut(self.current - 1).setting = Some(setting);
        Ok(())
    }

    pub fn mark_pending(&mut self) -> Result<(), Refusal> {
        self.check_own()?;
        self.location_mut(self.current).pending = true;
        Ok(())
    }

    /// Puts a cancel routine, which is there or not, or none in the place of what was set, and answers that.
    pub fn set_cancel(
        &mut self,
        cancel: Option<u32>,
        is_there: bool,
    ) -> Result<Option<u32>, Refusal> {
        self.check_own()?;
        if !is_there {
            return Err(Refusal::NoRoutine);
        }
        if cancel.is_some() && self.is_cancelled {
            return Err(Refusal::AlreadyCancelled);
        }
        Ok(std::mem::replace(&mut self.cancel, cancel))
    }

    /// The checks of a packet that is sent to a device of this stack size. It is then at the device's location.
    pub fn enter(&mut self, stack_size: u8) -> Result<(), Refusal> {
        if self.preparation == Preparation::Nothing {
            return Err(Refusal::NotPrepared);
        }
        if self.current - 1 < stack_size {
            return Err(Refusal::TooShort);
        }
        self.check_no_cancel_routine()?;
        self.preparation = Preparation::Nothing;
        self.current -= 1;
        Ok(())
    }

    pub fn check_complete(&self, status: Status) -> Result<(), Refusal> {
        self.check_own()?;
        if !is_completable(status) {
            return Err(Refusal::BadStatus);
        }
        self.check_no_cancel_routine()
    }

    /// Gives the packet this status and information, and unwinds it.
    pub fn finish<A: Ask>(
        &mut self,
        ask: &mut A,
        irp: IrpRef,
        given: Replacement,
        asked: &mut Vec<Asked>,
    ) {
        self.status = given.status;
        self.information = given.information;
        self.unwind(ask, irp, asked);
    }

    /// Takes the packet up past its completion routines, until one keeps it.
    fn unwind<A: Ask>(&mut self, ask: &mut A, irp: IrpRef, asked: &mut Vec<Asked>) {
        let below = self.current as usize - 1;
        self.locations[..below].fill(Location::default());
        self.preparation = Preparation::Nothing;
        self.in_slot = false;
        while self.current <= self.size {
            if self.leave(ask, irp, asked) {
                return;
            }
        }
        self.owner = Owner::Ended;
    }

    /// Leaves the current location upwards, and asks its completion routine where a flag is met. Whether that keeps the
    /// packet.
    fn leave<A: Ask>(&mut self, ask: &mut A, irp: IrpRef, asked: &mut Vec<Asked>) -> bool {
        let number = self.current;
        let left = std::mem::take(self.location_mut(number));
        self.pending_returned = left.pending;
        self.current += 1;
        let is_top = number == self.size;
        let setting = left.setting.filter(|it| self.meets(it));
        let Some(setting) = setting else {
            if left.pending && !is_top {
                self.location_mut(number + 1).pending = true;
            }
            return false;
        };
        let device = if is_top {
            None
        } else {
            self.location(number + 1).device
        };
        let shown = Shown {
            device,
            context: setting.context,
            pending_returned: self.pending_returned,
            ..self.shown(irp, number, &left)
        };
        let answer = ask.answer(setting.routine, &shown);
        asked.push(Asked::Completion {
            id: setting.routine,
            shown,
            answer,
        });
        self.follow(&answer, device, is_top)
    }

    /// Does what a completion routine answered. Whether it keeps the packet.
    fn follow(&mut self, answer: &Answer, device: Option<u32>, is_top: bool) -> bool {
        if let Some(given) = answer.replacement {
            self.status = given.status;
            self.information = given.information;
        }
        if answer.keep {
            self.owner = device.map_or(Owner::Originator, Owner::Device);
        } else if answer.mark && !is_top {
            self.location_mut(self.current).pending = true;
        }
        answer.keep
    }

    /// Whether a flag of the setting is met.
    fn meets(&self, setting: &Setting) -> bool {
        let by_status = if is_success(self.status) {
            setting.on_success
        } else {
            setting.on_error
        };
        by_status || (setting.on_cancel && self.is_cancelled)
    }

    /// What a closure is shown of this location, but for the device, the context, PendingReturned and whether a device
    /// stands below.
    pub fn shown(&self, irp: IrpRef, number: u8, location: &Location) -> Shown {
        Shown {
            device: None,
            irp,
            major: location.major,
            location: number,
            word: location.word,
            status: self.status,
            information: self.information,
            pending_returned: false,
            cancel: self.is_cancelled,
            context: 0,
            has_lower: false,
        }
    }
}
