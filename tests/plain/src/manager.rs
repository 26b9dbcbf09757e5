//! The manager: the eighteen calls, one after the other.

use crate::asking::Ask;
use crate::devices::Devices;
use crate::packet::Packet;
use crate::packets::Packets;
use crate::status::{is_completable, Status, CANCELLED, INVALID_DEVICE_REQUEST, PENDING};
use crate::types::*;

/// What a caller tells beside a call: whether it knows the lock of a device drained, and the slot of a new packet.
#[derive(Clone, Copy, Default)]
pub struct Told {
    pub is_drained: bool,
    pub slot: Option<u32>,
}

/// Packets and devices.
pub struct Manager {
    packets: Packets,
    devices: Devices,
}

/// A packet's way down: the asker, the packet's reference, and where questions are put.
struct Way<'a, A> {
    ask: &'a mut A,
    irp: IrpRef,
    asked: &'a mut Vec<Asked>,
}

impl Manager {
    /// A manager with so many remove locks. Packets have at most so many locations, and stacks so many devices.
    pub fn new(locks: u32, limit: u8) -> Manager {
        Manager {
            packets: Packets::new(limit),
            devices: Devices::new(locks, limit),
        }
    }

    /// The lock of the device that a Delete names.
    pub fn lock_of(&self, call: &Call) -> Option<u32> {
        let Call::Delete { device } = call else {
            return None;
        };
        Some(self.devices.ever(*device)?.lock)
    }

    /// Whether a live packet lies under this slot.
    pub fn has_packet(&mut self, slot: u32) -> bool {
        self.packets.has(slot)
    }

    /// Makes a call. What it asks of closures is put behind what the list has.
    pub fn apply<A: Ask>(
        &mut self,
        ask: &mut A,
        call: &Call,
        told: Told,
        asked: &mut Vec<Asked>,
    ) -> Reply {
        let made = match *call {
            Call::SetNext { party, irp, .. }
            | Call::CopyToNext { party, irp }
            | Call::Skip { party, irp }
            | Call::SetRoutine { party, irp, .. }
            | Call::MarkPending { party, irp }
            | Call::SetCancelRoutine { party, irp, .. } => self.prepare(ask, call, party, irp),
            Call::CallDriver { party, irp, target } => {
                self.send(&mut Way { ask, irp, asked }, party, target)
            }
            Call::Complete { irp, .. } | Call::FinishTaken { irp, .. } | Call::Cancel { irp } => {
                self.finish(Way { ask, irp, asked }, call)
            }
            Call::CreateDevice { driver, lock } if driver < ask.drivers() => {
                self.devices.create(driver, lock).map(Reply::Device)
            }
            Call::CreateDevice { .. } => Err(Refusal::NoDriver),
            _ => self.make(call, told),
        };
        made.unwrap_or_else(Reply::Refused)
    }

    /// The calls that ask nobody and name no party.
    fn make(&mut self, call: &Call, told: Told) -> Result<Reply, Refusal> {
        match *call {
            Call::Attach { device, to } => self.devices.attach(device, to).map(Reply::Device),
            Call::Detach { lower } => self.devices.detach(lower).map(Reply::Device),
            Call::Delete { device } => self.delete(device, told.is_drained),
            Call::Allocate { size } => self.packets.allocate(size, told.slot).map(Reply::Irp),
            Call::Free { irp } => self.packets.free(irp).map(|()| Reply::Done),
            Call::Reuse { irp, status } => self.packets.reuse(irp, status).map(Reply::Irp),
            Call::Look { irp } => Ok(Reply::Seen(seen(self.packets.live(irp)?))),
            _ => unreachable!("each other call has an arm of its own"),
        }
    }

    fn delete(&mut self, device: u32, is_drained: bool) -> Result<Reply, Refusal> {
        self.devices.live(device)?;
        self.devices.check_alone(device)?;
        if self.packets.has_use_of(device) {
            return Err(Refusal::InFlight);
        }
        if !is_drained {
            return Err(Refusal::NotDrained);
        }
        self.devices.delete(device);
        Ok(Reply::Done)
    }

    /// The calls of a packet's owner that ask nobody.
    fn prepare<A: Ask>(
        &mut self,
        ask: &A,
        call: &Call,
        party: Party,
        irp: IrpRef,
    ) -> Result<Reply, Refusal> {
        let packet = self.packets.live(irp)?;
        packet.check_party(party)?;
        match *call {
            Call::SetNext { major, word, .. } => packet.set_next(major, word),
            Call::CopyToNext { .. } => packet.copy_to_next(),
            Call::Skip { .. } => packet.skip(),
            Call::SetRoutine { setting, .. } => {
                packet.set_routine(setting, ask.known().has(setting.routine))
            }
            Call::SetCancelRoutine { cancel, .. } => {
                let is_there = cancel.map_or(true, |it| it < ask.known().cancels);
                return packet.set_cancel(cancel, is_there).map(Reply::Previous);
            }
            _ => packet.mark_pending(),
        }?;
        Ok(Reply::Done)
    }

    /// The calls that may end a packet.
    fn finish<A: Ask>(&mut self, way: Way<A>, call: &Call) -> Result<Reply, Refusal> {
        let packet = self.packets.live(way.irp)?;
        let (status, information) = match *call {
            Call::Complete {
                party,
                status,
                information,
                ..
            } => {
                packet.check_party(party)?;
                packet.check_complete(status)?;
                (status, information)
            }
            Call::FinishTaken {
                token,
                status,
                information,
                ..
            } => {
                check_taken(packet, token, status)?;
                (status, information)
            }
            _ => return cancel(packet, way),
        };
        let given = Replacement {
            status,
            information,
        };
        packet.finish(way.ask, way.irp, given, way.asked);
        Ok(Reply::Done)
    }

    /// Sends a packet down.
    fn send<A: Ask>(
        &mut self,
        way: &mut Way<A>,
        party: Party,
        target: u32,
    ) -> Result<Reply, Refusal> {
        let packet = self.packets.live(way.irp)?;
        packet.check_party(party)?;
        let stack_size = self.devices.live(target)?.stack_size;
        if let Party::Device(sender) = party {
            if self.devices.live(sender)?.below != Some(target) {
                return Err(Refusal::WrongTarget);
            }
        }
        packet.enter(stack_size)?;
        let (mut device, mut is_pending) = (target, false);
        loop {
            match enter_device(packet, way, &self.devices, device) {
                Next::Down { to, pends } => {
                    device = to;
                    is_pending |= pends;
                }
                Next::Back { .. } if is_pending => return Ok(Reply::Status(PENDING)),
                Next::Back { status } => return Ok(Reply::Status(status)),
            }
        }
    }
}

/// How a packet's way goes on behind a device: to the one below, or back with a status.
enum Next {
    Down { to: u32, pends: bool },
    Back { status: Status },
}

/// Enters a device in the current location: asks its dispatch, and does what that plans.
fn enter_device<A: Ask>(
    packet: &mut Packet,
    way: &mut Way<A>,
    devices: &Devices,
    number: u32,
) -> Next {
    let current = packet.current;
    packet.location_mut(current).device = Some(number);
    let device = devices.ever(number).expect("a stack's devices are there");
    let location = *packet.location(current);
    let Some(id) = way.ask.dispatch_of(device.driver, location.major) else {
        return finish_there(packet, way, INVALID_DEVICE_REQUEST, 0);
    };
    let shown = Shown {
        device: Some(number),
        has_lower: device.below.is_some(),
        ..packet.shown(way.irp, current, &location)
    };
    let plan = way.ask.plan(id, &shown);
    way.asked.push(Asked::Dispatch { id, shown, plan });
    let (set, pends) = match plan {
        Plan::Finish {
            status,
            information,
        } => return finish_there(packet, way, status, information),
        Plan::Hold { cancel } => return hold(packet, number, cancel, false),
        Plan::HoldSlot => return hold(packet, number, None, true),
        Plan::Skip => return below(device.below, false),
        Plan::Forward { set } => (set, false),
        Plan::ForwardPend { set } => (set, true),
    };
    packet.location_mut(current).pending |= pends;
    packet.copy_down();
    packet.location_mut(current - 1).setting = set;
    packet.current -= 1;
    below(device.below, pends)
}

fn below(device: Option<u32>, pends: bool) -> Next {
    let to = device.expect("a plan passes down only where a device stands below");
    Next::Down { to, pends }
}

fn finish_there<A: Ask>(
    packet: &mut Packet,
    way: &mut Way<A>,
    status: Status,
    information: u64,
) -> Next {
    let given = Replacement {
        status,
        information,
    };
    packet.finish(way.ask, way.irp, given, way.asked);
    Next::Back { status }
}

fn hold(packet: &mut Packet, device: u32, cancel: Option<u32>, in_slot: bool) -> Next {
    packet.location_mut(packet.current).pending = true;
    packet.owner = Owner::Device(device);
    packet.cancel = cancel;
    packet.in_slot = in_slot;
    Next::Back { status: PENDING }
}

/// The checks of a FinishTaken behind those of the reference.
fn check_taken(packet: &Packet, token: u64, status: Status) -> Result<(), Refusal> {
    if token != packet.use_no {
        return Err(Refusal::Stale);
    }
    if packet.owner == Owner::Ended {
        return Err(Refusal::Ended);
    }
    if !packet.in_slot {
        return Err(Refusal::NotSlotHeld);
    }
    if !is_completable(status) {
        return Err(Refusal::BadStatus);
    }
    Ok(())
}

/// Cancels a packet, and asks its cancel routine, where there is one.
fn cancel<A: Ask>(packet: &mut Packet, way: Way<A>) -> Result<Reply, Refusal> {
    let device = match packet.owner {
        Owner::Ended => return Err(Refusal::Ended),
        Owner::Originator => None,
        Owner::Device(device) => Some(device),
    };
    packet.is_cancelled = true;
    let Some(id) = packet.cancel.take() else {
        return Ok(Reply::Cancelled(false));
    };
    let location = *packet.location(packet.current);
    let shown = Shown {
        device,
        ..packet.shown(way.irp, packet.current, &location)
    };
    let answer = way.ask.cancel_answer(id, &shown);
    way.asked.push(Asked::Cancel { id, shown, answer });
    if let CancelAnswer::Finish { information } = answer {
        let status = CANCELLED;
        let given = Replacement {
            status,
            information,
        };
        packet.finish(way.ask, way.irp, given, way.asked);
    }
    Ok(Reply::Cancelled(true))
}

/// What a Look tells of a packet.
fn seen(packet: &Packet) -> Seen {
    Seen {
        owner: packet.owner,
        current: packet.current,
        status: packet.status,
        information: packet.information,
        cancel: packet.is_cancelled,
        cancel_routine: packet.cancel,
        pending_returned: packet.pending_returned,
        marked: packet.is_marked(),
    }
}
