//! The live packets under their slots.

use crate::packet::Packet;
use crate::status::Status;
use crate::types::{IrpRef, Owner, Refusal};
use std::collections::HashMap;

/// The most packets that are live at once.
const MOST_PACKETS: usize = 4096;

/// The first use number that is never drawn.
const END_OF_USES: u64 = 1 << 63;

/// All packets. A place that a packet had is used again.
pub struct Packets {
    /// Those whose slots are below `MOST_PACKETS`.
    near: Vec<Packet>,
    /// Those whose slots a judge was told, and that lie further off.
    far: HashMap<u32, Packet>,
    /// The slots that were given back, the last one last.
    free: Vec<u32>,
    live: usize,
    next_use: u64,
    limit: u8,
}

impl Packets {
    /// No packets, and at most so many locations in each.
    pub fn new(limit: u8) -> Packets {
        Packets {
            near: Vec::new(),
            far: HashMap::new(),
            free: Vec::new(),
            live: 0,
            next_use: 1,
            limit,
        }
    }

    fn place(&mut self, slot: u32) -> Option<&mut Packet> {
        let slot_in_near = slot as usize;
        if slot_in_near < self.near.len() {
            return Some(&mut self.near[slot_in_near]);
        }
        self.far.get_mut(&slot)
    }

    /// The live packet in this use.
    pub fn live(&mut self, irp: IrpRef) -> Result<&mut Packet, Refusal> {
        let packet = self.place(irp.slot).filter(|it| it.is_live);
        let packet = packet.ok_or(Refusal::NoIrp)?;
        if packet.use_no != irp.use_no {
            return Err(Refusal::Stale);
        }
        Ok(packet)
    }

    /// Whether a live packet lies under this slot.
    pub fn has(&mut self, slot: u32) -> bool {
        self.place(slot).is_some_and(|it| it.is_live)
    }

    /// Whether the device owns a packet, or stands in a location of one that is in use.
    pub fn has_use_of(&self, device: u32) -> bool {
        let mut all = self.near.iter().chain(self.far.values());
        all.any(|it| it.is_live && (it.owner == Owner::Device(device) || it.is_at(device)))
    }

    /// A new packet, under the slot that is told, which isn't live, or else the one that was given back last.
    pub fn allocate(&mut self, size: u8, told: Option<u32>) -> Result<IrpRef, Refusal> {
        if size == 0 || size > self.limit {
            return Err(Refusal::BadSize);
        }
        if self.live >= MOST_PACKETS {
            return Err(Refusal::Full);
        }
        let use_no = self.draw_use()?;
        let slot = told.unwrap_or_else(|| self.free.pop().unwrap_or(self.near.len() as u32));
        self.make_place(slot).begin(size, use_no, 0);
        self.live += 1;
        Ok(IrpRef { slot, use_no })
    }

    fn draw_use(&mut self) -> Result<u64, Refusal> {
        if self.next_use >= END_OF_USES {
            return Err(Refusal::Full);
        }
        self.next_use += 1;
        Ok(self.next_use - 1)
    }

    fn make_place(&mut self, slot: u32) -> &mut Packet {
        let place = slot as usize;
        if place >= MOST_PACKETS {
            return self.far.entry(slot).or_insert_with(Packet::none);
        }
        while self.near.len() <= place {
            self.near.push(Packet::none());
        }
        &mut self.near[place]
    }

    pub fn free(&mut self, irp: IrpRef) -> Result<(), Refusal> {
        let packet = self.live(irp)?;
        if let Owner::Device(_) = packet.owner {
            return Err(Refusal::InFlight);
        }
        packet.is_live = false;
        self.live -= 1;
        self.far.remove(&irp.slot);
        // Where slots are told, nobody takes them from here.
        if self.free.len() < self.near.len() {
            self.free.push(irp.slot);
        }
        Ok(())
    }

    /// Begins another use of a packet.
    pub fn reuse(&mut self, irp: IrpRef, status: Status) -> Result<IrpRef, Refusal> {
        if let Owner::Device(_) = self.live(irp)?.owner {
            return Err(Refusal::InFlight);
        }
        let use_no = self.draw_use()?;
        let packet = self.live(irp)?;
        packet.begin(packet.size, use_no, status);
        Ok(IrpRef { use_no, ..irp })
    }
}
