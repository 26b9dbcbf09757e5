//! Devices and their stacks.

use crate::types::Refusal;

/// The most devices that are ever created.
const MOST_DEVICES: usize = 64;

/// A device, which was deleted where it isn't live.
pub struct Device {
    pub driver: u32,
    pub lock: u32,
    pub below: Option<u32>,
    is_live: bool,
    above: Option<u32>,
    /// Its position from the bottom of its stack, from 1.
    pub stack_size: u8,
}

/// All devices that were ever created, by their numbers.
pub struct Devices {
    all: Vec<Device>,
    locks: u32,
    limit: u8,
}

impl Devices {
    /// No devices, with so many remove locks, in stacks of at most so many.
    pub fn new(locks: u32, limit: u8) -> Devices {
        Devices {
            all: Vec::new(),
            locks,
            limit,
        }
    }

    /// The device of this number, deleted or not.
    pub fn ever(&self, device: u32) -> Option<&Device> {
        self.all.get(device as usize)
    }

    pub fn live(&self, device: u32) -> Result<&Device, Refusal> {
        let found = self.ever(device).ok_or(Refusal::NoDevice)?;
        if !found.is_live {
            return Err(Refusal::DeviceGone);
        }
        Ok(found)
    }

    pub fn create(&mut self, driver: u32, lock: u32) -> Result<u32, Refusal> {
        if lock >= self.locks {
            return Err(Refusal::NoLock);
        }
        if self.all.len() >= MOST_DEVICES {
            return Err(Refusal::Full);
        }
        self.all.push(Device {
            driver,
            lock,
            below: None,
            is_live: true,
            above: None,
            stack_size: 1,
        });
        Ok(self.all.len() as u32 - 1)
    }

    /// Puts a device that stands alone on another's stack, and answers the former top of that.
    pub fn attach(&mut self, device: u32, to: u32) -> Result<u32, Refusal> {
        self.live(device)?;
        self.live(to)?;
        let top = self.top_of(to);
        if self.top_of(device) == top {
            return Err(Refusal::SameStack);
        }
        self.check_alone(device)?;
        let stack_size = self.all[top as usize].stack_size;
        if stack_size >= self.limit {
            return Err(Refusal::TooDeep);
        }
        self.all[top as usize].above = Some(device);
        self.all[device as usize].below = Some(top);
        self.all[device as usize].stack_size = stack_size + 1;
        Ok(top)
    }

    /// Cuts a stack above this device, and answers the one that stood just above.
    pub fn detach(&mut self, lower: u32) -> Result<u32, Refusal> {
        let upper = self.live(lower)?.above.ok_or(Refusal::NothingAttached)?;
        self.all[lower as usize].above = None;
        self.all[upper as usize].below = None;
        let mut next = Some(upper);
        let mut stack_size = 1;
        while let Some(device) = next {
            self.all[device as usize].stack_size = stack_size;
            next = self.all[device as usize].above;
            stack_size += 1;
        }
        Ok(upper)
    }

    pub fn check_alone(&self, device: u32) -> Result<(), Refusal> {
        let found = &self.all[device as usize];
        if found.below.is_some() || found.above.is_some() {
            return Err(Refusal::StillAttached);
        }
        Ok(())
    }

    pub fn delete(&mut self, device: u32) {
        self.all[device as usize].is_live = false;
    }

    fn top_of(&self, device: u32) -> u32 {
        let mut top = device;
        while let Some(above) = self.all[top as usize].above {
            top = above;
        }
        top
    }
}
