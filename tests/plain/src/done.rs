//! What was done in which time, and how it is written.

use std::fmt;
use std::time::Duration;

/// What a load did, and how long it took.
#[derive(Clone, Copy)]
pub struct Done {
    /// How often it did what it is named for. Where there are more threads, each did so many pairs, and all together so
    /// many calls.
    pub count: u32,
    /// How many bytes the texts have that it wrote or read.
    pub bytes: u64,
    pub taken: Duration,
}

impl Done {
    /// So often, without a text.
    pub fn new(count: u32, taken: Duration) -> Done {
        Done {
            count,
            bytes: 0,
            taken,
        }
    }

    /// The one of both that took less.
    pub fn min(self, other: Done) -> Done {
        if other.taken < self.taken {
            other
        } else {
            self
        }
    }
}

impl fmt::Display for Done {
    fn fmt(&self, text: &mut fmt::Formatter) -> fmt::Result {
        let seconds = self.taken.as_secs_f64();
        let each = seconds * 1e9 / f64::from(self.count);
        if self.bytes == 0 {
            return write!(text, "{each:.1} ns");
        }
        let rate = self.bytes as f64 / 1e6 / seconds;
        write!(text, "{each:.1} ns, {rate:.1} MB a second")
    }
}
