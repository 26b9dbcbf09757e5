//! Statuses of packets (NTSTATUS), by their names.

/// A packet's status, or what a call answers.
pub type Status = u32;

pub const SUCCESS: Status = 0;
pub const PENDING: Status = 0x103;
pub const INVALID_DEVICE_REQUEST: Status = 0xC000_0010;
pub const MORE_PROCESSING_REQUIRED: Status = 0xC000_0016;
pub const CANCELLED: Status = 0xC000_0120;

/// Whether a status is a success, as `NT_SUCCESS` has it.
pub fn is_success(status: Status) -> bool {
    status < 0x8000_0000
}

/// Whether a packet can be completed with this status.
pub fn is_completable(status: Status) -> bool {
    status != PENDING && status != MORE_PROCESSING_REQUIRED
}
