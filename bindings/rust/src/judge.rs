//! Accesses, and their outcomes under registers.

use crate::raw::{pmpmon_judge, Registers};
use core::fmt;

/// The privilege mode of an access.
#[derive(Clone, Copy, Debug, PartialEq, Eq)]
#[repr(u64)]
pub enum Mode {
    /// User mode.
    User = 0,
    /// Supervisor mode.
    Supervisor = 1,
    /// Machine mode.
    Machine = 3,
}

/// The kind of an access.
#[derive(Clone, Copy, Debug, PartialEq, Eq)]
#[repr(u64)]
pub enum Kind {
    /// A load.
    Load = 1,
    /// A store.
    Store = 2,
    /// An instruction fetch.
    Fetch = 4,
}

/// One access to physical memory.
#[derive(Clone, Copy, Debug, PartialEq, Eq)]
#[repr(C)]
pub struct Access {
    /// The mode of the hart.
    pub mode: Mode,
    /// The kind of the access.
    pub kind: Kind,
    /// The number of bytes: 1, 2, 4 or 8, and 2 or 4 for a fetch.
    pub size: u64,
    /// The lowest address.
    pub address: u64,
}

/// The exception code of a fault, as in `mcause`.
#[derive(Clone, Copy, Debug, PartialEq, Eq)]
pub enum Cause {
    /// Instruction address misaligned.
    FetchMisaligned = 0,
    /// Instruction access fault.
    FetchFault = 1,
    /// Load address misaligned.
    LoadMisaligned = 4,
    /// Load access fault.
    LoadFault = 5,
    /// Store or AMO address misaligned.
    StoreMisaligned = 6,
    /// Store or AMO access fault.
    StoreFault = 7,
}

/// The outcome of an access.
#[derive(Clone, Copy, Debug, PartialEq, Eq)]
pub enum Outcome {
    /// The access is allowed.
    Allowed,
    /// The access raises this exception.
    Fault(Cause),
}

/// The reason why an access is not judged.
#[derive(Clone, Copy, Debug, PartialEq, Eq)]
#[non_exhaustive]
pub enum JudgeError {
    /// No access has this mode, kind and size.
    UnknownAccess,
    /// An entry has the reserved permission to write but not read.
    ReservedPerm,
    /// An entry has the mode TOR, which this library does not judge.
    Tor,
    /// An entry is locked, which this library does not judge.
    Locked,
    /// An entry has a reserved configuration bit.
    ReservedBits,
    /// An address register has a bit above bit 53.
    AddressBits,
}

impl Registers {
    /// Decides an access on a hart with `entries` entries, at most 64, that has loaded these registers.
    pub fn judge(&self, entries: u8, access: Access) -> Result<Outcome, JudgeError> {
        // SAFETY: both pointers are valid for the call, which only reads through them.
        let code = unsafe { pmpmon_judge(self, u64::from(entries), &access) };
        Ok(match code {
            0 => Outcome::Fault(Cause::FetchMisaligned),
            1 => Outcome::Fault(Cause::FetchFault),
            4 => Outcome::Fault(Cause::LoadMisaligned),
            5 => Outcome::Fault(Cause::LoadFault),
            6 => Outcome::Fault(Cause::StoreMisaligned),
            7 => Outcome::Fault(Cause::StoreFault),
            -7 => return Err(JudgeError::UnknownAccess),
            -11 => return Err(JudgeError::ReservedPerm),
            -12 => return Err(JudgeError::Tor),
            -13 => return Err(JudgeError::Locked),
            -14 => return Err(JudgeError::ReservedBits),
            -15 => return Err(JudgeError::AddressBits),
            _ => Outcome::Allowed,
        })
    }
}

impl fmt::Display for JudgeError {
    fn fmt(&self, f: &mut fmt::Formatter<'_>) -> fmt::Result {
        f.write_str(match self {
            JudgeError::UnknownAccess => "no access has this mode, kind and size",
            JudgeError::ReservedPerm => "an entry allows writing but not reading",
            JudgeError::Tor => "an entry has the mode TOR",
            JudgeError::Locked => "an entry is locked",
            JudgeError::ReservedBits => "an entry has a reserved configuration bit",
            JudgeError::AddressBits => "an address register has a bit above bit 53",
        })
    }
}

impl core::error::Error for JudgeError {}
