//! Maps and their plans.

use crate::raw::{pmpmon_needed, pmpmon_plan, Registers};
use core::fmt;

/// The permission of supervisor and user mode on a page. (Writing without reading is reserved.)
#[derive(Clone, Copy, Debug, PartialEq, Eq)]
#[repr(u64)]
pub enum Perm {
    /// Nothing.
    NoAccess = 0,
    /// Read.
    Read = 1,
    /// Read and write.
    ReadWrite = 3,
    /// Execute.
    Execute = 4,
    /// Read and execute.
    ReadExecute = 5,
    /// Read, write and execute.
    ReadWriteExecute = 7,
}

/// One permission on whole pages.
#[derive(Clone, Copy, Debug, PartialEq, Eq)]
#[repr(C)]
pub struct Setting {
    /// The first address, a multiple of 4096.
    pub base: u64,
    /// The number of bytes, a multiple of 4096. A setting of size 0 changes nothing.
    pub size: u64,
    /// The permission of these pages.
    pub perm: Perm,
}

impl Setting {
    /// Returns the setting of `size` bytes from `base` on.
    pub const fn new(base: u64, size: u64, perm: Perm) -> Setting {
        Setting { base, size, perm }
    }
}

/// A permission map: a later setting overrides an earlier one, and pages that no setting names have no access.
#[derive(Clone, Copy, Debug)]
pub struct Map<'a> {
    settings: &'a [Setting],
}

/// The fewest entries that mean a map.
#[derive(Clone, Copy, Debug, PartialEq, Eq)]
pub struct Plan {
    needed: u32,
    registers: Option<Registers>,
}

/// The reason why a setting is invalid.
#[derive(Clone, Copy, Debug, PartialEq, Eq)]
#[non_exhaustive]
pub enum MapFault {
    /// The base is not a multiple of 4096.
    UnalignedBase,
    /// The size is not a multiple of 4096.
    UnalignedSize,
    /// The last byte is at or above 2^56.
    PastEnd,
    /// With this setting, the map has more than 4096 ranges of one permission other than [`Perm::NoAccess`].
    TooManyRanges,
}

/// The reason why a function of a map failed.
#[derive(Clone, Copy, Debug, PartialEq, Eq)]
#[non_exhaustive]
pub enum MapError {
    /// The first invalid setting, by its index.
    Setting(usize, MapFault),
    /// An allocation failed.
    OutOfMemory,
}

impl<'a> Map<'a> {
    /// Returns the map of these settings, in their order. They are checked when the map is used.
    pub const fn new(settings: &'a [Setting]) -> Map<'a> {
        Map { settings }
    }

    /// Returns the settings of the map.
    pub const fn settings(&self) -> &'a [Setting] {
        self.settings
    }

    /// Returns the number of entries that the map needs: no list of NA4 and NAPOT entries that means the map is shorter. It may
    /// be more than a hart has.
    pub fn needed(&self) -> Result<u32, MapError> {
        let mut at_fault = 0;
        // SAFETY: the pointers are valid for the call, and the output does not overlap the settings.
        let code = unsafe { pmpmon_needed(self.settings.as_ptr(), self.settings.len(), &mut at_fault) };
        number(code, at_fault)
    }

    /// Plans the map for a hart of which `entries` entries may be used, at most 64.
    pub fn plan(&self, entries: u8) -> Result<Plan, MapError> {
        let entries = u64::from(entries.min(64));
        let (mut registers, mut at_fault) = (Registers::OFF, 0);
        // SAFETY: the pointers are valid for the call, and the outputs do not overlap any other argument.
        let code =
            unsafe { pmpmon_plan(self.settings.as_ptr(), self.settings.len(), entries, &mut registers, &mut at_fault) };
        let needed = number(code, at_fault)?;
        Ok(Plan { needed, registers: (u64::from(needed) <= entries).then_some(registers) })
    }
}

impl Plan {
    /// Returns the number of entries that the map needs.
    pub const fn needed(&self) -> u32 {
        self.needed
    }

    /// Returns the registers that mean the map, or `None` if it needs more entries than may be used.
    pub const fn registers(&self) -> Option<&Registers> {
        self.registers.as_ref()
    }
}

/// Converts the result of a C function to a number of entries or an error.
pub(crate) fn number(code: i64, at_fault: u64) -> Result<u32, MapError> {
    let fault = match code {
        0.. => return Ok(code as u32),
        -1 => MapFault::UnalignedBase,
        -2 => MapFault::UnalignedSize,
        -4 => MapFault::PastEnd,
        -5 => MapFault::TooManyRanges,
        _ => return Err(MapError::OutOfMemory),
    };
    Err(MapError::Setting(at_fault as usize, fault))
}

impl fmt::Display for MapFault {
    fn fmt(&self, f: &mut fmt::Formatter<'_>) -> fmt::Result {
        f.write_str(match self {
            MapFault::UnalignedBase => "its base is not a multiple of 4096",
            MapFault::UnalignedSize => "its size is not a multiple of 4096",
            MapFault::PastEnd => "its last byte is at or above 2^56",
            MapFault::TooManyRanges => "with it the map has more than 4096 ranges",
        })
    }
}

impl fmt::Display for MapError {
    fn fmt(&self, f: &mut fmt::Formatter<'_>) -> fmt::Result {
        match self {
            MapError::Setting(index, fault) => write!(f, "setting {index}: {fault}"),
            MapError::OutOfMemory => f.write_str("out of memory"),
        }
    }
}

impl core::error::Error for MapError {}
