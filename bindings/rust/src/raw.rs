//! The functions of `pmpmon.h`.

use crate::judge::Access;
use crate::map::Setting;

/// The PMP registers of an RV64 hart with up to 64 entries.
///
/// To load them in machine mode, write `pmpaddr0`, `pmpaddr1`, .. from `addr`, then `pmpcfg0`, `pmpcfg2`, .. from `cfg`, and
/// execute `sfence.vma`. Write all registers that the hart has: the zeros after the last entry turn off older entries.
#[derive(Clone, Copy, Debug, PartialEq, Eq)]
#[repr(C)]
pub struct Registers {
    /// `cfg[i]` is `pmpcfg(2 * i)`.
    pub cfg: [u64; 8],
    /// `addr[i]` is `pmpaddr(i)`.
    pub addr: [u64; 64],
}

impl Registers {
    /// Registers in which every entry is OFF.
    pub const OFF: Registers = Registers { cfg: [0; 8], addr: [0; 64] };
}

extern "C" {
    pub(crate) fn pmpmon_needed(settings: *const Setting, count: usize, at_fault: *mut u64) -> i64;
    pub(crate) fn pmpmon_plan(
        settings: *const Setting,
        count: usize,
        entries: u64,
        registers: *mut Registers,
        at_fault: *mut u64,
    ) -> i64;
    pub(crate) fn pmpmon_judge(registers: *const Registers, entries: u64, access: *const Access) -> i64;
    pub(crate) fn pmpmon_check(
        settings: *const Setting,
        count: usize,
        certificate: *const u8,
        size: usize,
        at_fault: *mut u64,
    ) -> i64;
}
