//! Plans, checks and judges RISC-V Physical Memory Protection (PMP) entries.
//!
//! These are safe types over `libpmpmon.a`, the proved C library of pmpmon. A [`Map`] gives permissions to whole pages.
//! [`Map::plan`] returns the fewest NA4 and NAPOT entries that mean it, as the registers of an RV64 hart. [`Map::check`] checks a
//! certificate of such a plan, and [`Registers::judge`] decides an access by registers.
//!
//! ```
//! use pmpmon::{Access, Cause, Kind, Map, Mode, Outcome, Perm, Setting};
//!
//! let settings = [
//!     Setting::new(0x8000_0000, 0x800_0000, Perm::ReadWriteExecute), // 128 MiB of RAM
//!     Setting::new(0x8000_0000, 0x20_0000, Perm::NoAccess), // the first 2 MiB belong to the firmware
//! ];
//! let plan = Map::new(&settings).plan(16)?;
//! assert_eq!(plan.needed(), 2);
//! let registers = plan.registers().expect("two entries fit");
//! assert_eq!(registers.cfg[0], 0x1f18);
//!
//! let load = Access { mode: Mode::Supervisor, kind: Kind::Load, size: 8, address: 0x801f_fff8 };
//! assert_eq!(registers.judge(16, load), Ok(Outcome::Fault(Cause::LoadFault)));
//! # Ok::<(), pmpmon::MapError>(())
//! ```
//!
//! The functions that plan and check allocate: with `malloc` on Linux, otherwise with the `rattle_alloc` that the
//! firmware supplies. Do not call them from a signal handler.
#![no_std]
#![warn(missing_docs)]

mod check;
mod judge;
mod map;
mod raw;

pub use check::{CheckError, Refusal};
pub use judge::{Access, Cause, JudgeError, Kind, Mode, Outcome};
pub use map::{Map, MapError, MapFault, Perm, Plan, Setting};
pub use raw::Registers;
