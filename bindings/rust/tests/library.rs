//! Tests of each public call and its errors.

use pmpmon::{
    Access, Cause, CheckError, JudgeError, Kind, Map, MapError, MapFault, Mode, Outcome, Perm, Refusal, Registers,
    Setting,
};

/// The lower half of the space of 2^56 bytes.
const HALF: [Setting; 1] = [Setting::new(0, 1 << 55, Perm::ReadWriteExecute)];

/// The certificate that `pmpmon plan` writes for [`HALF`].
const CERTIFICATE: &[u8] = include_bytes!("half.pmpc");

fn access(mode: Mode, kind: Kind, size: u64, address: u64) -> Access {
    Access { mode, kind, size, address }
}

#[test]
fn empty_map_needs_no_entry() {
    let plan = Map::new(&[]).plan(0).unwrap();
    assert_eq!((plan.needed(), plan.registers()), (0, Some(&Registers::OFF)));
}

#[test]
fn half_of_the_space_needs_one_entry() {
    let map = Map::new(&HALF);
    assert_eq!(map.needed(), Ok(1));
    let plan = map.plan(16).unwrap();
    let registers = plan.registers().unwrap();
    assert_eq!((registers.cfg[0], registers.addr[0]), (0x1f, (1 << 52) - 1));
}

#[test]
fn plan_that_does_not_fit_has_no_registers() {
    let scattered: Vec<Setting> = (0..20).map(|i| Setting::new(0x8000_0000 + i * 0x4000, 0x1000, Perm::Read)).collect();
    let plan = Map::new(&scattered).plan(16).unwrap();
    assert_eq!((plan.needed(), plan.registers()), (20, None));
    let plan = Map::new(&scattered).plan(64).unwrap();
    assert!(plan.registers().is_some());
    assert_eq!(Map::new(&scattered).plan(255), Ok(plan));
}

#[test]
fn first_invalid_setting_is_reported() {
    let valid = Setting::new(0x1000, 0x1000, Perm::Read);
    for (wrong, fault) in [
        (Setting::new(0x1001, 0x1000, Perm::Read), MapFault::UnalignedBase),
        (Setting::new(0x1000, 0x1001, Perm::Read), MapFault::UnalignedSize),
        (Setting::new(1 << 56, 0x1000, Perm::Read), MapFault::PastEnd),
    ] {
        let settings = [valid, wrong, Setting::new(1, 1, Perm::Read)];
        let map = Map::new(&settings);
        assert_eq!(map.plan(16), Err(MapError::Setting(1, fault)));
        assert_eq!(map.needed(), Err(MapError::Setting(1, fault)));
        assert_eq!(map.check(CERTIFICATE), Err(CheckError::Map(MapError::Setting(1, fault))));
    }
    let ranges: Vec<Setting> = (0..4097).map(|i| Setting::new(i * 0x2000, 0x1000, Perm::Read)).collect();
    assert_eq!(Map::new(&ranges).needed(), Err(MapError::Setting(4096, MapFault::TooManyRanges)));
}

#[test]
fn only_the_right_certificate_is_accepted() {
    let map = Map::new(&HALF);
    assert_eq!(map.check(CERTIFICATE), Ok(1));
    let refused = |bytes: &[u8], refusal| assert_eq!(map.check(bytes), Err(CheckError::Refused(refusal)));
    refused(&[], Refusal::Truncated);
    refused(&CERTIFICATE[..CERTIFICATE.len() - 1], Refusal::Truncated);
    refused(&[CERTIFICATE, &[0]].concat(), Refusal::Trailing);
    refused(&[b"PMPX", &CERTIFICATE[4..]].concat(), Refusal::BadMagic);
    assert_eq!(Map::new(&[]).check(CERTIFICATE), Err(CheckError::Refused(Refusal::WrongLeaf)));
}

#[test]
fn accesses_are_judged_by_the_registers() {
    let plan = Map::new(&HALF).plan(16).unwrap();
    let registers = plan.registers().unwrap();
    let judged = |mode, kind, size, address| registers.judge(16, access(mode, kind, size, address));
    assert_eq!(judged(Mode::Supervisor, Kind::Load, 8, 0x1000), Ok(Outcome::Allowed));
    assert_eq!(judged(Mode::Machine, Kind::Store, 8, 1 << 55), Ok(Outcome::Allowed));
    assert_eq!(judged(Mode::User, Kind::Load, 8, 1 << 55), Ok(Outcome::Fault(Cause::LoadFault)));
    assert_eq!(judged(Mode::User, Kind::Store, 8, 1 << 55), Ok(Outcome::Fault(Cause::StoreFault)));
    assert_eq!(judged(Mode::User, Kind::Fetch, 4, 1 << 55), Ok(Outcome::Fault(Cause::FetchFault)));
    assert_eq!(judged(Mode::User, Kind::Load, 8, 1), Ok(Outcome::Fault(Cause::LoadMisaligned)));
    assert_eq!(judged(Mode::User, Kind::Store, 8, 1), Ok(Outcome::Fault(Cause::StoreMisaligned)));
    assert_eq!(judged(Mode::User, Kind::Fetch, 4, 1), Ok(Outcome::Fault(Cause::FetchMisaligned)));
    assert_eq!(judged(Mode::User, Kind::Load, 3, 0), Err(JudgeError::UnknownAccess));
    assert_eq!(registers.judge(0, access(Mode::User, Kind::Load, 8, 0)), Ok(Outcome::Fault(Cause::LoadFault)));
}

#[test]
fn registers_that_are_not_judged() {
    let load = access(Mode::User, Kind::Load, 8, 0);
    for (cfg, addr, error) in [
        (0x1a, 0, JudgeError::ReservedPerm),
        (0x0f, 0, JudgeError::Tor),
        (0x9f, 0, JudgeError::Locked),
        (0x5f, 0, JudgeError::ReservedBits),
        (0x1f, 1 << 54, JudgeError::AddressBits),
    ] {
        let mut registers = Registers::OFF;
        (registers.cfg[0], registers.addr[0]) = (cfg, addr);
        assert_eq!(registers.judge(16, load), Err(error));
    }
}

#[test]
fn errors_read_well() {
    let error = MapError::Setting(2, MapFault::UnalignedBase);
    assert_eq!(error.to_string(), "setting 2: its base is not a multiple of 4096");
    assert_eq!(CheckError::Map(error).to_string(), error.to_string());
    assert_eq!(CheckError::Refused(Refusal::WrongLeaf).to_string(), "refused: WrongLeaf");
    assert_eq!(JudgeError::Tor.to_string(), "an entry has the mode TOR");
}
