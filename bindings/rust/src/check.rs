//! The check of certificates.

use crate::map::{number, Map, MapError};
use crate::raw::pmpmon_check;
use core::fmt;

/// The reason why a certificate is refused. The names are those that `pmpmon check` prints.
#[derive(Clone, Copy, Debug, PartialEq, Eq)]
#[non_exhaustive]
pub enum Refusal {
    /// The first four bytes are not `PMPC`.
    BadMagic,
    /// The version is neither 1 nor 2.
    BadVersion,
    /// The bytes end within a part.
    Truncated,
    /// A node begins with neither the tag of a leaf nor that of a branch.
    BadTag,
    /// A leaf has a byte that is not a permission.
    BadPerm,
    /// The nine bytes of an entry are invalid.
    BadEntry,
    /// The region of an entry is smaller than a page.
    SubPageEntry,
    /// A page is split.
    TooDeep,
    /// The block of a leaf has several permissions.
    LeafNotUniform,
    /// The block of a leaf has another permission.
    WrongLeaf,
    /// The cost of a split block exceeds the limit from the costs of its halves.
    CostTooHigh,
    /// The sum of the costs of the halves of a split block overflows.
    CostOverflow,
    /// There are more entries than the cost of the root.
    EntriesTooMany,
    /// The entries do not mean the map.
    WrongMeaning,
    /// Bytes follow the root.
    Trailing,
    /// The limit of a version 2 certificate is neither 16 nor 64.
    BadLimit,
}

/// The reason why [`Map::check`] does not accept a certificate.
#[derive(Clone, Copy, Debug, PartialEq, Eq)]
pub enum CheckError {
    /// The map is invalid, or an allocation failed.
    Map(MapError),
    /// The certificate is refused.
    Refused(Refusal),
}

/// The refusals, in the order of their codes from -101 down.
const REFUSALS: [Refusal; 16] = [
    Refusal::BadMagic,
    Refusal::BadVersion,
    Refusal::Truncated,
    Refusal::BadTag,
    Refusal::BadPerm,
    Refusal::BadEntry,
    Refusal::SubPageEntry,
    Refusal::TooDeep,
    Refusal::LeafNotUniform,
    Refusal::WrongLeaf,
    Refusal::CostTooHigh,
    Refusal::CostOverflow,
    Refusal::EntriesTooMany,
    Refusal::WrongMeaning,
    Refusal::Trailing,
    Refusal::BadLimit,
];

impl Map<'_> {
    /// Returns the number of entries in a certificate, as `pmpmon plan MAP CERT` writes it, if the certificate shows that these
    /// entries mean the map and that no shorter list does.
    pub fn check(&self, certificate: &[u8]) -> Result<u32, CheckError> {
        let (settings, mut at_fault) = (self.settings(), 0);
        // SAFETY: the pointers are valid for the call, and the output does not overlap any other argument.
        let code = unsafe {
            pmpmon_check(settings.as_ptr(), settings.len(), certificate.as_ptr(), certificate.len(), &mut at_fault)
        };
        let refused = usize::try_from(-101 - code).ok();
        match refused.and_then(|place| REFUSALS.get(place)) {
            Some(refusal) => Err(CheckError::Refused(*refusal)),
            None => number(code, at_fault).map_err(CheckError::Map),
        }
    }
}

impl fmt::Display for CheckError {
    fn fmt(&self, f: &mut fmt::Formatter<'_>) -> fmt::Result {
        match self {
            CheckError::Map(error) => error.fmt(f),
            CheckError::Refused(refusal) => write!(f, "refused: {refusal:?}"),
        }
    }
}

impl core::error::Error for CheckError {}
