//! Why a request is turned down.

use std::fmt;

/// The refusals by their numbers, which rise in checking order; the last three are tested where 17 to 19 are.
/// docs/FORMAT.md says what to look for first at each.
#[derive(Clone, Copy, Debug, PartialEq, Eq, PartialOrd, Ord, Hash)]
#[repr(u8)]
pub enum Refusal {
    NotWellFormed = 1,
    Malformed,
    WithoutMask,
    NeverMade,
    FailsPick,
    Misaligned,
    MissingProvenance,
    DeadAllocation,
    OutOfBounds,
    AwayFromStart,
    AnotherKind,
    AnotherSize,
    AnotherAlignment,
    BelowStart,
    SizeExceeded,
    NotProtected,
    LocalReadOfDisabled,
    LocalWriteOfFrozen,
    LocalWriteOfDisabled,
    LocalWriteOfReserved,
    ForeignReadOfUnique,
    ForeignWriteOfRead,
    ForeignWriteOfUnique,
    StrongProtector,
    MemoryLeak,
    LocalReadOfProtectedDisabled,
    LocalWriteOfProtectedFrozen,
    LocalWriteOfProtectedDisabled,
}

use Refusal::*;

/// Each with its name in words.
const ALL: [(Refusal, &str); 28] = [
    (NotWellFormed, "memory not well formed"),
    (Malformed, "malformed request"),
    (WithoutMask, "layout without a mask"),
    (NeverMade, "allocation or node never made"),
    (FailsPick, "address fails the test of pick"),
    (Misaligned, "misaligned address"),
    (MissingProvenance, "missing provenance"),
    (DeadAllocation, "dead allocation"),
    (OutOfBounds, "out of bounds"),
    (AwayFromStart, "deallocation away from the start"),
    (AnotherKind, "deallocation of another kind"),
    (AnotherSize, "deallocation with another size"),
    (AnotherAlignment, "deallocation with another alignment"),
    (BelowStart, "zero-length retag below its allocation's start"),
    (SizeExceeded, "size exceeded"),
    (NotProtected, "frame entry not protected"),
    (LocalReadOfDisabled, "local read of Disabled"),
    (LocalWriteOfFrozen, "local write of Frozen"),
    (LocalWriteOfDisabled, "local write of Disabled"),
    (LocalWriteOfReserved, "local write of protected Reserved that had a foreign read"),
    (ForeignReadOfUnique, "foreign read of protected Unique"),
    (ForeignWriteOfRead, "foreign write of protected Frozen or Reserved that had a local read"),
    (ForeignWriteOfUnique, "foreign write of protected Unique"),
    (StrongProtector, "deallocation under a strong protector"),
    (MemoryLeak, "memory leak"),
    (LocalReadOfProtectedDisabled, "local read of protected Disabled"),
    (LocalWriteOfProtectedFrozen, "local write of protected Frozen"),
    (LocalWriteOfProtectedDisabled, "local write of protected Disabled"),
];

impl Refusal {
    /// Nothing for 0. The library answers with no number above these.
    pub(crate) fn check(number: u32) -> Result<(), Refusal> {
        match number {
            0 => Ok(()),
            _ => Err(ALL[number as usize - 1].0),
        }
    }

    pub fn number(self) -> u8 {
        self as u8
    }

    pub fn name(self) -> &'static str {
        ALL[self as usize - 1].1
    }
}

impl fmt::Display for Refusal {
    fn fmt(&self, f: &mut fmt::Formatter) -> fmt::Result {
        write!(f, "{}: {}", self.number(), self.name())
    }
}

impl std::error::Error for Refusal {}
