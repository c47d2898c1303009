//! Why a packet, a renewal or a skip is refused, by the numbers that are printed.

#[derive(Clone, Copy, Debug, PartialEq, Eq)]
#[repr(u8)]
pub enum Refusal {
    ShortHeader = 1,
    TruncatedBlock = 2,
    ZeroSequence = 3,
    SequenceOverflow = 4,
    OtherSession = 7,
    PastEnd = 8,
    EndMoved = 9,
    EndTooEarly = 10,
    Conflict = 11,
    NotEnded = 35,
    SessionUsed = 36,
    TooManySessions = 37,
    SkipPastEnd = 61,
    NothingMissing = 62,
    HeldBelow = 63,
}
