//! Deliberate mistakes in the plain store, of the kinds that the published Rust has no word about: refusals, rooms
//! and tables. A comparison is worth something only if it notices them. The oracle has twenty more, about the
//! evaluation.

#[derive(Clone, Copy, Debug, PartialEq, Eq)]
pub enum Slip {
    NoSlip,
    FullBeforeHeld,
    ConflictIsHeld,
    NewKeysRepeated,
    KeysBeforeTables,
    OneFewer,
    SecondRoomFirst,
    RoomBeforeLength,
    LastLengthFirst,
    PayloadBeforeLengths,
    AbsentWantsRoom,
    OneTable,
    UnheldIsNotNamed,
    AlwaysEvaluated,
    RefusalCounts,
    WritesWhatFits,
    UnsupportedIsRevoked,
}

use Slip::*;

impl Slip {
    /// Each with what it says in place of document 01, in the order of their numbers, from 1.
    pub const ALL: [(Slip, &'static str); 16] = [
        (FullBeforeHeld, "a full table is tested before the identity"),
        (ConflictIsHeld, "an identity held with other content is 'not added'"),
        (NewKeysRepeated, "new keys are counted with repetition"),
        (KeysBeforeTables, "full keys are tested before a full table"),
        (OneFewer, "127 delegations are full"),
        (SecondRoomFirst, "the second room is tested before the first"),
        (RoomBeforeLength, "the room is tested before an argument's length"),
        (LastLengthFirst, "the last bad length is named, not the first"),
        (PayloadBeforeLengths, "the payload is read before the lengths are tested"),
        (AbsentWantsRoom, "an absent certificate wants a room for the issuer"),
        (OneTable, "both kinds share their identities"),
        (UnheldIsNotNamed, "revocations_of answers for held targets only"),
        (AlwaysEvaluated, "answers are about the set as it is, not as it was evaluated"),
        (RefusalCounts, "a refused insertion raises the version"),
        (WritesWhatFits, "a list that does not fit is written as far as it does"),
        (UnsupportedIsRevoked, "a dead delegation is always Revoked"),
    ];

    /// The slip with this number.
    pub fn numbered(number: usize) -> Option<Slip> {
        let (slip, _) = Slip::ALL.get(number.checked_sub(1)?)?;
        Some(*slip)
    }
}
