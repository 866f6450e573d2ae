//! Deliberate mistakes in the plain reading. A comparison is worth something only if it notices them.

#[derive(Clone, Copy, Debug, PartialEq, Eq)]
pub enum Mistake {
    NoMistake,
    TagBeforePower,
    ShortCitation,
    TrailingIgnored,
    RankByByte,
    LastLengthFirst,
    RoomBeforePower,
    WritesWhatFits,
    ClearsTheRest,
}

use Mistake::*;

impl Mistake {
    /// Each with what it says in place of document 01, in the order of their numbers, from 1.
    pub const ALL: [(Mistake, &'static str); 8] = [
        (TagBeforePower, "the reader tests the tag before the power"),
        (ShortCitation, "the reader accepts 97 bytes with tag 1"),
        (TrailingIgnored, "the reader accepts more than 66 bytes with tag 0"),
        (RankByByte, "levels are ranked by byte, Admin lowest"),
        (LastLengthFirst, "the writer names the last bad length, not the first"),
        (RoomBeforePower, "the writer tests the room before the power"),
        (WritesWhatFits, "the writer puts what fits into a small buffer"),
        (ClearsTheRest, "the writer clears the buffer behind the payload"),
    ];

    /// The mistake with this number.
    pub fn numbered(number: usize) -> Option<Mistake> {
        let (mistake, _) = Mistake::ALL.get(number.checked_sub(1)?)?;
        Some(*mistake)
    }
}
