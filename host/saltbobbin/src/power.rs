//! Power levels.
use std::fmt;

/// What a delegation conveys. Each level implies the ones below, and the order is that of the ranks, never of
/// the bytes: `A` is the lowest byte of the four and the highest level.
///
/// ```
/// use saltbobbin::Power;
///
/// assert!(Power::Relay < Power::Read && Power::Read < Power::Edit && Power::Edit < Power::Admin);
/// assert_eq!((Power::Admin.byte(), Power::Admin.rank()), (b'A', 3));
/// assert_eq!(Power::from_byte(b'E'), Some(Power::Edit));
/// assert_eq!(Power::from_byte(b'X'), None);
/// ```
#[derive(Clone, Copy, Debug, PartialEq, Eq, PartialOrd, Ord, Hash)]
pub enum Power {
    /// Sync and forward ciphertext; cannot decrypt.
    Relay,
    /// Decrypt content.
    Read,
    /// Write content.
    Edit,
    /// Manage membership; act as the subject for revocation.
    Admin,
}

impl Power {
    /// Every level, lowest first.
    pub const ALL: [Power; 4] = [Power::Relay, Power::Read, Power::Edit, Power::Admin];

    /// The byte that stands for the level in a payload.
    pub const fn byte(self) -> u8 {
        match self {
            Power::Relay => b'L',
            Power::Read => b'R',
            Power::Edit => b'E',
            Power::Admin => b'A',
        }
    }

    /// The level that a byte stands for, where it stands for one.
    pub fn from_byte(byte: u8) -> Option<Power> {
        Power::ALL.into_iter().find(|power| power.byte() == byte)
    }

    /// The position among the levels, counting from Relay.
    pub const fn rank(self) -> u8 {
        self as u8
    }
}

impl fmt::Display for Power {
    fn fmt(&self, f: &mut fmt::Formatter<'_>) -> fmt::Result {
        fmt::Debug::fmt(self, f)
    }
}
