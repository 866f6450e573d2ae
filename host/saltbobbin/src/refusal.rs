//! Why the kernel refuses a call.
use std::{error::Error, fmt};

/// A refusal of document 01's table. The [number](Refusal::number) and the [value beside
/// it](Refusal::beside) are the kernel's own.
///
/// ```
/// use saltbobbin::{delegation::decode, Refusal};
///
/// let mut payload = [7; 66];
/// payload[64] = b'X';
/// let refusal = decode(&payload).unwrap_err();
/// assert_eq!(refusal, Refusal::InvalidTag(b'X'));
/// assert_eq!((refusal.number(), refusal.beside()), (4, 88));
/// assert_eq!(refusal.to_string(), "byte 88 is neither a power nor a tag (refusal 4)");
/// ```
#[derive(Clone, Copy, Debug, PartialEq, Eq, Hash)]
#[non_exhaustive]
pub enum Refusal {
    /// 1: a key or digest argument is not 32 bytes long. Holds its length.
    BadLength(usize),
    /// 2: the payload ends too soon.
    UnexpectedEnd,
    /// 3: the payload goes on behind its end.
    TrailingBytes,
    /// 4: a power byte or a tag that says nothing. Holds the byte.
    InvalidTag(u8),
    /// 5: the identity is held with other content.
    Conflict,
    /// 6: no more delegations fit. Holds how many are held.
    FullDelegations(usize),
    /// 7: no more revocations fit. Holds how many are held.
    FullRevocations(usize),
    /// 8: no more keys fit. Holds how many new ones there were.
    FullKeys(usize),
    /// 9: the answer does not fit the buffer. Holds the bytes needed.
    SmallBuffer(usize),
    /// A refusal that this library does not know: the kernel is newer.
    Other {
        /// Its number.
        number: u8,
        /// The value beside it.
        beside: usize,
    },
}

impl Refusal {
    /// The refusal with this number and value; none for 0, which is no refusal.
    pub fn from_number(number: u8, beside: usize) -> Option<Refusal> {
        let refusal = match number {
            0 => return None,
            1 => Refusal::BadLength(beside),
            2 => Refusal::UnexpectedEnd,
            3 => Refusal::TrailingBytes,
            4 => u8::try_from(beside).map_or(Refusal::Other { number, beside }, Refusal::InvalidTag),
            5 => Refusal::Conflict,
            6 => Refusal::FullDelegations(beside),
            7 => Refusal::FullRevocations(beside),
            8 => Refusal::FullKeys(beside),
            9 => Refusal::SmallBuffer(beside),
            _ => Refusal::Other { number, beside },
        };
        Some(refusal)
    }

    /// The number in document 01's table.
    pub fn number(self) -> u8 {
        match self {
            Refusal::BadLength(_) => 1,
            Refusal::UnexpectedEnd => 2,
            Refusal::TrailingBytes => 3,
            Refusal::InvalidTag(_) => 4,
            Refusal::Conflict => 5,
            Refusal::FullDelegations(_) => 6,
            Refusal::FullRevocations(_) => 7,
            Refusal::FullKeys(_) => 8,
            Refusal::SmallBuffer(_) => 9,
            Refusal::Other { number, .. } => number,
        }
    }

    /// The value that is returned beside the number.
    pub fn beside(self) -> usize {
        match self {
            Refusal::UnexpectedEnd | Refusal::TrailingBytes | Refusal::Conflict => 0,
            Refusal::InvalidTag(byte) => byte.into(),
            Refusal::BadLength(n)
            | Refusal::FullDelegations(n)
            | Refusal::FullRevocations(n)
            | Refusal::FullKeys(n)
            | Refusal::SmallBuffer(n) => n,
            Refusal::Other { beside, .. } => beside,
        }
    }
}

impl fmt::Display for Refusal {
    fn fmt(&self, f: &mut fmt::Formatter<'_>) -> fmt::Result {
        match *self {
            Refusal::BadLength(n) => write!(f, "an argument is {n} bytes long")?,
            Refusal::UnexpectedEnd => f.write_str("the payload ends too soon")?,
            Refusal::TrailingBytes => f.write_str("the payload goes on behind its end")?,
            Refusal::InvalidTag(byte) => write!(f, "byte {byte} is neither a power nor a tag")?,
            Refusal::Conflict => f.write_str("the identity is held with other content")?,
            Refusal::FullDelegations(n) => write!(f, "{n} delegations are held")?,
            Refusal::FullRevocations(n) => write!(f, "{n} revocations are held")?,
            Refusal::FullKeys(n) => write!(f, "{n} new keys do not fit")?,
            Refusal::SmallBuffer(n) => write!(f, "the buffer is under {n} bytes")?,
            Refusal::Other { beside, .. } => write!(f, "unknown, with {beside}")?,
        }
        write!(f, " (refusal {})", self.number())
    }
}

impl Error for Refusal {}
