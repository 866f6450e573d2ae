//! Stand-in: the kinds as names, and the head of a frame. Their published numbers and the head's layout
//! are not in the text, so asking for either stops the program instead of inventing it.
use crate::identifier::Identifier;

/// The tag that error.rs and certificate.rs name.
pub const TAG: [u8; 2] = *b"KH";

#[derive(Debug, Clone, Copy, PartialEq, Eq)]
#[allow(non_camel_case_types)] // the published files write the kinds so
pub enum Kind {
    DELEGATION,
    REVOCATION,
    CERTIFICATE_SET,
}

impl Kind {
    pub fn to_u8(self) -> u8 {
        unimplemented!("the kinds' numbers are not in the text")
    }

    pub fn from_u8(_: u8) -> Option<Kind> {
        unimplemented!("the kinds' numbers are not in the text")
    }
}

pub trait Kinded {
    const KIND: Kind;
    const VERSION: u8;
}

pub fn head<T: Kinded>(_: &Identifier, _: usize) -> Vec<u8> {
    unimplemented!("the head of a frame is not in the text")
}
