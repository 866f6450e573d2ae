//! What a reader and a writer of payloads are asked and what they answer, in one form for the kernel, the
//! published Rust and the plain reading. The numbers are those of document 01's table, as in keyline.h.
use oracle::text::hex;
use std::{fmt, ops::Range};

pub const BAD_LENGTH: u8 = 1;
pub const UNEXPECTED_END: u8 = 2;
pub const TRAILING_BYTES: u8 = 3;
pub const INVALID_TAG: u8 = 4;
pub const SMALL_BUFFER: u8 = 9;

/// What a reader says of a payload.
#[derive(Clone, Copy, Debug, PartialEq, Eq)]
pub struct Reading {
    /// 0, or the refusal's number.
    pub number: u8,
    /// The value beside a refusal, else 0.
    pub beside: usize,
    /// The power's byte and rank, both 0 on a refusal.
    pub power: u8,
    pub rank: u8,
    /// How many bytes of citation there are; they stand behind the tag.
    pub citation: usize,
}

impl Reading {
    pub fn accepted(power: u8, rank: usize, citation: usize) -> Self {
        Reading { number: 0, beside: 0, power, rank: rank as u8, citation }
    }

    pub fn refused(number: u8, beside: usize) -> Self {
        Reading { number, beside, power: 0, rank: 0, citation: 0 }
    }
}

impl fmt::Display for Reading {
    fn fmt(&self, f: &mut fmt::Formatter<'_>) -> fmt::Result {
        let Reading { number, beside, power, rank, citation } = self;
        write!(f, "{number} beside {beside}, power {power} of rank {rank}, citation of {citation}")
    }
}

/// So many bytes stand before the writer's buffer and behind it, and must stay.
pub const GUARD: usize = 40;

/// What a writer is asked. Its buffer is the middle of an area of any bytes.
#[derive(Clone, Debug)]
pub struct Call {
    pub audience: Vec<u8>,
    pub subject: Vec<u8>,
    pub power: u8,
    pub citation: Vec<u8>,
    pub area: Vec<u8>,
}

impl Call {
    /// The buffer's length.
    pub fn room(&self) -> usize {
        self.area.len() - 2 * GUARD
    }

    /// Where the buffer stands in the area.
    pub fn buffer(&self) -> Range<usize> {
        GUARD..GUARD + self.room()
    }

    /// The area with these bytes, which fit, at the front of the buffer.
    pub fn area_with(&self, bytes: &[u8]) -> Vec<u8> {
        let mut area = self.area.clone();
        area[self.buffer()][..bytes.len()].copy_from_slice(bytes);
        area
    }

    /// The answer that refuses: every byte stays.
    pub fn refused(&self, number: u8, beside: usize) -> Writing {
        Writing { number, beside, written: 0, area: self.area.clone() }
    }

    /// The answer that writes this payload, which fits.
    pub fn wrote(&self, payload: &[u8]) -> Writing {
        Writing { number: 0, beside: 0, written: payload.len(), area: self.area_with(payload) }
    }
}

impl fmt::Display for Call {
    fn fmt(&self, f: &mut fmt::Formatter<'_>) -> fmt::Result {
        let [audience, subject, citation] =
            [&self.audience, &self.subject, &self.citation].map(|bytes| hex(bytes));
        write!(f, "audience {audience} subject {subject} power {:02x} citation {citation}", self.power)?;
        write!(f, " room {} area {}", self.room(), area_in_hex(&self.area))
    }
}

/// What a writer answers, and what its area then holds.
#[derive(Clone, Debug, PartialEq, Eq)]
pub struct Writing {
    /// 0, or the refusal's number.
    pub number: u8,
    /// The value beside a refusal, else 0.
    pub beside: usize,
    /// How many bytes were written, 0 on a refusal.
    pub written: usize,
    pub area: Vec<u8>,
}

impl fmt::Display for Writing {
    fn fmt(&self, f: &mut fmt::Formatter<'_>) -> fmt::Result {
        let Writing { number, beside, written, area } = self;
        write!(f, "{number} beside {beside}, wrote {written}, area {}", area_in_hex(area))
    }
}

/// The buffer between bars.
fn area_in_hex(area: &[u8]) -> String {
    let (before, rest) = area.split_at(GUARD);
    let (buffer, behind) = rest.split_at(rest.len() - GUARD);
    [before, buffer, behind].map(hex).join("|")
}
