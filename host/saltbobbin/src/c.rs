//! The C functions of crates/exports/keyline.h, each called on Rust's slices and answering all that it put
//! behind its pointers. [`delegation`](crate::delegation), [`script`](crate::script) and
//! [`Kernel`](crate::Kernel) have the same with Rust's types: most callers want those.
//!
//! The only unsafe code of the library is here. What it rests on, beside the functions' proofs: a `&[u8]` is
//! readable, a `&mut [u8]` writable and nobody else's, neither pointer is ever null, no slice is longer than
//! `isize::MAX`, and `usize` is `size_t` on x86-64 Linux. That is all that the header asks of a caller.

unsafe extern "C" {
    fn keyline_delegation_decode(
        payload: *const u8,
        payload_length: usize,
        beside: *mut usize,
        power: *mut u8,
        rank: *mut u8,
        citation: *mut usize,
    ) -> u8;

    fn keyline_delegation_encode(
        audience: *const u8,
        audience_length: usize,
        subject: *const u8,
        subject_length: usize,
        power: u8,
        citation: *const u8,
        citation_length: usize,
        out: *mut u8,
        out_length: usize,
        written: *mut usize,
        beside: *mut usize,
    ) -> u8;

    fn keyline_run(
        script: *const u8,
        script_length: usize,
        answers: *mut u8,
        answers_length: usize,
        used: *mut usize,
        beside: *mut usize,
    ) -> u8;
}

/// What stands behind a pointer before a call: no call answers it, so a number that was not written shows.
const UNWRITTEN: usize = usize::MAX;

/// The same for a byte.
const UNWRITTEN_BYTE: u8 = u8::MAX;

/// The whole answer of `keyline_delegation_decode`.
#[derive(Clone, Copy, Debug, PartialEq, Eq)]
pub struct Decoded {
    /// 0, or the refusal's number.
    pub number: u8,
    /// 0, or on a refusal the value beside the number.
    pub beside: usize,
    /// The power byte, or 0 on a refusal.
    pub power: u8,
    /// The power's rank, or 0 on a refusal.
    pub rank: u8,
    /// How many bytes of citation follow the tag: 32 or 0; 0 on a refusal.
    pub citation: usize,
}

/// Reads a payload.
pub fn delegation_decode(payload: &[u8]) -> Decoded {
    let (mut beside, mut citation) = (UNWRITTEN, UNWRITTEN);
    let (mut power, mut rank) = (UNWRITTEN_BYTE, UNWRITTEN_BYTE);
    // SAFETY: the slice is readable for its length, and each pointer is to a local of its own.
    let number = unsafe {
        keyline_delegation_decode(
            payload.as_ptr(),
            payload.len(),
            &mut beside,
            &mut power,
            &mut rank,
            &mut citation,
        )
    };
    Decoded { number, beside, power, rank, citation }
}

/// The whole answer of `keyline_delegation_encode`, but for the buffer.
#[derive(Clone, Copy, Debug, PartialEq, Eq)]
pub struct Encoded {
    /// 0, or the refusal's number.
    pub number: u8,
    /// The bytes written, or 0 on a refusal.
    pub written: usize,
    /// 0, or on a refusal the value beside the number.
    pub beside: usize,
}

/// Writes a payload to the front of `out`; on a refusal `out` stays as it was.
pub fn delegation_encode(
    audience: &[u8],
    subject: &[u8],
    power: u8,
    citation: &[u8],
    out: &mut [u8],
) -> Encoded {
    let (mut written, mut beside) = (UNWRITTEN, UNWRITTEN);
    // SAFETY: each slice is readable for its length, `out` is writable and overlaps none of them, and each
    // pointer is to a local of its own.
    let number = unsafe {
        keyline_delegation_encode(
            audience.as_ptr(),
            audience.len(),
            subject.as_ptr(),
            subject.len(),
            power,
            citation.as_ptr(),
            citation.len(),
            out.as_mut_ptr(),
            out.len(),
            &mut written,
            &mut beside,
        )
    };
    Encoded { number, written, beside }
}

/// The whole answer of `keyline_run`, but for the replies.
#[derive(Clone, Copy, Debug, PartialEq, Eq)]
pub struct Ran {
    /// 0, or the number of the refusal of the whole script.
    pub number: u8,
    /// The bytes of the replies, or 0 on a refusal.
    pub used: usize,
    /// 0, or on a refusal the value beside the number.
    pub beside: usize,
}

/// Runs a script from the empty set and puts the replies to the front of `answers`; on a refusal of the script
/// `answers` stays as it was.
pub fn run(script: &[u8], answers: &mut [u8]) -> Ran {
    let (mut used, mut beside) = (UNWRITTEN, UNWRITTEN);
    // SAFETY: the script is readable for its length, `answers` is writable and does not overlap it, and each
    // pointer is to a local of its own.
    let number = unsafe {
        keyline_run(
            script.as_ptr(),
            script.len(),
            answers.as_mut_ptr(),
            answers.len(),
            &mut used,
            &mut beside,
        )
    };
    Ran { number, used, beside }
}

#[cfg(test)]
mod tests {
    use super::*;

    /// A number with bytes around it that no call may touch.
    #[repr(C)]
    #[derive(Clone, Copy, Debug, PartialEq, Eq)]
    struct Guarded<T> {
        before: [u8; 16],
        number: T,
        behind: [u8; 16],
    }

    fn guarded<T>(number: T) -> Guarded<T> {
        Guarded { before: [0xb5; 16], number, behind: [0xb5; 16] }
    }

    #[test]
    fn the_reader_writes_its_numbers_and_nothing_around_them() {
        let numbers =
            [(66, b'E', 0), (98, b'A', 1), (65, b'E', 0), (67, b'E', 0), (66, b'X', 9), (66, b'E', 9)];
        for (length, power_byte, tag) in numbers {
            let mut payload = [7; 98];
            payload[64..66].copy_from_slice(&[power_byte, tag]);
            let (mut beside, mut citation) = (guarded(UNWRITTEN), guarded(UNWRITTEN));
            let (mut power, mut rank) = (guarded(UNWRITTEN_BYTE), guarded(UNWRITTEN_BYTE));
            // SAFETY: as in `delegation_decode`; no length is above the array's.
            let number = unsafe {
                keyline_delegation_decode(
                    payload.as_ptr(),
                    length,
                    &mut beside.number,
                    &mut power.number,
                    &mut rank.number,
                    &mut citation.number,
                )
            };
            let expected = delegation_decode(&payload[..length]);
            assert_eq!(number, expected.number);
            assert_eq!((beside, citation), (guarded(expected.beside), guarded(expected.citation)));
            assert_eq!((power, rank), (guarded(expected.power), guarded(expected.rank)));
        }
    }

    #[test]
    fn the_writer_writes_its_numbers_and_nothing_around_them() {
        let key = [7; 32];
        for (audience, power, citation, room) in
            [(32, b'E', 0, 66), (32, b'E', 32, 98), (31, b'E', 0, 98), (32, b'X', 0, 98), (32, b'E', 0, 65)]
        {
            let mut out = [0; 98];
            let (mut written, mut beside) = (guarded(UNWRITTEN), guarded(UNWRITTEN));
            // SAFETY: as in `delegation_encode`; no length is above its array's.
            let number = unsafe {
                keyline_delegation_encode(
                    key.as_ptr(),
                    audience,
                    key.as_ptr(),
                    key.len(),
                    power,
                    key.as_ptr(),
                    citation,
                    out.as_mut_ptr(),
                    room,
                    &mut written.number,
                    &mut beside.number,
                )
            };
            let expected =
                delegation_encode(&key[..audience], &key, power, &key[..citation], &mut out[..room]);
            assert_eq!(number, expected.number);
            assert_eq!((written, beside), (guarded(expected.written), guarded(expected.beside)));
        }
    }

    #[test]
    fn a_run_writes_its_numbers_and_nothing_around_them() {
        let version = [16, 0, 0, 0, 0, 0, 0, 0, 0, 0];
        for (length, operation, room) in
            [(10, 16, 9), (10, 16, 30), (0, 16, 0), (9, 16, 9), (10, 99, 9), (10, 16, 8)]
        {
            let mut script = version;
            script[0] = operation;
            let mut answers = [0xb5; 30];
            let (mut used, mut beside) = (guarded(UNWRITTEN), guarded(UNWRITTEN));
            // SAFETY: as in `run`; no length is above its array's.
            let number = unsafe {
                keyline_run(
                    script.as_ptr(),
                    length,
                    answers.as_mut_ptr(),
                    room,
                    &mut used.number,
                    &mut beside.number,
                )
            };
            let mut again = [0xb5; 30];
            let expected = run(&script[..length], &mut again[..room]);
            assert_eq!((number, answers), (expected.number, again));
            assert_eq!((used, beside), (guarded(expected.used), guarded(expected.beside)));
            assert!(answers[expected.used..].iter().all(|byte| *byte == 0xb5));
        }
    }
}
