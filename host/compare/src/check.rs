//! One question, put to the kernel, to the plain reading and, in its domain, to the published Rust.
use crate::{
    answers::{Call, Reading, Writing},
    kernel,
    mistakes::Mistake,
    plain, published,
};
use oracle::{published::Identifier, text::hex};
use std::fmt;

/// With what the kernel's answer was compared.
#[derive(Clone, Copy, Debug, PartialEq, Eq)]
pub enum Compared {
    WithPublished,
    /// The published Rust has no answer: see [`published`].
    PlainOnly,
}

/// Two answers that should be the same.
#[derive(Clone, Debug)]
pub struct Difference {
    asked: String,
    kernel: String,
    who: &'static str,
    says: String,
}

impl fmt::Display for Difference {
    fn fmt(&self, f: &mut fmt::Formatter<'_>) -> fmt::Result {
        let Difference { asked, kernel, who, says } = self;
        write!(f, "asked: {asked}\nthe kernel: {kernel}\n{who}: {says}")
    }
}

/// What the kernel says of a payload, held against the plain reading and, in its domain, the published Rust.
pub fn reader(payload: &[u8], mistake: Mistake) -> Result<Compared, Difference> {
    let kernel = reader_plainly(payload, mistake)?;
    let Some(answer) = published::read(payload) else {
        return Ok(Compared::PlainOnly);
    };
    same_reading(payload, kernel, "the published Rust", answer)?;
    Ok(Compared::WithPublished)
}

/// The same with the plain reading alone.
pub fn reader_plainly(payload: &[u8], mistake: Mistake) -> Result<Reading, Difference> {
    let kernel = kernel::read(payload);
    same_reading(payload, kernel, "the plain reading", Ok(plain::read(payload, mistake)))?;
    same_reading(payload, kernel, "the kernel with Rust's types", kernel::read_typed(payload))?;
    Ok(kernel)
}

fn same_reading(
    payload: &[u8],
    kernel: Reading,
    who: &'static str,
    answer: Result<Reading, &'static str>,
) -> Result<(), Difference> {
    if answer == Ok(kernel) {
        return Ok(());
    }
    let asked = format!("payload of {} bytes {}", payload.len(), hex(payload));
    let says = answer.map_or_else(str::to_string, |reading| reading.to_string());
    Err(Difference { asked, kernel: kernel.to_string(), who, says })
}

/// What the kernel answers to a call of the writer, and what it leaves in and around the buffer. `pool` has
/// keys that the published Rust accepts.
pub fn writer(call: &Call, pool: &[Identifier], mistake: Mistake) -> Result<Compared, Difference> {
    let kernel = kernel::write(call);
    same_writing(call, &kernel, "the plain reading", plain::write(call, mistake))?;
    same_writing(call, &kernel, "the kernel with Rust's types", kernel::write_typed(call))?;
    if kernel.number == 0 {
        same_writing(call, &kernel, "the kernel's own reader", kernel::read_back(call, &kernel))?;
    }
    let Some(answer) = published::write(call, pool) else {
        return Ok(Compared::PlainOnly);
    };
    same_writing(call, &kernel, "the published Rust", answer)?;
    Ok(Compared::WithPublished)
}

fn same_writing(call: &Call, kernel: &Writing, who: &'static str, answer: Writing) -> Result<(), Difference> {
    if answer == *kernel {
        return Ok(());
    }
    Err(Difference { asked: call.to_string(), kernel: kernel.to_string(), who, says: answer.to_string() })
}
