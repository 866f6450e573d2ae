//! Stand-in: bytes in lower-case hex. Only `{:x}` of an `Identifier` calls it, and no answer does that.
use core::fmt;

pub fn bytes_as_hex<'a, I: Iterator<Item = &'a u8>>(bytes: I, f: &mut fmt::Formatter<'_>) -> fmt::Result {
    if f.alternate() {
        f.write_str("0x")?;
    }
    for b in bytes {
        write!(f, "{b:02x}")?;
    }
    Ok(())
}
