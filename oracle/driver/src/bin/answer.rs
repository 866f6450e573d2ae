//! answer: asks the published State about stores that were made elsewhere. A filter: it reads the lines s, d
//! and r of VECTORS.md (without the last field of d and r, or with it, which it does not read), and
//!
//! - `k KEY` adds a key to those asked about; keys of certificates always are;
//! - `q` asks for a block of answers.
//!
//! Out come the same s, d and r lines with 1 or 0 for added, and the blocks. A line that the Rust refuses, or
//! that is none of these, comes back as `! reason line`, and changes nothing.
use oracle::{
    published::{insert, Bytes, Decode, Delegation, Identifier, Insertion, State},
    text::{block, unhex},
};
use std::{
    collections::BTreeSet,
    io::{stdin, stdout, Write},
};

#[derive(Default)]
struct Asked {
    state: State<()>,
    keys: BTreeSet<Identifier>,
    /// Delegation digests, held or revoked.
    named: BTreeSet<Bytes>,
}

fn bytes(text: &str) -> Result<Bytes, String> {
    unhex(text).and_then(|b| b.try_into().ok()).ok_or("BadLength".into())
}

fn key(text: &str) -> Result<Identifier, String> {
    Identifier::from_bytes(bytes(text)?).map_err(|e| format!("{e:?}"))
}

impl Asked {
    /// What comes out for a line, or why it is refused.
    fn line(&mut self, line: &str) -> Result<String, String> {
        match line.split_whitespace().collect::<Vec<_>>().as_slice() {
            ["s", ..] => {
                *self = Asked::default();
                Ok(format!("{line}\n"))
            }
            ["k", k] => {
                self.keys.insert(key(k)?);
                Ok(String::new())
            }
            ["d", d, i, p, ..] => {
                let (digest, issuer) = (bytes(d)?, key(i)?);
                let payload = Delegation::decode(&unhex(p).ok_or("NotHex")?).map_err(|e| format!("{e:?}"))?;
                self.keys.extend([issuer, payload.audience, payload.subject]);
                self.named.insert(digest);
                let added = insert(&mut self.state, &Insertion::Delegation { digest, issuer, payload });
                Ok(format!("d {d} {i} {p} {}\n", added as u8))
            }
            ["r", d, i, t, ..] => {
                let (digest, issuer, revoked) = (bytes(d)?, key(i)?, bytes(t)?);
                self.keys.insert(issuer);
                self.named.insert(revoked);
                let added = insert(&mut self.state, &Insertion::Revocation { digest, issuer, revoked });
                Ok(format!("r {d} {i} {t} {}\n", added as u8))
            }
            ["q"] => {
                let keys: Vec<Identifier> = self.keys.iter().copied().collect();
                let named: Vec<Bytes> = self.named.iter().copied().collect();
                Ok(block(&self.state, &keys, &named))
            }
            _ => Err("Unknown".into()),
        }
    }
}

fn main() {
    let mut asked = Asked::default();
    let mut out = stdout().lock();
    for line in stdin().lines() {
        let line = line.expect("a line");
        let text = asked.line(&line).unwrap_or_else(|why| format!("! {why} {line}\n"));
        if out.write_all(text.as_bytes()).is_err() {
            return; // the reader has gone
        }
    }
}
