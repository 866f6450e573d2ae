//! A store in small numbers: keys, delegations and revocations by place. It is what the shapes make, what
//! `naive` evaluates, what a report prints and what the minimizer shrinks; `concrete` turns it into bytes.
use crate::{
    published::{Bytes, Delegation, Digest, Identifier, Insertion, Power},
    rng::Rng,
};

#[derive(Clone, Copy, Debug, PartialEq, Eq)]
pub struct SmallDelegation {
    pub issuer: usize,
    pub audience: usize,
    pub subject: usize,
    /// 0 Relay, 1 Read, 2 Edit, 3 Admin.
    pub rank: usize,
}

#[derive(Clone, Copy, Debug, PartialEq, Eq)]
pub struct SmallRevocation {
    pub issuer: usize,
    /// Place of a delegation. The `UNHELD` places past the last name digests that are not held.
    pub target: usize,
}

/// How many delegation digests that are not held a store may name.
pub const UNHELD: usize = 3;

#[derive(Clone, Debug, Default, PartialEq, Eq)]
pub struct Store {
    /// Keys are 0 to `keys - 1`. Key number `keys` is asked about too and never held.
    pub keys: usize,
    pub delegations: Vec<SmallDelegation>,
    pub revocations: Vec<SmallRevocation>,
}

/// The same store in bytes, and the insertions that build it.
pub struct Concrete {
    /// One for each key, then the one that is not held.
    pub keys: Vec<Identifier>,
    /// One digest for each delegation, then the `UNHELD`, then one that nothing names.
    pub delegations: Vec<Bytes>,
    pub revocations: Vec<Bytes>,
    pub insertions: Vec<Insertion>,
}

impl Store {
    /// Keys from the pool, digests and order of insertion by the seed. In half of the stores all digests
    /// share their first thirty bytes; in a quarter revocations carry the digest bytes of delegations.
    pub fn concrete(&self, pool: &[Identifier], seed: u64) -> Concrete {
        let mut r = Rng::new(seed ^ 0x5eed);
        let mut keys = pool.to_vec();
        r.shuffle(&mut keys);
        keys.truncate(self.keys + 1);

        let base = r.bytes();
        let close = r.chance(50);
        let mut digest = |i: usize| {
            let mut bytes = if close { base } else { r.bytes() };
            bytes[30] = (i >> 8) as u8;
            bytes[31] = (i * 37) as u8; // not in the order of places
            bytes
        };
        let held = self.delegations.len();
        let delegations: Vec<Bytes> = (0..=held + UNHELD).map(&mut digest).collect();
        let mut revocations: Vec<Bytes> = (0..self.revocations.len()).map(|i| digest(i + 256)).collect();
        if r.chance(25) {
            for (revocation, delegation) in revocations.iter_mut().zip(&delegations) {
                *revocation = *delegation;
            }
        }

        let mut insertions = Vec::new();
        for (d, digest) in self.delegations.iter().zip(&delegations) {
            let payload = Delegation {
                audience: keys[d.audience],
                subject: keys[d.subject],
                power: Power::ALL[d.rank],
                citation: r.chance(30).then(|| Digest::from(r.bytes())),
            };
            insertions.push(Insertion::Delegation { digest: *digest, issuer: keys[d.issuer], payload });
        }
        for (v, digest) in self.revocations.iter().zip(&revocations) {
            insertions.push(Insertion::Revocation {
                digest: *digest,
                issuer: keys[v.issuer],
                revoked: delegations[v.target],
            });
        }
        r.shuffle(&mut insertions);
        Concrete { keys, delegations, revocations, insertions }
    }

    /// In one line: `d2:1>3 E/0` is the third delegation, issuer 1, audience 3, Edit, subject 0;
    /// `4x2` is a revocation of it by key 4.
    pub fn show(&self) -> String {
        let mut out = format!("{} keys", self.keys);
        for (i, d) in self.delegations.iter().enumerate() {
            let power = Power::ALL[d.rank] as u8 as char;
            out += &format!(" d{i}:{}>{} {power}/{}", d.issuer, d.audience, d.subject);
        }
        for v in &self.revocations {
            out += &format!(" {}x{}", v.issuer, v.target);
        }
        out
    }

    /// The store without whatever `bad` does not need: no certificate and no key can be left out of the
    /// result so that it stays bad.
    pub fn minimize(mut self, bad: &dyn Fn(&Store) -> bool) -> Store {
        while let Some(smaller) = self.smaller().into_iter().find(|s| bad(s)) {
            self = smaller;
        }
        self
    }

    /// Each store that lacks one revocation, one delegation with what names it, or one unused key.
    fn smaller(&self) -> Vec<Store> {
        let mut out = Vec::new();
        for i in 0..self.revocations.len() {
            let mut s = self.clone();
            s.revocations.remove(i);
            out.push(s);
        }
        for i in 0..self.delegations.len() {
            let mut s = self.clone();
            s.delegations.remove(i);
            s.revocations.retain(|v| v.target != i);
            for v in &mut s.revocations {
                v.target -= (v.target > i) as usize;
            }
            out.push(s);
        }
        out.extend((0..self.keys).filter_map(|k| self.without_key(k)));
        out
    }

    fn without_key(&self, key: usize) -> Option<Store> {
        let mut s = self.clone();
        s.keys -= 1;
        let delegated =
            s.delegations.iter_mut().flat_map(|d| [&mut d.issuer, &mut d.audience, &mut d.subject]);
        let revoked = s.revocations.iter_mut().map(|v| &mut v.issuer);
        for place in delegated.chain(revoked) {
            if *place == key {
                return None;
            }
            *place -= (*place > key) as usize;
        }
        Some(s)
    }
}
