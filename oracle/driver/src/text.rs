//! The lines of ../../VECTORS.md: a store with the published State's answers to every query of document 01,
//! for programs that are not in Rust.
use crate::{
    published::{
        ids, insert, version_number, Bytes, Delegation, Digest, Encode, Identifier, Insertion, Power, State,
    },
    store::Store,
};
use std::fmt::Write;

pub fn hex(bytes: &[u8]) -> String {
    bytes.iter().map(|b| format!("{b:02x}")).collect()
}

pub fn unhex(text: &str) -> Option<Vec<u8>> {
    let digits: Option<Vec<u32>> = text.chars().map(|c| c.to_digit(16)).collect();
    let digits = digits.filter(|d| d.len() % 2 == 0)?;
    Some(digits.chunks(2).map(|two| (16 * two[0] + two[1]) as u8).collect())
}

fn letter(power: Option<Power>) -> char {
    power.map_or('.', |p| p as u8 as char)
}

/// Which of `all` are among `some`.
fn marks(all: &[Bytes], some: impl IntoIterator<Item = impl Into<Bytes>>) -> String {
    if all.is_empty() {
        return "-".into();
    }
    let some: Vec<Bytes> = some.into_iter().map(Into::into).collect();
    all.iter().map(|bytes| if some.contains(bytes) { '1' } else { '0' }).collect()
}

/// An insertion, with whether it was added.
fn insertion(insertion: &Insertion, added: bool) -> String {
    let added = added as u8;
    match insertion {
        Insertion::Delegation { digest, issuer, payload } => {
            let payload = hex(payload.encode().as_bytes());
            format!("d {} {} {payload} {added}\n", hex(digest), hex(issuer.as_bytes()))
        }
        Insertion::Revocation { digest, issuer, revoked } => {
            format!("r {} {} {} {added}\n", hex(digest), hex(issuer.as_bytes()), hex(revoked))
        }
    }
}

/// The answers about the keys asked, which ascend, and about every certificate; `named` are delegation
/// digests, of which those that are not held have lines of their own.
pub fn block(state: &State<()>, keys: &[Identifier], named: &[Bytes]) -> String {
    let mut out = String::new();
    let all = ids(&state.certificates()).expect("delegations come first");
    let (ds, rs) = (&all.delegations, &all.revocations);
    let version = version_number(state.version());
    writeln!(out, "a {version} {} {} {}", state.len(), ds.len(), rs.len()).expect("text");
    for digest in ds {
        let d = Digest::<Delegation>::from(*digest);
        let held = state.delegation(&d).expect("held");
        let payload = hex(held.payload().encode().as_bytes());
        let (live, conveyed) = (state.is_live(&d) as u8, letter(state.conveyed_power(&d)));
        let (digest, issuer) = (hex(digest), hex(held.issuer().as_bytes()));
        let naming = marks(rs, state.revocations_of(&d));
        writeln!(out, "D {digest} {issuer} {payload} {live} {conveyed} {naming}").expect("text");
    }
    for digest in rs {
        let held = state.revocation(&Digest::from(*digest)).expect("held");
        let (issuer, revoked) = (hex(held.issuer().as_bytes()), hex(held.payload().revoke.as_slice()));
        writeln!(out, "R {} {issuer} {revoked}", hex(digest)).expect("text");
    }
    for digest in named.iter().filter(|d| !ds.contains(d)) {
        let d = Digest::<Delegation>::from(*digest);
        assert!(!state.is_live(&d) && state.conveyed_power(&d).is_none() && state.delegation(&d).is_none());
        writeln!(out, "N {} {}", hex(digest), marks(rs, state.revocations_of(&d))).expect("text");
    }
    let subjects = state.subjects();
    for s in keys {
        let positive: String = keys.iter().map(|a| letter(state.positive_power(*s, *a))).collect();
        let effective: Vec<Option<Power>> = keys.iter().map(|a| state.effective_power(*s, *a)).collect();
        // not written: it is the effective row without the subject
        let row = keys.iter().zip(&effective).filter(|(a, _)| *a != s);
        let row: Vec<_> = row.filter_map(|(a, power)| Some((*a, (*power)?))).collect();
        assert_eq!(state.members(*s).into_iter().collect::<Vec<_>>(), row, "members and effective_power");
        let effective: String = effective.into_iter().map(letter).collect();
        let closure = ids(&state.closure(*s)).expect("delegations come first");
        let (in_ds, in_rs) = (marks(ds, closure.delegations), marks(rs, closure.revocations));
        let (key, subject) = (hex(s.as_bytes()), subjects.contains(s) as u8);
        writeln!(out, "K {key} {subject} {positive} {effective} {in_ds} {in_rs}").expect("text");
        for (j, a) in keys.iter().enumerate() {
            let to = state.delegations_to(*s, *a);
            if !to.is_empty() {
                writeln!(out, "T {j} {}", marks(ds, to.into_keys())).expect("text");
            }
        }
    }
    out + "z\n"
}

/// A store, its insertions and so many blocks of answers, spread over them; the last comes at the end. One
/// insertion in five is followed by an earlier one again, which is not added.
pub fn store(name: &str, store: &Store, pool: &[Identifier], seed: u64, blocks: usize) -> String {
    let concrete = store.concrete(pool, seed);
    let mut keys = concrete.keys;
    keys.sort();
    let mut state = State::new();
    let mut out = format!("s {name}\n");
    if blocks > 1 {
        out += &block(&state, &keys, &concrete.delegations);
    }
    let total = concrete.insertions.len();
    let every = (total / blocks).max(1);
    for (i, one) in concrete.insertions.iter().enumerate() {
        out += &insertion(one, insert(&mut state, one));
        if i % 5 == 4 {
            let earlier = &concrete.insertions[i - 4];
            out += &insertion(earlier, insert(&mut state, earlier));
        }
        if i + 1 == total || blocks > 1 && (i + 1) % every == 0 {
            out += &block(&state, &keys, &concrete.delegations);
        }
    }
    out
}

/// A payload and what the reader says of it.
pub fn payload(bytes: &[u8], said: &str) -> String {
    let bytes = if bytes.is_empty() { "-".into() } else { hex(bytes) };
    format!("p {bytes} {said}\n")
}
