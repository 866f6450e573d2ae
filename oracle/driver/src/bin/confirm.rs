//! What document 01 asks to be confirmed first: the lengths of keys and digests and the orders of keys,
//! digests, identities and levels; then what the Rust does with an identity that is held, and with keys and
//! digests that are not. An order is held against the one that document 01 names on many pairs, and the same
//! pairs must refute each order that it could be taken for. One line a point; exits 1 if one does not hold.
use oracle::{
    published::{
        ids, insert, keys, version_number, Bytes, CertificateId, Decode, DecodeError, Delegation, Digest,
        Encode, Identifier, Insertion, Power, RevocationId, State,
    },
    rng::Rng,
    text::unhex,
};
use std::{cmp::Ordering, fmt::Debug, process::exit};

type Point = Result<String, String>;

fn want<T: PartialEq + Debug>(what: &str, rust: T, document: T) -> Result<(), String> {
    if rust == document {
        return Ok(());
    }
    Err(format!("{what}: rust {rust:?}, document {document:?}"))
}

/// The order of document 01, without the library's own comparison of arrays.
fn first_byte_first(a: &Bytes, b: &Bytes) -> Ordering {
    let differs = (0..32).find(|i| a[*i] != b[*i]);
    differs.map_or(Ordering::Equal, |i| if a[i] < b[i] { Ordering::Less } else { Ordering::Greater })
}

type Order = fn(&Bytes, &Bytes) -> Ordering;

fn words(bytes: &Bytes) -> Vec<u64> {
    let word = |eight: &[u8]| u64::from_le_bytes(eight.try_into().expect("eight bytes"));
    bytes.chunks_exact(8).map(word).collect()
}

/// What the order could be taken for.
const OTHER_ORDERS: [(&str, Order); 5] = [
    ("little-endian numbers", |a, b| a.iter().rev().cmp(b.iter().rev())),
    ("little-endian words", |a, b| words(a).cmp(&words(b))),
    ("signed bytes", |a, b| a.map(|x| x as i8).cmp(&b.map(|x| x as i8))),
    ("all but the first byte", |a, b| a[1..].cmp(&b[1..])),
    ("all but the last byte", |a, b| a[..31].cmp(&b[..31])),
];

/// The places in which the strings of a family differ.
const PLACES: [usize; 8] = [0, 1, 7, 8, 15, 16, 30, 31];

/// Families of 32 bytes that `accept` takes: strings drawn at random, and for some of them, the strings that
/// differ from it in one byte alone.
fn families(accept: impl Fn(&Bytes) -> bool) -> Vec<Vec<Bytes>> {
    let mut r = Rng::new(32);
    let mut fresh = || loop {
        let bytes = r.bytes();
        if accept(&bytes) {
            return bytes;
        }
    };
    let mut out = vec![(0..200).map(|_| fresh()).collect()];
    for place in PLACES {
        for _ in 0..2 {
            let base = fresh();
            let with = |byte: u8| {
                let mut bytes = base;
                bytes[place] = byte;
                bytes
            };
            out.push((0..=255).step_by(3).map(with).filter(&accept).collect());
        }
    }
    out
}

/// Whether `rust` is the order of document 01 on every pair of a family, and the other orders are not.
fn ordered_by_bytes<T: Ord>(what: &str, families: &[Vec<Bytes>], rust: impl Fn(&Bytes) -> T) -> Point {
    let mut pairs = 0;
    let mut refuted = OTHER_ORDERS.map(|(name, _)| (name, 0));
    for family in families {
        let all: Vec<T> = family.iter().map(&rust).collect();
        for (a, x) in family.iter().zip(&all) {
            for (b, y) in family.iter().zip(&all) {
                let order = x.cmp(y);
                if order != first_byte_first(a, b) || x.partial_cmp(y) != Some(order) {
                    return Err(format!("{what}: rust has {order:?} for {a:02x?} and {b:02x?}"));
                }
                if (x == y) != (order == Ordering::Equal) {
                    return Err(format!("{what}: equality and order differ on {a:02x?} and {b:02x?}"));
                }
                pairs += 1;
                for ((_, other), (_, count)) in OTHER_ORDERS.iter().zip(&mut refuted) {
                    *count += (other(a, b) != order) as usize;
                }
            }
        }
    }
    if let Some((name, _)) = refuted.iter().find(|(_, count)| *count == 0) {
        return Err(format!("{what}: no pair refutes the order by {name}"));
    }
    let refuted = refuted.map(|(name, count)| format!("{name} {count}")).join(", ");
    Ok(format!("{what} ordered by bytes, first byte first: {pairs} pairs (refuting {refuted})"))
}

fn lengths() -> Point {
    want("length of a key", Identifier::LEN, 32)?;
    want("length of a delegation's digest", Digest::<Delegation>::LEN, 32)?;
    want("length of a revocation's digest", Digest::<RevocationId>::LEN, 32)?;
    // the public key of RFC 8032, 7.1, TEST 1
    let text = "d75a980182b10ab7d54bfed3c964073a0ee172f3daa62325af021a68f707511a";
    let mut bytes = unhex(text).expect("hex");
    want("RFC 8032's key", Identifier::decode(&bytes).map(|k| k.to_bytes().to_vec()), Ok(bytes.clone()))?;
    want("its encoding", Identifier::decode(&bytes).map(|k| k.encode().len()), Ok(32))?;
    want("a digest", Digest::<()>::decode(&bytes).map(|d| d.encode().len()), Ok(32))?;
    bytes.push(0);
    for (length, error) in [(31, DecodeError::UnexpectedEnd), (33, DecodeError::TrailingBytes)] {
        want("a key of another length", Identifier::decode(&bytes[..length]).err(), Some(error))?;
        want("a digest of another length", Digest::<()>::decode(&bytes[..length]).err(), Some(error))?;
    }
    let key = keys(1, 1)[0];
    let payload = Delegation::new(key, key, Power::Edit);
    want("a payload without citation", payload.encode().len(), 66)?;
    want("a payload with citation", payload.reissue(Digest::from([1; 32])).encode().len(), 98)?;
    Ok("keys and digests have 32 bytes, payloads 66 and 98".into())
}

fn order_of_keys() -> Point {
    let families = families(|bytes| Identifier::from_bytes(*bytes).is_ok());
    ordered_by_bytes("keys", &families, |bytes| Identifier::from_bytes(*bytes).expect("accepted"))
}

fn order_of_delegation_digests() -> Point {
    ordered_by_bytes("delegation digests", &families(|_| true), |b| Digest::<Delegation>::from(*b))
}

fn order_of_revocation_digests() -> Point {
    ordered_by_bytes("revocation digests", &families(|_| true), |b| Digest::<RevocationId>::from(*b))
}

/// Delegations come before revocations whatever their bytes; each kind is ordered by bytes.
fn order_of_identities() -> Point {
    let families = families(|_| true);
    ordered_by_bytes("delegation identities", &families, |b| CertificateId::Delegation((*b).into()))?;
    ordered_by_bytes("revocation identities", &families, |b| CertificateId::Revocation((*b).into()))?;
    let (mut pairs, mut against_bytes) = (0, 0);
    for family in &families {
        for a in family {
            for b in family {
                let d = CertificateId::Delegation(Digest::from(*a));
                let r = CertificateId::Revocation(Digest::from(*b));
                want("a delegation and a revocation", d.cmp(&r), Ordering::Less)?;
                pairs += 1;
                against_bytes += (first_byte_first(a, b) == Ordering::Greater) as usize;
            }
        }
    }
    if against_bytes == 0 {
        return Err("no pair refutes the order of identities by bytes".into());
    }
    Ok(format!(
        "identities: delegations first, then bytes: {pairs} pairs ({against_bytes} against the bytes)"
    ))
}

fn order_of_levels() -> Point {
    let document = [(Power::Relay, b'L'), (Power::Read, b'R'), (Power::Edit, b'E'), (Power::Admin, b'A')];
    want("the levels, ascending", Power::ALL, document.map(|(power, _)| power))?;
    let mut against_bytes = 0;
    for (rank, (power, byte)) in document.into_iter().enumerate() {
        want("rank", power.rank(), rank)?;
        want("byte", power.encode().as_bytes().to_vec(), vec![byte])?;
        for (other_rank, (other, other_byte)) in document.into_iter().enumerate() {
            want("order", power.cmp(&other), rank.cmp(&other_rank))?;
            want("partial order", power.partial_cmp(&other), Some(rank.cmp(&other_rank)))?;
            want("lesser", power.min(other).rank(), rank.min(other_rank))?;
            want("greater", power.max(other).rank(), rank.max(other_rank))?;
            against_bytes += (power.cmp(&other) != byte.cmp(&other_byte)) as usize;
        }
    }
    for byte in 0..=255 {
        let known = document.into_iter().find(|(_, b)| *b == byte);
        let expected = known.map(|(power, _)| power).ok_or(DecodeError::InvalidTag(byte));
        want("a byte read as a level", Power::decode(&[byte]), expected)?;
    }
    want("pairs that refute the order by byte", against_bytes > 0, true)?;
    Ok(format!(
        "levels L R E A ordered by rank: 16 pairs ({against_bytes} against the bytes), 256 bytes read"
    ))
}

/// Every list of the State ascends, on keys and digests that differ in one byte alone.
fn order_of_lists() -> Point {
    let mut lists = 0;
    for family in families(|bytes| Identifier::from_bytes(*bytes).is_ok()) {
        let mut family = family;
        Rng::new(family.len() as u64).shuffle(&mut family);
        let keys: Vec<Identifier> =
            family.iter().map(|b| Identifier::from_bytes(*b).expect("a key")).collect();
        let (subject, audience) = (keys[0], keys[1]);
        let target = family[0];
        let mut state = State::new();
        for (digest, key) in family.iter().zip(&keys) {
            let (digest, revoked) = (*digest, target);
            // a member, a subject and a delegation to one audience each; all by the subject
            let payload = Delegation::new(*key, subject, Power::Read);
            insert(&mut state, &Insertion::Delegation { digest, issuer: subject, payload });
            let mut second = digest;
            second[2] ^= 1; // outside PLACES
            let payload = Delegation::new(audience, *key, Power::Read);
            insert(&mut state, &Insertion::Delegation { digest: second, issuer: *key, payload });
            let mut third = digest;
            third[3] ^= 1;
            let payload = Delegation::new(audience, subject, Power::Read);
            insert(&mut state, &Insertion::Delegation { digest: third, issuer: *key, payload });
            insert(&mut state, &Insertion::Revocation { digest, issuer: *key, revoked });
        }
        let all = ids(&state.certificates()).ok_or("certificates: a delegation after a revocation")?;
        let closure = ids(&state.closure(subject)).ok_or("closure: a delegation after a revocation")?;
        let target = Digest::from(target);
        let digests = |d: Digest<Delegation>| Bytes::from(d);
        let expected = family.len();
        for (name, list, least) in [
            ("subjects", state.subjects().iter().map(Identifier::to_bytes).collect(), expected),
            ("members", state.members(subject).keys().map(Identifier::to_bytes).collect(), 1),
            (
                "delegations_to",
                state.delegations_to(subject, audience).into_keys().map(digests).collect(),
                expected,
            ),
            ("revocations_of", state.revocations_of(&target).into_iter().map(Into::into).collect(), expected),
            ("delegations of certificates", all.delegations, expected),
            ("revocations of certificates", all.revocations, expected),
            ("delegations of closure", closure.delegations, expected),
            ("revocations of closure", closure.revocations, expected),
        ] {
            let list: Vec<Bytes> = list;
            let ascends = list.windows(2).all(|w| first_byte_first(&w[0], &w[1]) == Ordering::Less);
            want(&format!("{name} ascends"), ascends, true)?;
            want(&format!("{name} has {least} or more"), list.len() >= least, true)?;
            lists += 1;
        }
    }
    Ok(format!(
        "subjects, members, delegations_to, revocations_of, certificates, closure ascend: {lists} lists"
    ))
}

/// An identity that is held: with the same content not added, and with other content not added either, where
/// document 01 answers 5. The first content stays.
fn held_identities() -> Point {
    let k = keys(1, 3);
    let digest = [9; 32];
    let mut state = State::new();
    let delegation = |audience: usize, issuer: usize| {
        let payload = Delegation::new(k[audience], k[0], Power::Edit);
        Insertion::Delegation { digest, issuer: k[issuer], payload }
    };
    want("version of the empty store", version_number(state.version()), 0)?;
    want("a delegation", insert(&mut state, &delegation(1, 0)), true)?;
    want("the same again", insert(&mut state, &delegation(1, 0)), false)?;
    want("another audience under its digest", insert(&mut state, &delegation(2, 0)), false)?;
    want("another issuer under its digest", insert(&mut state, &delegation(1, 2)), false)?;
    let held = state.delegation(&Digest::from(digest)).map(|v| (v.issuer(), v.payload().audience));
    want("the first stays", held, Some((k[0], k[1])))?;
    // a revocation may carry the same digest bytes: the tables are separate
    let revocation = |issuer: usize, revoked: u8| Insertion::Revocation {
        digest,
        issuer: k[issuer],
        revoked: [revoked; 32],
    };
    want("a revocation with equal bytes", insert(&mut state, &revocation(0, 7)), true)?;
    want("the same again", insert(&mut state, &revocation(0, 7)), false)?;
    want("another target under its digest", insert(&mut state, &revocation(0, 8)), false)?;
    want("another issuer under its digest", insert(&mut state, &revocation(1, 7)), false)?;
    let held = state.revocation(&Digest::from(digest)).map(|v| (v.issuer(), v.payload().revoke));
    want("the first stays", held, Some((k[0], Digest::from([7; 32]))))?;
    want("two are held", (state.len(), version_number(state.version())), (2, 2))?;
    Ok("a held identity is not added again, whatever its content; one digest in both tables is two".into())
}

/// Keys and digests that no certificate has or names, on the empty store and on one of two delegations.
fn not_held() -> Point {
    let k = keys(1, 5);
    let mut state = State::new();
    for stage in 0..2 {
        let (unheld, other) = (k[3], k[4]);
        for key in [k[0], k[1], unheld] {
            want("positive over itself", state.positive_power(key, key), Some(Power::Admin))?;
            want("effective over itself", state.effective_power(key, key), Some(Power::Admin))?;
        }
        want("positive, neither held", state.positive_power(unheld, other), None)?;
        want("positive over a key not held", state.positive_power(unheld, k[0]), None)?;
        want("positive of a key not held", state.positive_power(k[0], unheld), None)?;
        want("effective, neither held", state.effective_power(unheld, other), None)?;
        want("effective over a key not held", state.effective_power(unheld, k[0]), None)?;
        want("effective of a key not held", state.effective_power(k[0], unheld), None)?;
        want("members", state.members(unheld).len(), 0)?;
        want("closure", state.closure(unheld).len(), 0)?;
        want("delegations_to", state.delegations_to(unheld, k[1]).len(), 0)?;
        want("delegations_to a key not held", state.delegations_to(k[0], unheld).len(), 0)?;
        want("subjects has it", state.subjects().contains(&unheld), false)?;
        let digest = Digest::from([99; 32]);
        want("lookup", state.delegation(&digest).is_some(), false)?;
        want("lookup of a revocation", state.revocation(&Digest::from([99; 32])).is_some(), false)?;
        want("is_live", state.is_live(&digest), false)?;
        want("conveyed_power", state.conveyed_power(&digest), None)?;
        want("revocations_of", state.revocations_of(&digest).len(), 0)?;
        if stage == 0 {
            let payload = Delegation::new(k[1], k[0], Power::Edit);
            insert(&mut state, &Insertion::Delegation { digest: [1; 32], issuer: k[0], payload });
            let payload = Delegation::new(k[2], k[0], Power::Read);
            insert(&mut state, &Insertion::Delegation { digest: [2; 32], issuer: k[1], payload });
        }
    }
    // the subject is the first argument, of delegations_to and of both powers
    want("delegations_to(subject, audience)", state.delegations_to(k[0], k[1]).len(), 1)?;
    want("delegations_to(audience, subject)", state.delegations_to(k[1], k[0]).len(), 0)?;
    want("positive(subject, audience)", state.positive_power(k[0], k[2]), Some(Power::Read))?;
    want("positive(audience, subject)", state.positive_power(k[2], k[0]), None)?;
    want("effective(subject, audience)", state.effective_power(k[0], k[2]), Some(Power::Read))?;
    want("effective(audience, subject)", state.effective_power(k[2], k[0]), None)?;
    Ok("what is not held gives the empty answer, any key is Admin over itself; the subject comes first"
        .into())
}

fn main() {
    let points = [
        lengths(),
        order_of_keys(),
        order_of_delegation_digests(),
        order_of_revocation_digests(),
        order_of_identities(),
        order_of_levels(),
        order_of_lists(),
        held_identities(),
        not_held(),
    ];
    for point in &points {
        match point {
            Ok(confirmed) => println!("{confirmed}"),
            Err(difference) => println!("DIFFERS {difference}"),
        }
    }
    let differ = points.iter().filter(|p| p.is_err()).count();
    println!("confirm: {} points, {differ} differ", points.len());
    exit((differ > 0) as i32);
}
