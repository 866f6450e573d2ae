//! Document 01's "Insertion" and "Queries" read plainly, with its words beside each check. It is written from the
//! document, not from the Rust or the kernel, and holds certificates in two lists. Who stands over what is left to
//! the oracle's plain reading of the rules. Deliberate mistakes are switches in it, and in that reading.
use crate::{
    answers::{BAD_LENGTH, SMALL_BUFFER},
    dialogue::Said,
    mistakes::Mistake as PayloadMistake,
    plain,
    slips::Slip::{self, *},
};
use oracle::{
    mistakes::Mistake,
    naive::{evaluate, Derivation, Evaluation, ADMIN},
    published::Bytes,
    store::{SmallDelegation, SmallRevocation, Store},
};
use saltbobbin::script::{Operation, Request};
use std::collections::BTreeSet;

const CONFLICT: u8 = 5;
const FULL_DELEGATIONS: u8 = 6;
const FULL_REVOCATIONS: u8 = 7;
const FULL_KEYS: u8 = 8;

/// "A store holds at most 64 keys, 128 delegations and 64 revocations."
const MOST_KEYS: usize = 64;
const MOST_DELEGATIONS: usize = 128;
const MOST_REVOCATIONS: usize = 64;

/// Up to so many keys the oracle's reading goes over all pairs; a reading with a mistake always does.
const ALL_PAIRS: usize = 10;

#[derive(Clone, Debug)]
struct Delegation {
    digest: Bytes,
    issuer: Bytes,
    payload: Vec<u8>,
}

impl Delegation {
    fn audience(&self) -> Bytes {
        *self.payload.first_chunk().expect("an accepted payload")
    }

    fn subject(&self) -> Bytes {
        *self.payload[32..].first_chunk().expect("an accepted payload")
    }
}

#[derive(Clone, Debug)]
struct Revocation {
    digest: Bytes,
    issuer: Bytes,
    revoked: Bytes,
}

#[derive(Clone, Debug, Default)]
struct Held {
    delegations: Vec<Delegation>,
    revocations: Vec<Revocation>,
}

/// A store, the store as it was when it was evaluated, and the evaluation if a question needed it.
pub struct PlainStore {
    held: Held,
    version: usize,
    evaluated: Held,
    worked_out: Option<(Vec<Bytes>, Evaluation)>,
    mistake: Mistake,
    slip: Slip,
}

/// A refusal: its number, and what is returned beside it.
type Refused = (u8, usize);

impl Held {
    /// "The held keys are the issuers, audiences and subjects of held delegations and the issuers of held
    /// revocations."
    fn keys(&self) -> BTreeSet<Bytes> {
        let delegated = self.delegations.iter().flat_map(|d| [d.issuer, d.audience(), d.subject()]);
        delegated.chain(self.revocations.iter().map(|v| v.issuer)).collect()
    }

    /// "digests of the held revocations that name the given delegation digest"
    fn naming(&self, digest: &[u8]) -> Vec<Bytes> {
        let naming = self.revocations.iter().filter(|v| v.revoked == digest);
        ascending(naming.map(|v| v.digest))
    }

    fn delegation(&self, digest: &[u8]) -> Option<usize> {
        self.delegations.iter().position(|d| d.digest == digest)
    }

    fn revocation(&self, digest: &[u8]) -> Option<usize> {
        self.revocations.iter().position(|v| v.digest == digest)
    }

    /// The store in the oracle's small numbers, and the keys by number.
    fn small(&self) -> (Vec<Bytes>, Store) {
        let keys: Vec<Bytes> = self.keys().into_iter().collect();
        let place = |key: Bytes| keys.binary_search(&key).expect("a held key");
        let delegations = self.delegations.iter().map(|d| SmallDelegation {
            issuer: place(d.issuer),
            audience: place(d.audience()),
            subject: place(d.subject()),
            rank: b"LREA".iter().position(|byte| *byte == d.payload[64]).expect("a power"),
        });
        let revocations = self.revocations.iter().map(|v| SmallRevocation {
            issuer: place(v.issuer),
            target: self.delegation(&v.revoked).unwrap_or(self.delegations.len()),
        });
        let (delegations, revocations) = (delegations.collect(), revocations.collect());
        let store = Store { keys: keys.len(), delegations, revocations };
        (keys, store)
    }
}

/// "Other lists ascend."
fn ascending(items: impl Iterator<Item = Bytes>) -> Vec<Bytes> {
    items.collect::<BTreeSet<_>>().into_iter().collect()
}

/// The byte of a level, 0 for none.
fn letter(level: u8) -> u8 {
    b"\0LREA"[usize::from(level)]
}

impl PlainStore {
    pub fn new(mistake: Mistake, slip: Slip) -> PlainStore {
        let (held, evaluated) = (Held::default(), Held::default());
        PlainStore { held, version: 0, evaluated, worked_out: None, mistake, slip }
    }

    /// How many keys, delegations and revocations are held.
    pub fn counts(&self) -> [usize; 3] {
        [self.held.keys().len(), self.held.delegations.len(), self.held.revocations.len()]
    }

    pub fn ask(&mut self, request: &Request<'_>) -> Said {
        let what = Operation::from_byte(request.operation).expect("an operation");
        if let Some(refusal) = self.refusal_of_room_first(what, request) {
            return Said::refused(refusal.0, refusal.1);
        }
        // "Argument lengths (1) come before 9."
        if let Err((number, beside)) = self.lengths(what, request) {
            return Said::refused(number, beside);
        }
        let said = self.answer(what, request);
        // "When there are two buffers the first one's fit is tested first."
        let needs = [
            (said.room.len(), usize::from(request.room)),
            (said.other_room.len(), usize::from(request.other_room)),
        ];
        let mut small = needs.iter().filter(|(needed, room)| needed > room);
        let small = if self.slip == SecondRoomFirst { small.next_back() } else { small.next() };
        match small {
            None => said,
            Some((needed, room)) => {
                let mut refused = Said::refused(SMALL_BUFFER, *needed);
                if self.slip == WritesWhatFits && *needed == said.room.len() {
                    refused.room = said.room[..*room].to_vec();
                }
                refused
            }
        }
    }

    fn refusal_of_room_first(&mut self, what: Operation, request: &Request<'_>) -> Option<Refused> {
        let lists = matches!(what, Operation::RevocationsOf | Operation::DelegationsTo | Operation::Closure);
        let first = self.slip == RoomBeforeLength && lists && self.lengths(what, request).is_err();
        (first && request.room < 32).then_some((SMALL_BUFFER, 32))
    }

    /// "lengths (1), in the order named": every argument that is a key or a digest.
    fn lengths(&self, what: Operation, request: &Request<'_>) -> Result<(), Refused> {
        let sized = match what {
            Operation::InsertDelegation | Operation::DelegationsTo => 2,
            Operation::PositivePower | Operation::EffectivePower => 2,
            Operation::InsertRevocation => 3,
            Operation::New | Operation::Evaluate => 0,
            Operation::Version | Operation::Len | Operation::IsEmpty => 0,
            Operation::Subjects | Operation::Certificates => 0,
            _ => 1,
        };
        if self.slip == PayloadBeforeLengths && what == Operation::InsertDelegation {
            self.payload(request.arguments[2])?;
        }
        let mut bad = request.arguments[..sized].iter().map(|a| a.len()).filter(|length| *length != 32);
        let named = if self.slip == LastLengthFirst { bad.next_back() } else { bad.next() };
        named.map_or(Ok(()), |length| Err((BAD_LENGTH, length)))
    }

    fn payload(&self, payload: &[u8]) -> Result<(), Refused> {
        let reading = plain::read(payload, PayloadMistake::NoMistake);
        if reading.number == 0 {
            return Ok(());
        }
        Err((reading.number, reading.beside))
    }

    fn insert(&mut self, what: Operation, request: &Request<'_>) -> Said {
        let inserted = match what {
            Operation::InsertDelegation => self.insert_delegation(request.arguments),
            _ => self.insert_revocation(request.arguments),
        };
        // "The version starts at 0 and rises by one with each certificate added."
        let refused = inserted.is_err() && self.slip == RefusalCounts;
        self.version += usize::from(inserted == Ok(true) || refused);
        match inserted {
            Ok(added) => Said::value(added.into()),
            // "A refusal leaves store, version and buffers unchanged."
            Err((number, beside)) => Said::refused(number, beside),
        }
    }

    fn insert_delegation(&mut self, [digest, issuer, payload]: [&[u8]; 3]) -> Result<bool, Refused> {
        // "payload (2 to 4)"
        self.payload(payload)?;
        let new = Delegation { digest: bytes(digest), issuer: bytes(issuer), payload: payload.to_vec() };
        let held = self.held.delegation(digest).map(|place| &self.held.delegations[place]);
        // "Content is issuer and payload"
        let same = held.map(|held| held.issuer == new.issuer && held.payload == new.payload);
        let elsewhere = self.slip == OneTable && self.held.revocation(digest).is_some();
        let most = if self.slip == OneFewer { MOST_DELEGATIONS - 1 } else { MOST_DELEGATIONS };
        let full = (self.held.delegations.len() >= most).then_some((FULL_DELEGATIONS, MOST_DELEGATIONS));
        let keys = [new.issuer, new.audience(), new.subject()];
        let added = self.room_for(if elsewhere { Some(false) } else { same }, full, &keys)?;
        if added {
            self.held.delegations.push(new);
        }
        Ok(added)
    }

    fn insert_revocation(&mut self, [digest, issuer, revoked]: [&[u8]; 3]) -> Result<bool, Refused> {
        let new = Revocation { digest: bytes(digest), issuer: bytes(issuer), revoked: bytes(revoked) };
        let held = self.held.revocation(digest).map(|place| &self.held.revocations[place]);
        // "or issuer and revoked digest"
        let same = held.map(|held| held.issuer == new.issuer && held.revoked == new.revoked);
        let full = self.held.revocations.len() >= MOST_REVOCATIONS;
        let full = full.then_some((FULL_REVOCATIONS, MOST_REVOCATIONS));
        let added = self.room_for(same, full, &[new.issuer])?;
        if added {
            self.held.revocations.push(new);
        }
        Ok(added)
    }

    /// The checks that both kinds share, from the identity on: `held` says whether it is held and with the same
    /// content.
    fn room_for(&self, held: Option<bool>, full: Option<Refused>, keys: &[Bytes]) -> Result<bool, Refused> {
        if let (FullBeforeHeld, Some(refusal)) = (self.slip, full) {
            return Err(refusal);
        }
        match held {
            // "identity held with equal content: answer 'not added'"
            Some(true) => return Ok(false),
            Some(false) if self.slip == ConflictIsHeld => return Ok(false),
            // "identity held with other content: 5"
            Some(false) => return Err((CONFLICT, 0)),
            None => {}
        }
        // "keys full: 8, exactly when held keys plus the distinct new ones exceed 64"
        let held = self.held.keys();
        let mut new: Vec<&Bytes> = keys.iter().filter(|key| !held.contains(*key)).collect();
        if self.slip != NewKeysRepeated {
            new.sort();
            new.dedup();
        }
        let full_keys = (held.len() + new.len() > MOST_KEYS).then_some((FULL_KEYS, new.len()));
        // "table full: 6 or 7; keys full: 8"
        let refusal = if self.slip == KeysBeforeTables { full_keys.or(full) } else { full.or(full_keys) };
        refusal.map_or(Ok(true), Err)
    }

    /// The answer before any room is looked at.
    fn answer(&mut self, what: Operation, request: &Request<'_>) -> Said {
        let [first, second, _] = request.arguments;
        let held = &self.held;
        match what {
            Operation::New => {
                *self = PlainStore {
                    evaluated: self.evaluated.clone(),
                    worked_out: self.worked_out.take(),
                    ..PlainStore::new(self.mistake, self.slip)
                };
                Said::value(0)
            }
            Operation::InsertDelegation | Operation::InsertRevocation => self.insert(what, request),
            Operation::Evaluate => {
                self.evaluated = self.held.clone();
                self.worked_out = None;
                Said::value(0)
            }
            Operation::Version => Said::value(self.version),
            Operation::Len => Said::value(held.delegations.len() + held.revocations.len()),
            Operation::IsEmpty => Said::value((held.delegations.len() + held.revocations.len() == 0).into()),
            Operation::ContainsDelegation => Said::value(held.delegation(first).is_some().into()),
            Operation::ContainsRevocation => Said::value(held.revocation(first).is_some().into()),
            // "or say that it is absent and touch neither"
            Operation::Delegation => held.delegation(first).map_or_else(
                || self.absent(request),
                |place| Said::held(&held.delegations[place].issuer, &held.delegations[place].payload),
            ),
            Operation::Revocation => held.revocation(first).map_or_else(
                || self.absent(request),
                |place| Said::held(&held.revocations[place].issuer, &held.revocations[place].revoked),
            ),
            // "`subjects` (those of held delegations)"
            Operation::Subjects => Said::list(&ascending(held.delegations.iter().map(Delegation::subject))),
            // "`revocations_of` answers for a target not yet held."
            Operation::RevocationsOf if self.slip == UnheldIsNotNamed && held.delegation(first).is_none() => {
                Said::value(0)
            }
            Operation::RevocationsOf => Said::list(&held.naming(first)),
            // "digests of the held delegations with that subject and audience"
            Operation::DelegationsTo => {
                let wanted = |d: &&Delegation| d.subject() == first && d.audience() == second;
                Said::list(&ascending(held.delegations.iter().filter(wanted).map(|d| d.digest)))
            }
            // "delegations ascending, then revocations ascending, with a count for each kind"
            Operation::Certificates => Said::lists(
                &ascending(held.delegations.iter().map(|d| d.digest)),
                &ascending(held.revocations.iter().map(|v| v.digest)),
            ),
            _ => self.evaluated_answer(what, first, second),
        }
    }

    fn absent(&self, request: &Request<'_>) -> Said {
        let refused = self.slip == AbsentWantsRoom && request.room < 32;
        if refused {
            Said::refused(SMALL_BUFFER, 32)
        } else {
            Said::value(0)
        }
    }

    fn evaluated_answer(&mut self, what: Operation, first: &[u8], second: &[u8]) -> Said {
        if self.slip == AlwaysEvaluated {
            self.evaluated = self.held.clone();
            self.worked_out = None;
        }
        let held = &self.evaluated;
        let mistake = self.mistake;
        let (keys, e) = self.worked_out.get_or_insert_with(|| {
            let (keys, store) = held.small();
            let pairs = mistake != Mistake::NoMistake || keys.len() <= ALL_PAIRS;
            let derivation = if pairs { Derivation::AllPairs } else { Derivation::Words };
            let evaluation = evaluate(&store, derivation, mistake);
            (keys, evaluation)
        });
        let place = |key: &[u8]| keys.iter().position(|held| held == key);
        let level = |levels: &[Vec<u8>]| match (place(first), place(second)) {
            (Some(subject), Some(audience)) => levels[subject][audience],
            // "except that any key stands over itself at Admin"
            _ if first == second => ADMIN,
            // "a key that is not held, give the empty or absent answer"
            _ => 0,
        };
        let delegation = held.delegation(first);
        match what {
            Operation::PositivePower => Said::value(letter(level(&e.positive)).into()),
            Operation::EffectivePower => Said::value(letter(level(&e.effective)).into()),
            // "effective, subject itself left out, keys in one buffer, power bytes in another"
            Operation::Members => {
                let row = place(first).map_or(&[][..], |subject| &e.effective[subject]);
                let row = keys.iter().zip(row).filter(|(key, level)| **level > 0 && *key != first);
                let (members, powers): (Vec<Bytes>, Vec<u8>) =
                    row.map(|(key, level)| (*key, letter(*level))).unzip();
                Said { other_room: powers, ..Said::list(&members) }
            }
            Operation::IsLive => Said::value(delegation.is_some_and(|d| e.live[d]).into()),
            Operation::ConveyedPower => Said::value(delegation.map_or(0, |d| letter(e.conveyed[d])).into()),
            // "for a held delegation, Live, Revoked or Unsupported. A dead one is Revoked if a held revocation
            // names it, else Unsupported."
            Operation::Standing => Said::value(match delegation {
                None => 0,
                Some(d) if e.live[d] => 1,
                Some(_) if !held.naming(first).is_empty() || self.slip == UnsupportedIsRevoked => 2,
                Some(_) => 3,
            }),
            // "every held delegation, live or not, whose subject is s or stands positively as a key over s, and
            // every held revocation that names one of them"
            Operation::Closure => {
                let stands = |key: Bytes| match (place(first), place(&key)) {
                    (Some(subject), Some(key)) => e.positive[subject][key] > 0,
                    _ => false,
                };
                let inside = |d: &&Delegation| d.subject() == first || stands(d.subject());
                let delegations = ascending(held.delegations.iter().filter(inside).map(|d| d.digest));
                let naming = held.revocations.iter().filter(|v| delegations.contains(&v.revoked));
                Said::lists(&delegations, &ascending(naming.map(|v| v.digest)))
            }
            _ => panic!("{what:?} needs no evaluation"),
        }
    }
}

fn bytes(argument: &[u8]) -> Bytes {
    argument.try_into().expect("its length was tested")
}
