//! The published State's answers to the requests of a script, by way of the oracle. It is asked in its own
//! domain: keys that it accepts, identities that are held with one content, rooms that are large enough. Standing
//! is read off `is_live` and `revocations_of`, as document 01 has it.
use crate::dialogue::Said;
use oracle::published::{
    ids, insert, version_number, Bytes, Certificate, CertificateId, Delegation, Digest, Encode, Identifier,
    Insertion, Power, RevocationId, State,
};
use saltbobbin::script::{Operation, Request};
use std::collections::HashMap;

/// The keys that the published Rust accepted, by their bytes: it takes long to test them again.
pub type Keys = HashMap<Bytes, Identifier>;

pub fn by_bytes(pool: &[Identifier]) -> Keys {
    pool.iter().map(|key| (key.to_bytes(), *key)).collect()
}

pub struct Published<'a> {
    keys: &'a Keys,
    state: State<()>,
    /// As it was at the last evaluation that was asked for. A copy of a State carries no evaluation.
    evaluated: State<()>,
}

impl<'a> Published<'a> {
    pub fn new(keys: &'a Keys) -> Self {
        Published { keys, state: State::new(), evaluated: State::new() }
    }

    pub fn insert(&mut self, insertion: &Insertion) -> Said {
        Said::value(insert(&mut self.state, insertion).into())
    }

    fn key(&self, bytes: &[u8]) -> Identifier {
        self.keys[bytes]
    }

    pub fn ask(&mut self, request: &Request<'_>) -> Said {
        let [first, second, _] = request.arguments;
        let delegation = || Digest::<Delegation>::from(digest(first));
        let revocation = || Digest::<RevocationId>::from(digest(first));
        let (state, evaluated) = (&self.state, &self.evaluated);
        match Operation::from_byte(request.operation).expect("an operation") {
            Operation::New => {
                self.state = State::new();
                Said::value(0)
            }
            Operation::InsertDelegation | Operation::InsertRevocation => panic!("insertions come as such"),
            Operation::Evaluate => {
                self.evaluated = self.state.clone();
                Said::value(0)
            }
            Operation::Version => Said::value(version_number(state.version()) as usize),
            Operation::Len => Said::value(state.len()),
            Operation::IsEmpty => Said::value(state.is_empty().into()),
            Operation::ContainsDelegation => {
                Said::value(state.contains(&CertificateId::Delegation(delegation())).into())
            }
            Operation::ContainsRevocation => {
                Said::value(state.contains(&CertificateId::Revocation(revocation())).into())
            }
            Operation::Delegation => state.delegation(&delegation()).map_or(Said::value(0), |held| {
                Said::held(held.issuer().as_bytes(), held.payload().encode().as_bytes())
            }),
            Operation::Revocation => state.revocation(&revocation()).map_or(Said::value(0), |held| {
                Said::held(held.issuer().as_bytes(), held.payload().revoke.as_slice())
            }),
            Operation::Subjects => {
                Said::list(&state.subjects().iter().map(Identifier::to_bytes).collect::<Vec<_>>())
            }
            Operation::RevocationsOf => {
                let naming = state.revocations_of(&delegation()).into_iter().map(Bytes::from);
                Said::list(&naming.collect::<Vec<_>>())
            }
            Operation::DelegationsTo => {
                let to = state.delegations_to(self.key(first), self.key(second));
                Said::list(&to.into_keys().map(Bytes::from).collect::<Vec<_>>())
            }
            Operation::Certificates => both(&state.certificates()),
            Operation::PositivePower => power(evaluated.positive_power(self.key(first), self.key(second))),
            Operation::EffectivePower => power(evaluated.effective_power(self.key(first), self.key(second))),
            Operation::Members => {
                let members = evaluated.members(self.key(first));
                let keys: Vec<Bytes> = members.keys().map(Identifier::to_bytes).collect();
                let powers = members.values().map(|power| *power as u8).collect();
                Said { other_room: powers, ..Said::list(&keys) }
            }
            Operation::IsLive => Said::value(evaluated.is_live(&delegation()).into()),
            Operation::ConveyedPower => power(evaluated.conveyed_power(&delegation())),
            Operation::Standing => {
                let digest = delegation();
                let revoked = !evaluated.revocations_of(&digest).is_empty();
                let standing = match (evaluated.is_live(&digest), revoked) {
                    _ if evaluated.delegation(&digest).is_none() => 0,
                    (true, _) => 1,
                    (false, true) => 2,
                    (false, false) => 3,
                };
                Said::value(standing)
            }
            Operation::Closure => both(&evaluated.closure(self.key(first))),
        }
    }
}

fn digest(bytes: &[u8]) -> Bytes {
    bytes.try_into().expect("32 bytes")
}

fn power(power: Option<Power>) -> Said {
    Said::value(power.map_or(0, |power| power as u8 as usize))
}

/// A list in which a delegation came after a revocation is not document 01's: it becomes an empty one, and differs.
fn both(certificates: &[Certificate<()>]) -> Said {
    let ids = ids(certificates).unwrap_or_default();
    Said::lists(&ids.delegations, &ids.revocations)
}
