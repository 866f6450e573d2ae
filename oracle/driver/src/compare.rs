//! One store, built in the published `State` and asked every query of document 01; the answers are held
//! against an evaluation of `naive`. Keys and digests that are not held are asked about too.
use crate::{
    naive::Evaluation,
    published::{ids, insert, level, rounds, version_number, Bytes, Digest, Identifier, Ids, Rounds, State},
    rng::Rng,
    store::{Concrete, Store},
};
use std::fmt::{Arguments, Debug};

/// How many of the pairs and subjects are asked about by the queries that cost a search each.
#[derive(Clone, Copy, PartialEq, Eq)]
pub enum Asked {
    All,
    Sample,
}

/// The rounds that the published loops took, or the first disagreement in words.
pub fn compare(
    store: &Store,
    evaluation: &Evaluation,
    pool: &[Identifier],
    seed: u64,
    asked: Asked,
) -> Result<Rounds, String> {
    let mut r = Rng::new(seed);
    let concrete = store.concrete(pool, seed);
    let state = filled(&concrete, &mut r)?;
    // the first query evaluates
    let unheld = concrete.keys[store.keys];
    let (_, rounds) = rounds::counted(|| state.positive_power(concrete.keys[0], unheld));
    let case = Case { store, evaluation, concrete, state };
    case.whole_set()?;
    case.delegations()?;
    case.revocations()?;
    for subject in 0..=store.keys {
        case.positive(subject)?;
        if asked == Asked::All || r.chance(15) {
            case.members_and_closure(subject)?;
        }
        for audience in 0..=store.keys {
            if asked == Asked::All || r.chance(1) {
                case.pair(subject, audience)?;
            }
        }
    }
    Ok(rounds)
}

/// The state after all insertions, not evaluated yet. In between it is asked, so that an insertion meets a
/// filled cache, and handed certificates that it has.
fn filled(concrete: &Concrete, r: &mut Rng) -> Result<State<()>, String> {
    let mut state = State::new();
    let every = 3 + concrete.insertions.len() / 3;
    let last = concrete.insertions.len().saturating_sub(1);
    for (i, insertion) in concrete.insertions.iter().enumerate() {
        same(format_args!("insertion {i} is added"), insert(&mut state, insertion), true)?;
        if i % every == 0 && i < last {
            state.effective_power(concrete.keys[0], concrete.keys[1]);
            let again = r.pick(&concrete.insertions[..=i]);
            same(format_args!("a repeated insertion is added"), insert(&mut state, &again), false)?;
        }
    }
    Ok(state)
}

fn same<T: PartialEq + Debug>(what: Arguments<'_>, rust: T, document: T) -> Result<(), String> {
    if rust == document {
        return Ok(());
    }
    Err(format!("{what}: rust {rust:?}, document {document:?}"))
}

fn ascending<T: Ord>(items: impl IntoIterator<Item = T>) -> Vec<T> {
    let mut items: Vec<T> = items.into_iter().collect();
    items.sort();
    items
}

fn bytes<T>(digests: impl IntoIterator<Item = Digest<T>>) -> Vec<Bytes> {
    digests.into_iter().map(Into::into).collect()
}

struct Case<'a> {
    store: &'a Store,
    evaluation: &'a Evaluation,
    concrete: Concrete,
    state: State<()>,
}

impl Case<'_> {
    fn key(&self, place: usize) -> Identifier {
        self.concrete.keys[place]
    }

    /// Digests of the held delegations at places that `pick` takes, and of the revocations that name them.
    fn picked(&self, pick: impl Fn(usize) -> bool) -> Ids {
        let held = self.store.delegations.len();
        let named = self.store.revocations.iter().zip(&self.concrete.revocations);
        Ids {
            delegations: ascending((0..held).filter(|d| pick(*d)).map(|d| self.concrete.delegations[d])),
            revocations: ascending(named.filter(|(v, _)| pick(v.target)).map(|(_, digest)| *digest)),
        }
    }

    fn whole_set(&self) -> Result<(), String> {
        let (state, store) = (&self.state, self.store);
        let held = store.delegations.len() + store.revocations.len();
        same(format_args!("len"), state.len(), held)?;
        same(format_args!("is_empty"), state.is_empty(), held == 0)?;
        same(format_args!("version"), version_number(state.version()), held as u64)?;
        same(format_args!("certificates"), ids(&state.certificates()), Some(self.picked(|_| true)))?;
        let subjects = ascending(store.delegations.iter().map(|d| self.key(d.subject).to_bytes()));
        let subjects = subjects.into_iter().collect::<std::collections::BTreeSet<_>>();
        let rust: Vec<Bytes> = state.subjects().iter().map(Identifier::to_bytes).collect();
        same(format_args!("subjects"), rust, subjects.into_iter().collect())
    }

    /// Each delegation digest, held or not.
    fn delegations(&self) -> Result<(), String> {
        let (state, e) = (&self.state, self.evaluation);
        for (i, digest) in self.concrete.delegations.iter().enumerate() {
            let digest = Digest::from(*digest);
            let held = self.store.delegations.get(i);
            let live = held.is_some() && e.live[i];
            let conveyed = held.map_or(0, |_| e.conveyed[i]);
            same(format_args!("contains d{i}"), state.contains(&digest.into()), held.is_some())?;
            same(format_args!("is_live d{i}"), state.is_live(&digest), live)?;
            same(format_args!("conveyed_power d{i}"), level(state.conveyed_power(&digest)), conveyed)?;
            let naming = bytes(state.revocations_of(&digest));
            same(format_args!("revocations_of d{i}"), naming, self.picked(|d| d == i).revocations)?;
            let rust = state.delegation(&digest).map(|v| {
                let p = v.payload();
                (v.issuer(), p.audience, p.subject, p.power.rank())
            });
            let document =
                held.map(|d| (self.key(d.issuer), self.key(d.audience), self.key(d.subject), d.rank));
            same(format_args!("delegation d{i}"), rust, document)?;
            // the tables are separate
            let as_revocation = self.concrete.revocations.contains(&digest.into());
            let rust = state.revocation(&digest.coerce()).is_some();
            same(format_args!("d{i} sought as a revocation"), rust, as_revocation)?;
        }
        Ok(())
    }

    fn revocations(&self) -> Result<(), String> {
        let held = self.store.delegations.len();
        for (v, digest) in self.store.revocations.iter().zip(&self.concrete.revocations) {
            let rust = self.state.revocation(&Digest::from(*digest));
            let rust = rust.map(|v| (v.issuer(), Bytes::from(v.payload().revoke)));
            let document = (self.key(v.issuer), self.concrete.delegations[v.target]);
            same(format_args!("revocation of d{}", v.target), rust, Some(document))?;
            let as_delegation = self.concrete.delegations[..held].contains(digest);
            let rust = self.state.delegation(&Digest::from(*digest)).is_some();
            same(format_args!("a revocation sought as a delegation"), rust, as_delegation)?;
        }
        Ok(())
    }

    fn positive(&self, subject: usize) -> Result<(), String> {
        for (audience, document) in self.evaluation.positive[subject].iter().enumerate() {
            let rust = self.state.positive_power(self.key(subject), self.key(audience));
            same(format_args!("positive_power {subject} {audience}"), level(rust), *document)?;
        }
        Ok(())
    }

    fn members_and_closure(&self, subject: usize) -> Result<(), String> {
        let row = self.evaluation.effective[subject].iter().enumerate();
        let members = row.filter(|(x, level)| *x != subject && **level > 0);
        let document = ascending(members.map(|(x, level)| (self.key(x).to_bytes(), *level)));
        let rust = self.state.members(self.key(subject)).into_iter();
        let rust: Vec<_> = rust.map(|(key, power)| (key.to_bytes(), level(Some(power)))).collect();
        same(format_args!("members {subject}"), rust, document)?;
        let stands = &self.evaluation.positive[subject];
        let inside = |d: usize| self.store.delegations.get(d).is_some_and(|d| stands[d.subject] > 0);
        let rust = ids(&self.state.closure(self.key(subject)));
        same(format_args!("closure {subject}"), rust, Some(self.picked(inside)))
    }

    fn pair(&self, subject: usize, audience: usize) -> Result<(), String> {
        let (s, a) = (self.key(subject), self.key(audience));
        let rust = level(self.state.effective_power(s, a));
        let document = self.evaluation.effective[subject][audience];
        same(format_args!("effective_power {subject} {audience}"), rust, document)?;
        let wanted = |d: usize| {
            let d = self.store.delegations.get(d);
            d.is_some_and(|d| d.subject == subject && d.audience == audience)
        };
        let rust = bytes(self.state.delegations_to(s, a).into_keys());
        same(format_args!("delegations_to {subject} {audience}"), rust, self.picked(wanted).delegations)
    }
}
