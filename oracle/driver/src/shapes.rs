//! The shapes of stores, each with its measures as arguments. A shape is there because some rule shows only
//! on it; recipes.rs picks the measures. Key 0 is the subject that matters where a shape has one.
use crate::{
    rng::Rng,
    store::{SmallDelegation, SmallRevocation, Store, UNHELD},
};

pub const MOST_DELEGATIONS: usize = 128;
pub const MOST_REVOCATIONS: usize = 64;

fn delegation(issuer: usize, audience: usize, subject: usize, rank: usize) -> SmallDelegation {
    SmallDelegation { issuer, audience, subject, rank }
}

fn revocation(issuer: usize, target: usize) -> SmallRevocation {
    SmallRevocation { issuer, target }
}

/// Who stands over whom at any level, a word of keys for each subject, kept up as delegations arrive.
struct Standing(Vec<u64>);

impl Standing {
    fn new(keys: usize) -> Self {
        Standing((0..keys).map(|i| 1 << i).collect())
    }

    fn close(&mut self, delegations: &[SmallDelegation]) {
        loop {
            let before = self.0.clone();
            for d in delegations {
                if self.0[d.subject] >> d.issuer & 1 == 1 {
                    self.0[d.subject] |= 1 << d.audience;
                }
            }
            for r in 0..self.0.len() {
                for u in self.over(r) {
                    self.0[r] |= self.0[u];
                }
            }
            if before == self.0 {
                return;
            }
        }
    }

    fn over(&self, subject: usize) -> Vec<usize> {
        (0..self.0.len()).filter(|i| self.0[subject] >> i & 1 == 1).collect()
    }
}

/// The measures of `society`.
pub struct Society {
    /// The first keys are only subjects, the next subjects and audiences, the last audiences and issuers;
    /// one in twenty breaks that.
    pub documents: usize,
    pub groups: usize,
    pub people: usize,
    pub delegations: usize,
    pub revocations: usize,
    /// Percent of delegations whose issuer stands over the subject when they arrive.
    pub grounded: usize,
    /// Percent of those whose issuer is the subject itself.
    pub root: usize,
    /// Weights of the four ranks.
    pub ranks: [usize; 4],
    /// Percent of revocations by somebody who stands over the target's subject.
    pub revoker_stands: usize,
    /// Percent of delegations that repeat an earlier one's issuer, audience and subject.
    pub repeated: usize,
}

fn weighted(r: &mut Rng, weights: &[usize; 4]) -> usize {
    let mut at = r.below(weights.iter().sum());
    let mut rank = 0;
    while at >= weights[rank] {
        at -= weights[rank];
        rank += 1;
    }
    rank
}

/// Documents, groups and people, most of whose delegations have ground to stand on.
pub fn society(r: &mut Rng, m: &Society) -> Store {
    let keys = m.documents + m.groups + m.people;
    let subjects = m.documents + m.groups;
    let mut s = Store { keys, ..Default::default() };
    let mut standing = Standing::new(keys);
    while s.delegations.len() < m.delegations {
        let rank = weighted(r, &m.ranks);
        if !s.delegations.is_empty() && r.chance(m.repeated) {
            let earlier = r.pick(&s.delegations);
            s.delegations.push(SmallDelegation { rank, ..earlier });
            continue;
        }
        let subject = if r.chance(95) { r.below(subjects) } else { r.below(keys) };
        let issuer = match (r.chance(m.grounded), r.chance(m.root)) {
            (true, true) => subject,
            (true, false) => r.pick(&standing.over(subject)),
            (false, _) => r.below(keys),
        };
        let audience = if r.chance(95) { r.range(m.documents, keys - 1) } else { r.below(keys) };
        s.delegations.push(delegation(issuer, audience, subject, rank));
        standing.close(&s.delegations);
    }
    for _ in 0..m.revocations {
        if r.chance(2) {
            let unheld = s.delegations.len() + r.below(UNHELD);
            s.revocations.push(revocation(r.below(keys), unheld));
            continue;
        }
        let target = r.below(s.delegations.len());
        let d = s.delegations[target];
        let issuer = match (r.chance(m.revoker_stands), r.below(12)) {
            (false, _) => r.below(keys),
            (true, 0) => d.issuer,
            (true, 1) => d.audience,
            (true, 2) => d.subject,
            (true, _) => r.pick(&standing.over(d.subject)),
        };
        s.revocations.push(revocation(issuer, target));
    }
    s
}

/// Anything by anybody over anything.
pub fn uniform(r: &mut Rng, keys: usize, delegations: usize, revocations: usize) -> Store {
    let any = |r: &mut Rng| delegation(r.below(keys), r.below(keys), r.below(keys), r.below(4));
    Store {
        keys,
        delegations: (0..delegations).map(|_| any(r)).collect(),
        revocations: (0..revocations)
            .map(|_| revocation(r.below(keys), r.below(delegations + UNHELD)))
            .collect(),
    }
}

/// S9 over and over on one subject, joined at random: M stands over S through G, which the revoker K
/// administers, and again, lower, by an edge that the exclusion leaves; K names M's own delegations.
pub fn s9(r: &mut Rng, gadgets: usize, noise: usize) -> Store {
    let mut s = Store { keys: 1, ..Default::default() };
    let mut holders = vec![0];
    let mut groups = vec![];
    let mut revokers = vec![];
    for _ in 0..gadgets {
        let mut fresh = || {
            s.keys += 1;
            s.keys - 1
        };
        let old_holder = holders.len() > 4 && r.chance(50);
        let old_group = old_holder && r.chance(60);
        let group = if old_group { r.pick(&groups) } else { fresh() };
        let holder = if old_holder { r.pick(&holders) } else { fresh() };
        let (revoker, last) = (fresh(), fresh());
        groups.push(group);
        revokers.push(revoker);
        s.delegations.push(delegation(r.pick(&holders), group, 0, r.range(1, 3)));
        s.delegations.push(delegation(group, revoker, group, 3));
        s.delegations.push(delegation(group, holder, group, r.range(1, 3)));
        if r.chance(80) {
            s.delegations.push(delegation(r.pick(&holders), holder, 0, r.below(4)));
        }
        let by = if r.chance(70) { revoker } else { r.pick(&revokers) };
        s.revocations.push(revocation(by, s.delegations.len()));
        s.delegations.push(delegation(holder, last, 0, r.range(1, 3)));
        if r.chance(25) {
            s.revocations.push(revocation(r.pick(&revokers), r.below(s.delegations.len())));
        }
        holders.extend([holder, last]);
    }
    for _ in 0..noise {
        let subject = if r.chance(60) { 0 } else { r.pick(&groups) };
        s.delegations.push(delegation(r.below(s.keys), r.below(s.keys), subject, r.below(4)));
        if r.chance(50) {
            s.revocations.push(revocation(r.pick(&revokers), r.below(s.delegations.len())));
        }
    }
    within_limits(s)
}

/// A line S > M0 > M1 > .. whose links are each named by a revoker with Relay over S: one live round and at
/// least one cap round a link. `stairs` adds second ways in at lower levels. The decoys are covered
/// delegations by revokers, tried again in every round.
pub fn chain(r: &mut Rng, links: usize, revokers: usize, decoys: usize, stairs: bool) -> Store {
    let revoker = |i: usize| 1 + i % revokers;
    let first = 1 + revokers;
    let mut s = Store { keys: first + links + 1, ..Default::default() };
    for i in 0..revokers {
        s.delegations.push(delegation(0, revoker(i), 0, 0));
    }
    s.delegations.push(delegation(0, first, 0, if stairs { 2 } else { 3 }));
    for i in 0..links {
        s.revocations.push(revocation(revoker(i), s.delegations.len()));
        s.delegations.push(delegation(first + i, first + i + 1, 0, 3));
        if stairs && r.chance(60) {
            s.delegations.push(delegation(first + r.below(i + 1), first + i + 1, 0, r.below(3)));
        }
    }
    for i in 0..decoys {
        s.revocations.push(revocation(revoker(i), s.delegations.len()));
        s.delegations.push(delegation(revoker(i + 1), 1 + r.below(s.keys - 1), 0, 3));
    }
    within_limits(s)
}

/// Groups in a ring, each a member of the next, with people in them and revocations across: many roots whose
/// levels lift each other.
pub fn ring(r: &mut Rng, groups: usize, people: usize, extra: usize, revocations: usize) -> Store {
    let group = |i: usize| 1 + i % groups;
    let person = |i: usize| 1 + groups + i % people;
    let mut s = Store { keys: 1 + groups + people, ..Default::default() };
    for i in 0..groups {
        s.delegations.push(delegation(group(i), group(i + 1), group(i), r.below(4)));
        if r.chance(70) {
            s.delegations.push(delegation(0, group(i), 0, r.below(4)));
        }
        s.delegations.push(delegation(group(i), person(r.below(people)), group(i), r.range(2, 3)));
    }
    for _ in 0..extra {
        let issuer = person(r.below(people));
        let audience = if r.chance(70) { person(r.below(people)) } else { group(r.below(groups)) };
        s.delegations.push(delegation(issuer, audience, r.below(1 + groups), r.range(1, 3)));
    }
    for _ in 0..revocations {
        let by = if r.chance(80) { person(r.below(people)) } else { r.below(s.keys) };
        s.revocations.push(revocation(by, r.below(s.delegations.len())));
    }
    within_limits(s)
}

/// Holders who pass the subject on to each other, each standing over it high only through revokers (Edit,
/// never Admin, over the subject) and sometimes low on their own; the revokers name those edges. An edge may
/// then avoid each of two revokers and not both, and caps differ from powers nearly everywhere.
pub fn cross(r: &mut Rng, revokers: usize, holders: usize, edges: usize) -> Store {
    let revoker = |i: usize| 1 + i;
    let holder = |i: usize| 1 + revokers + i;
    let mut s = Store { keys: 1 + revokers + holders, ..Default::default() };
    for i in 0..revokers {
        let rank = if r.chance(85) { 2 } else { r.below(3) };
        s.delegations.push(delegation(0, revoker(i), 0, rank));
    }
    let low = r.below(90);
    for i in 0..holders {
        for _ in 0..r.range(1, 2) {
            s.delegations.push(delegation(revoker(r.below(revokers)), holder(i), 0, r.range(1, 3)));
        }
        if r.chance(low) {
            s.delegations.push(delegation(0, holder(i), 0, r.below(2)));
        }
    }
    s.delegations.truncate(90); // room for edges in a full store
    if r.chance(30) {
        // the last holder is a group that the first revoker administers
        let group = holder(holders - 1);
        s.delegations.push(delegation(group, revoker(0), group, 3));
        s.delegations.push(delegation(group, holder(0), group, r.range(1, 3)));
    }
    for _ in 0..edges {
        let (a, b) = (r.below(holders), r.below(holders));
        if a == b {
            continue;
        }
        for _ in 0..r.pick(&[0, 1, 1, 1, 2, 2, 3]) {
            s.revocations.push(revocation(revoker(r.below(revokers)), s.delegations.len()));
        }
        s.delegations.push(delegation(holder(a), holder(b), 0, r.range(1, 3)));
    }
    within_limits(s)
}

/// Rings of holders over the subject, each link named by the revoker through whom its issuer stands. Without
/// that revoker a link's issuer stands only by the link before it: such a ring is dead in the least live set
/// and alive in the greatest. With one way in of its own it lives, and the least caps hold all of it to that
/// way's level, where the greatest would not.
pub fn knot(r: &mut Rng, rings: usize, length: usize, noise: usize) -> Store {
    let mut s = Store { keys: 1, ..Default::default() };
    for _ in 0..rings {
        let first = s.keys;
        let revoker = |i: usize| first + i % length;
        let holder = |i: usize| first + length + i % length;
        s.keys += 2 * length;
        for i in 0..length {
            s.delegations.push(delegation(0, revoker(i), 0, 2));
            s.delegations.push(delegation(revoker(i), holder(i), 0, r.range(2, 3)));
            if r.chance(90) {
                s.revocations.push(revocation(revoker(i), s.delegations.len()));
            }
            s.delegations.push(delegation(holder(i), holder(i + 1), 0, r.range(1, 3)));
        }
        if r.chance(60) {
            let from = if r.chance(70) { 0 } else { r.below(first) };
            s.delegations.push(delegation(from, holder(r.below(length)), 0, r.below(2)));
        }
    }
    for _ in 0..noise {
        s.delegations.push(delegation(r.below(s.keys), r.below(s.keys), 0, r.below(4)));
        if r.chance(50) {
            s.revocations.push(revocation(r.below(s.keys), r.below(s.delegations.len())));
        }
    }
    within_limits(s)
}

/// What stands past document 01's limits is left off.
fn within_limits(mut s: Store) -> Store {
    s.delegations.truncate(MOST_DELEGATIONS);
    let held = s.delegations.len();
    s.revocations.retain(|v| v.target < held);
    s.revocations.truncate(MOST_REVOCATIONS);
    s
}
