//! Document 01's rules and nothing else: D1 to D3 over all pairs until nothing rises, one derivation for
//! each covered delegation. It follows the document's sentences and has none of the Rust's shortcuts: no
//! contexts, no early rejection. A level is 0 for none, then one more than the rank; so is a grade, c(d),
//! which is 0 outside E.
use crate::{
    mistakes::Mistake::{self, *},
    published::Rounds,
    store::{SmallDelegation, Store},
};

pub const RELAY: u8 = 1;
pub const EDIT: u8 = 3;
pub const ADMIN: u8 = 4;

/// `levels[r][x]` is the level of x over r.
pub type Levels = Vec<Vec<u8>>;

#[derive(Clone, Debug, PartialEq, Eq)]
pub struct Evaluation {
    pub positive: Levels,
    pub effective: Levels,
    /// N(d) for a covered delegation, by key.
    pub excluded: Vec<Option<Vec<bool>>>,
    pub live: Vec<bool>,
    /// c(d) of the effective levels: the cap of a live covered one, the power of another live one.
    pub grades: Vec<u8>,
    pub conveyed: Vec<u8>,
    pub rounds: Rounds,
}

/// How the levels are derived: both give the same, and are compared.
#[derive(Clone, Copy, PartialEq, Eq)]
pub enum Derivation {
    AllPairs,
    /// For large stores, and without mistakes.
    Words,
}

pub fn evaluate(store: &Store, derivation: Derivation, mistake: Mistake) -> Evaluation {
    let reading = Reading::new(store, derivation, mistake);
    let revokers = reading.revokers();
    let excluded = reading.coverage(&revokers);
    let (live, live_rounds) = reading.live(&revokers, &excluded);
    let (grades, cap_rounds) = reading.caps(&excluded, &live);
    // Effective: E live, c as for caps, nothing excluded.
    let effective = reading.levels(&grades, None);
    let conveyed = reading.conveyed(&excluded, &live, &grades, &effective);
    let rounds = Rounds { live: live_rounds, caps: cap_rounds };
    Evaluation { positive: reading.positive, effective, excluded, live, grades, conveyed, rounds }
}

/// A store, read in one way.
struct Reading<'a> {
    store: &'a Store,
    derivation: Derivation,
    mistake: Mistake,
    /// Of each delegation, as a grade.
    power: Vec<u8>,
    positive: Levels,
    is_subject: Vec<bool>,
}

impl<'a> Reading<'a> {
    fn new(store: &'a Store, derivation: Derivation, mistake: Mistake) -> Self {
        let power = store.delegations.iter().map(|d| d.rank as u8 + 1).collect();
        let is_subject = |x: usize| store.delegations.iter().any(|d| d.subject == x);
        let is_subject = (0..=store.keys).map(is_subject).collect();
        let mut reading = Reading { store, derivation, mistake, power, positive: vec![], is_subject };
        // Positive: E all held, N empty, c the stated power.
        reading.positive = reading.levels(&reading.power, None);
        reading
    }

    fn levels(&self, grades: &[u8], excluded: Option<&[bool]>) -> Levels {
        match self.derivation {
            Derivation::AllPairs => all_pairs(self.store, grades, excluded, self.mistake),
            Derivation::Words => {
                assert_eq!(self.mistake, NoMistake, "mistakes are made over all pairs");
                by_words(self.store, grades, excluded)
            }
        }
    }

    /// The level of d's issuer over d's subject.
    fn issuers(&self, d: usize, levels: &Levels) -> u8 {
        let d = self.store.delegations[d];
        levels[d.subject][d.issuer]
    }

    /// The issuers of the held revocations that name each delegation.
    fn revokers(&self) -> Vec<Vec<usize>> {
        let naming = |d: usize| self.store.revocations.iter().filter(move |v| v.target == d);
        (0..self.power.len()).map(|d| naming(d).map(|v| v.issuer).collect()).collect()
    }

    /// The revokers with every subject over which one of them stands positively at exactly Admin.
    fn exclusion(&self, revokers: &[usize]) -> Vec<bool> {
        let taken = |x: usize, revoker: usize| {
            let level = self.positive[x][revoker];
            let enough = if self.mistake == ReachAtEdit { EDIT } else { ADMIN };
            let reach = self.is_subject[x] && level >= enough;
            match self.mistake {
                RevokersOnly => revoker == x,
                ReachWithoutRevoker => revoker != x && reach,
                _ => revoker == x || reach,
            }
        };
        (0..=self.store.keys).map(|x| revokers.iter().any(|k| taken(x, *k))).collect()
    }

    /// N(d) where d is covered: where some key of N(d) stands positively over d's subject.
    fn coverage(&self, revokers: &[Vec<usize>]) -> Vec<Option<Vec<bool>>> {
        let enough = if self.mistake == CoverageAtAdmin { ADMIN } else { RELAY };
        let one = |(d, revokers): (usize, &Vec<usize>)| {
            let n = self.exclusion(revokers);
            let over = &self.positive[self.store.delegations[d].subject];
            let covers = n.iter().zip(over).any(|(excluded, level)| *excluded && *level >= enough);
            let revoked = !revokers.is_empty();
            (revoked && (covers || self.mistake == RevokedIsCovered)).then_some(n)
        };
        revokers.iter().enumerate().map(one).collect()
    }

    /// c(d) is the power in E, and E is what is marked.
    fn grades(&self, usable: &[bool]) -> Vec<u8> {
        let grade = |(usable, power): (&bool, &u8)| if *usable { *power } else { 0 };
        usable.iter().zip(&self.power).map(grade).collect()
    }

    /// The least set of live covered delegations, then which uncovered ones are live with it; and the rounds
    /// of the first: all judged against the state before, the last adding nothing.
    fn live(&self, revokers: &[Vec<usize>], excluded: &[Option<Vec<bool>>]) -> (Vec<bool>, usize) {
        let greatest = self.mistake == GreatestLiveSet;
        let mut usable: Vec<bool> = excluded.iter().map(|n| n.is_none() || greatest).collect();
        let mut rounds = 0;
        loop {
            rounds += 1;
            let grades = self.grades(&usable);
            let mut next = usable.clone();
            for (d, n) in excluded.iter().enumerate() {
                let Some(n) = n else { continue };
                if usable[d] && !greatest {
                    continue; // the least set only grows
                }
                let by_audience = revokers[d].contains(&self.store.delegations[d].audience);
                next[d] = self.mistake != CoveredIsDead
                    && (!by_audience || self.mistake == NoAudienceCheck)
                    && match self.mistake {
                        RevokersApart => {
                            revokers[d].iter().all(|k| self.stands(d, &grades, &self.exclusion(&[*k])))
                        }
                        _ => self.stands(d, &grades, n),
                    };
            }
            let same = next == usable;
            usable = next;
            if same || self.mistake == OneLiveRound {
                break;
            }
        }
        let levels = self.levels(&self.grades(&usable), None);
        let grounded = |d: usize| self.issuers(d, &levels) > 0 || self.mistake == UncoveredIsLive;
        let live = |(d, usable): (usize, &bool)| *usable && (excluded[d].is_some() || grounded(d));
        (usable.iter().enumerate().map(live).collect(), rounds)
    }

    /// Whether d's issuer stands over d's subject outside N(d), neither being in it.
    fn stands(&self, d: usize, grades: &[u8], n: &[bool]) -> bool {
        let (issuer, subject) = (self.store.delegations[d].issuer, self.store.delegations[d].subject);
        let outside = match self.mistake {
            EndpointsNotTested => true,
            SubjectNotExcluded => !n[issuer],
            _ => !n[issuer] && !n[subject],
        };
        outside && self.issuers(d, &self.levels(grades, Some(n))) > 0
    }

    /// c(d) with the least caps, risen from Relay, and their rounds.
    fn caps(&self, excluded: &[Option<Vec<bool>>], live: &[bool]) -> (Vec<u8>, usize) {
        let flat = self.grades(live);
        if self.mistake == NoCaps {
            return (flat, 0);
        }
        let capped: Vec<usize> = (0..live.len()).filter(|d| live[*d] && excluded[*d].is_some()).collect();
        let mut grades = flat.clone();
        if self.mistake != CapsFromTheTop {
            capped.iter().for_each(|d| grades[*d] = RELAY);
        }
        let mut rounds = 0;
        loop {
            rounds += 1;
            let within = if self.mistake == CapsNotPassedOn { &flat } else { &grades };
            let mut next = grades.clone();
            for d in &capped {
                let levels = self.levels(within, excluded[*d].as_deref());
                next[*d] = self.power[*d].min(self.issuers(*d, &levels)).max(RELAY);
            }
            let same = next == grades;
            grades = next;
            if same || self.mistake == OneCapRound {
                return (grades, rounds);
            }
        }
    }

    /// By a live one: its cap if covered, else min(power, issuer's effective level); otherwise none.
    fn conveyed(
        &self,
        excluded: &[Option<Vec<bool>>],
        live: &[bool],
        grades: &[u8],
        effective: &Levels,
    ) -> Vec<u8> {
        let one = |d: usize| match (live[d], excluded[d].is_some() && self.mistake != ConveyedIgnoresCap) {
            (false, _) => 0,
            (true, true) => grades[d],
            (true, false) => self.power[d].min(self.issuers(d, effective)),
        };
        (0..live.len()).map(one).collect()
    }
}

/// The greatest derivable levels.
#[allow(clippy::needless_range_loop)] // r, u and x are the rules' own letters
pub fn all_pairs(store: &Store, grades: &[u8], excluded: Option<&[bool]>, mistake: Mistake) -> Levels {
    let keys = store.keys + 1;
    let out = |x: usize| excluded.is_some_and(|n| n[x]);
    let mut levels = vec![vec![0; keys]; keys];
    let mut changed = true;
    let raise = |level: &mut u8, to: u8, changed: &mut bool| {
        if *level < to {
            *level = to;
            *changed = true;
        }
    };
    while changed {
        changed = false;
        for r in 0..keys {
            if !out(r) || mistake == SubjectNotExcluded {
                raise(&mut levels[r][r], ADMIN, &mut changed); // D1
            }
        }
        for (d, grade) in store.delegations.iter().zip(grades) {
            if !out(d.audience) || mistake == AudiencesNotExcluded {
                let to = levels[d.subject][d.issuer].min(*grade);
                raise(&mut levels[d.subject][d.audience], to, &mut changed); // D2
            }
        }
        for r in 0..keys {
            for u in (0..keys).filter(|u| *u != r) {
                let over_r = levels[r][u];
                if over_r == 0 {
                    continue;
                }
                for x in 0..keys {
                    let over_u = match mistake {
                        ShallowComposition if out(x) => 0,
                        ShallowComposition => own_edges(store, grades, u, x),
                        _ => levels[u][x],
                    };
                    raise(&mut levels[r][x], over_r.min(over_u), &mut changed); // D3
                }
            }
        }
    }
    levels
}

/// The highest grade of a delegation from u over u to x, as `ShallowComposition` has D3.
fn own_edges(store: &Store, grades: &[u8], u: usize, x: usize) -> u8 {
    let own = |d: &SmallDelegation| d.subject == u && d.issuer == u && d.audience == x;
    let edges = store.delegations.iter().zip(grades).filter(|(d, _)| own(d));
    edges.map(|(_, grade)| *grade).max().unwrap_or(0)
}

/// The same levels, a word of keys for each: bit x of `words[r]` says that x stands over r at `level` or
/// more. A minimum is at least `level` exactly when both its sides are, so each level closes by itself.
pub fn by_words(store: &Store, grades: &[u8], excluded: Option<&[bool]>) -> Levels {
    let keys = store.keys + 1;
    let out = |x: usize| excluded.is_some_and(|n| n[x]);
    let mut levels = vec![vec![0; keys]; keys];
    for level in RELAY..=ADMIN {
        let mut words: Vec<u128> = (0..keys).map(|r| (!out(r) as u128) << r).collect(); // D1
        loop {
            let before = words.clone();
            for (d, grade) in store.delegations.iter().zip(grades) {
                if *grade >= level && words[d.subject] >> d.issuer & 1 == 1 && !out(d.audience) {
                    words[d.subject] |= 1 << d.audience; // D2
                }
            }
            for r in 0..keys {
                let mut left = words[r];
                while left != 0 {
                    words[r] |= words[left.trailing_zeros() as usize]; // D3; u = r adds nothing
                    left &= left - 1;
                }
            }
            if before == words {
                break;
            }
        }
        for r in 0..keys {
            for x in (0..keys).filter(|x| words[r] >> x & 1 == 1) {
                levels[r][x] = level;
            }
        }
    }
    levels
}
