//! exhaust 2 | exhaust 3: every store of three keys with one or two delegations of all levels and up to two
//! revocations; with 3, also every store with three delegations of Read or Admin. The published State against
//! document 01 read plainly, in what evaluation decides. Stops at the first disagreement.
use oracle::{
    mistakes::Mistake,
    naive::{evaluate, Derivation},
    published::{insert, keys, level, Delegation, Digest, Identifier, Insertion, Power, State},
    store::{SmallDelegation, SmallRevocation, Store},
};
use std::process::exit;

const KEYS: usize = 3;

struct Every {
    keys: Vec<Identifier>,
    stores: u64,
    with_live_covered: u64,
}

impl Every {
    /// The delegations, with every choice of at most two revocations of them.
    fn revoked(&mut self, delegations: &[SmallDelegation]) {
        let named = |target| (0..KEYS).map(move |issuer| SmallRevocation { issuer, target });
        let all: Vec<SmallRevocation> = (0..delegations.len()).flat_map(named).collect();
        self.one(delegations, &[]);
        for (i, first) in all.iter().enumerate() {
            self.one(delegations, &[*first]);
            for second in &all[i + 1..] {
                self.one(delegations, &[*first, *second]);
            }
        }
    }

    fn one(&mut self, delegations: &[SmallDelegation], revocations: &[SmallRevocation]) {
        let (delegations, revocations) = (delegations.to_vec(), revocations.to_vec());
        let store = Store { keys: KEYS, delegations, revocations };
        let e = evaluate(&store, Derivation::AllPairs, Mistake::NoMistake);
        self.stores += 1;
        let live_covered = e.live.iter().zip(&e.excluded).any(|(live, n)| *live && n.is_some());
        self.with_live_covered += live_covered as u64;

        let state = self.state(&store);
        for (i, subject) in self.keys.iter().enumerate() {
            let members = state.members(*subject);
            for (j, audience) in self.keys.iter().enumerate() {
                let positive = level(state.positive_power(*subject, *audience));
                assert_eq!(positive, e.positive[i][j], "positive {i} {j}: {}", store.show());
                if i != j {
                    let effective = level(members.get(audience).copied());
                    assert_eq!(effective, e.effective[i][j], "members {i} {j}: {}", store.show());
                }
            }
        }
        for d in 0..store.delegations.len() {
            let digest = Digest::from([d as u8; 32]);
            let rust = (state.is_live(&digest), level(state.conveyed_power(&digest)));
            assert_eq!(rust, (e.live[d], e.conveyed[d]), "live, conveyed d{d}: {}", store.show());
        }
    }

    fn state(&self, store: &Store) -> State<()> {
        let mut state = State::new();
        for (i, d) in store.delegations.iter().enumerate() {
            let (audience, subject) = (self.keys[d.audience], self.keys[d.subject]);
            let payload = Delegation::new(audience, subject, Power::ALL[d.rank]);
            let (digest, issuer) = ([i as u8; 32], self.keys[d.issuer]);
            insert(&mut state, &Insertion::Delegation { digest, issuer, payload });
        }
        for (i, v) in store.revocations.iter().enumerate() {
            let (digest, issuer, revoked) = ([i as u8; 32], self.keys[v.issuer], [v.target as u8; 32]);
            insert(&mut state, &Insertion::Revocation { digest, issuer, revoked });
        }
        state
    }
}

fn every_delegation(ranks: &[usize]) -> Vec<SmallDelegation> {
    let mut out = vec![];
    for subject in 0..KEYS {
        for issuer in 0..KEYS {
            for audience in 0..KEYS {
                out.extend(ranks.iter().map(|&rank| SmallDelegation { issuer, audience, subject, rank }));
            }
        }
    }
    out
}

fn main() {
    let most: usize = match std::env::args().nth(1).as_deref() {
        Some("2") => 2,
        Some("3") => 3,
        _ => {
            eprintln!("exhaust 2 | exhaust 3");
            exit(2);
        }
    };
    let mut every = Every { keys: keys(9, KEYS), stores: 0, with_live_covered: 0 };
    let all = every_delegation(&[0, 1, 2, 3]);
    for (i, a) in all.iter().enumerate() {
        every.revoked(&[*a]);
        for b in &all[i..] {
            every.revoked(&[*a, *b]);
        }
    }
    if most == 3 {
        let all = every_delegation(&[1, 3]);
        for (i, a) in all.iter().enumerate() {
            for (j, b) in all[i..].iter().enumerate() {
                for c in &all[i + j..] {
                    every.revoked(&[*a, *b, *c]);
                }
            }
        }
    }
    let Every { stores, with_live_covered, .. } = every;
    println!("exhaust: {stores} stores, 0 differ ({with_live_covered} with a live covered delegation)");
}
