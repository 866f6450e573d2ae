//! claims COUNT SEED: statements about the rules that nobody should set out to prove if they are false, tried
//! on COUNT stores of each small recipe and on a twentieth of that of `medium`, by the plain reading (which
//! fuzz holds against the Rust). Stops at the first store that breaks one.
//!
//! - C1 answers about s rest on the closure of s alone (demand 3)
//! - C2 a further revocation only takes away (#111)
//! - C3 live rounds are at most covered + 1, cap rounds at most 3 * live covered + 1 (#111)
//! - C4 a revocation of a delegation that is not covered changes no answer
//! - C5 positive levels only rise with a further delegation
//! - C6 conveyed is at most the power and the issuer's effective level (contract.rs)
use oracle::{
    mistakes::Mistake,
    naive::{evaluate, Derivation, Evaluation, Levels},
    recipes::{case, Size, RECIPES},
    rng::Rng,
    store::{SmallRevocation, Store},
};
use std::process::exit;

fn read(store: &Store) -> Evaluation {
    evaluate(store, Derivation::Words, Mistake::NoMistake)
}

fn at_most(a: &[u8], b: &[u8]) -> bool {
    a.iter().zip(b).all(|(a, b)| a <= b)
}

fn levels_at_most(a: &Levels, b: &Levels) -> bool {
    a.iter().zip(b).all(|(a, b)| at_most(a, b))
}

/// C1: the store of the closure of `subject` alone, with the places that its delegations had.
fn closure(store: &Store, e: &Evaluation, subject: usize) -> (Store, Vec<usize>) {
    let inside = |d: &usize| e.positive[subject][store.delegations[*d].subject] > 0;
    let places: Vec<usize> = (0..store.delegations.len()).filter(inside).collect();
    let moved = |v: &SmallRevocation| {
        let target = places.iter().position(|d| *d == v.target)?;
        Some(SmallRevocation { target, ..*v })
    };
    let delegations = places.iter().map(|d| store.delegations[*d]).collect();
    let revocations = store.revocations.iter().filter_map(moved).collect();
    (Store { keys: store.keys, delegations, revocations }, places)
}

fn hold(store: &Store, r: &mut Rng) {
    let e = read(store);
    let count = store.delegations.len();
    let show = store.show();

    let subject = r.below(store.keys);
    let (part, places) = closure(store, &e, subject);
    let of_part = read(&part);
    assert_eq!(e.positive[subject], of_part.positive[subject], "C1 positive of {subject}: {show}");
    assert_eq!(e.effective[subject], of_part.effective[subject], "C1 effective of {subject}: {show}");
    for (i, d) in places.into_iter().enumerate() {
        let whole = (e.live[d], e.conveyed[d]);
        assert_eq!(whole, (of_part.live[i], of_part.conveyed[i]), "C1 d{d} of {subject}: {show}");
    }

    let mut more = store.clone();
    more.revocations.push(SmallRevocation { issuer: r.below(store.keys), target: r.below(count + 1) });
    let f = read(&more);
    let show_more = more.show();
    assert_eq!(e.positive, f.positive, "C2 positive: {show_more}");
    assert!((0..count).all(|d| f.live[d] <= e.live[d]), "C2 live: {show_more}");
    assert!(at_most(&f.conveyed, &e.conveyed), "C2 conveyed: {show_more}");
    assert!(levels_at_most(&f.effective, &e.effective), "C2 effective: {show_more}");

    let covered = (0..count).filter(|d| e.excluded[*d].is_some());
    let live_covered = covered.clone().filter(|d| e.live[*d]).count();
    assert!(e.rounds.live <= covered.count() + 1, "C3 live rounds: {show}");
    assert!(e.rounds.caps <= 3 * live_covered + 1, "C3 cap rounds: {show}");

    let mut fewer = store.clone();
    fewer.revocations.retain(|v| v.target < count && e.excluded[v.target].is_some());
    let f = read(&fewer);
    let same = e.live == f.live && e.conveyed == f.conveyed && e.effective == f.effective;
    assert!(same, "C4: {show}");

    let mut fewer = store.clone();
    fewer.delegations.pop();
    assert!(levels_at_most(&read(&fewer).positive, &e.positive), "C5: {show}");

    for (d, delegation) in store.delegations.iter().enumerate() {
        let issuers = e.effective[delegation.subject][delegation.issuer];
        assert!(e.conveyed[d] <= issuers.min(delegation.rank as u8 + 1), "C6 d{d}: {show}");
    }
}

fn main() {
    let args: Vec<u64> = std::env::args().skip(1).map(|a| a.parse().expect("a number")).collect();
    let [count, seed] = args.as_slice() else {
        eprintln!("claims COUNT SEED");
        exit(2);
    };
    let mut stores = 0;
    for recipe in RECIPES.iter().filter(|r| r.size != Size::Full) {
        let count = if recipe.size == Size::Small { *count } else { count.div_ceil(20) };
        for i in 0..count {
            let seed = case(*seed, i);
            hold(&recipe.make(seed), &mut Rng::new(seed));
        }
        stores += count;
    }
    println!("claims: {stores} stores, C1 to C6 hold on all");
}
