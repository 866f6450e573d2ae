//! mistakes COUNT SEED: which specimens and which of COUNT stores of each small recipe notice each deliberate
//! mistake, with the smallest store found. For that store the comparison itself is run with the mistaken
//! reading, and must report it. Exits 1 if a mistake goes unnoticed, or a harmless one is noticed.
use oracle::{
    compare::{compare, Asked},
    mistakes::Mistake,
    naive::{evaluate, Derivation, Evaluation},
    published::keys,
    recipes::{case, Size, RECIPES},
    specimens::specimens,
    store::Store,
};
use std::process::exit;

/// Of each mistake and recipe, so many stores are made smaller.
const MINIMIZED: usize = 3;

fn read(store: &Store, mistake: Mistake) -> Evaluation {
    evaluate(store, Derivation::AllPairs, mistake)
}

fn answers_differ(a: &Evaluation, b: &Evaluation) -> bool {
    let differ = a.positive != b.positive || a.effective != b.effective;
    differ || a.live != b.live || a.conveyed != b.conveyed
}

fn size(store: &Store) -> usize {
    store.delegations.len() + store.revocations.len()
}

#[derive(Default)]
struct Noticed {
    by: Vec<String>,
    smallest: Option<Store>,
}

fn noticed(mistake: Mistake, count: u64, seed: u64) -> Noticed {
    let mut out = Noticed::default();
    let differs = |s: &Store| answers_differ(&read(s, Mistake::NoMistake), &read(s, mistake));
    let specimens = specimens().into_iter().filter(|(_, s)| differs(s));
    out.by.extend(specimens.map(|(name, _)| name.to_string()));
    for recipe in RECIPES.iter().filter(|r| r.size == Size::Small) {
        let mut stores = 0;
        for i in 0..count {
            let store = recipe.make(case(seed, i));
            if !differs(&store) {
                continue;
            }
            stores += 1;
            if stores <= MINIMIZED {
                let least = store.minimize(&differs);
                if out.smallest.as_ref().is_none_or(|s| size(&least) < size(s)) {
                    out.smallest = Some(least);
                }
            }
        }
        if stores > 0 {
            out.by.push(format!("{} {stores}", recipe.name));
        }
    }
    out
}

fn main() {
    let args: Vec<u64> = std::env::args().skip(1).map(|a| a.parse().expect("a number")).collect();
    let [count, seed] = args.as_slice() else {
        eprintln!("mistakes COUNT SEED");
        exit(2);
    };
    let pool = keys(7, 65);
    let (mut seen, mut harmless, mut wrong) = (0, 0, 0);
    for (number, (mistake, says)) in Mistake::ALL.into_iter().enumerate() {
        let Noticed { by, smallest } = noticed(mistake, *count, *seed);
        println!("{:2} {says}: {}", number + 1, by.join(", "));
        let reported = smallest.map(|store| {
            let report = compare(&store, &read(&store, mistake), &pool, *seed, Asked::All).err();
            println!("   smallest: {}; {}", store.show(), report.as_deref().unwrap_or("NOT REPORTED"));
            report.is_some()
        });
        match (mistake.is_harmless(), reported) {
            (false, Some(true)) => seen += 1,
            (true, None) => harmless += 1,
            _ => wrong += 1,
        }
    }
    println!(
        "mistakes: {seen} noticed, {harmless} that change no answer, {wrong} not as expected \
         ({count} stores of each small recipe)"
    );
    exit((wrong > 0) as i32);
}
