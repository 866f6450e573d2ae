//! Runs over many stores: the recipes against the published Rust, the oracle's twenty mistakes against the kernel.
use crate::{
    dialogue::Difference,
    published_store::by_bytes,
    visits::{visit, Asked, With},
};
use oracle::{
    mistakes::Mistake,
    published::{keys, Identifier},
    recipes::{case, Recipe, Size, RECIPES},
    store::Store,
    text,
};
use std::time::{Duration, Instant};

/// Keys that the published Rust accepts: one more than a store has, to be asked about and not held.
const POOL: usize = 65;

/// Reported before a recipe is given up.
const MOST_REPORTS: usize = 3;

/// How many stores of each size, over all recipes of the size. Of the full ones `full-ring`, on which the published
/// Rust takes longest by far, has a twentieth.
#[derive(Clone, Copy, Debug)]
pub struct Plan {
    pub small: u64,
    pub medium: u64,
    pub full: u64,
    pub seed: u64,
}

/// What came of the stores of a recipe.
#[derive(Clone, Debug)]
pub struct Tally {
    pub recipe: &'static str,
    pub stores: u64,
    pub requests: usize,
    pub took: Duration,
    /// Each in words, with its smallest store and a vector to replay it.
    pub differences: Vec<String>,
}

/// What is asked about a store of this size.
pub fn asked(size: Size) -> Asked {
    match size {
        Size::Small => Asked::ALL,
        Size::Medium => Asked { pairs: 50, keys: 30, middle: 5 },
        Size::Full => Asked { pairs: 4, keys: 10, middle: 2 },
    }
}

fn pool() -> Vec<Identifier> {
    keys(7, POOL)
}

/// Every recipe in turn. `progress` hears of each recipe's tally so far, now and then.
pub fn run(plan: Plan, mut progress: impl FnMut(&Tally)) -> Vec<Tally> {
    let of = |size: Size| RECIPES.iter().filter(move |recipe| recipe.size == size);
    let mut out = vec![];
    for (size, count) in [(Size::Small, plan.small), (Size::Medium, plan.medium), (Size::Full, plan.full)] {
        let recipes = of(size).count() as u64;
        let rings = if size == Size::Full { count.div_ceil(20) } else { 0 };
        for recipe in of(size) {
            let count = match (recipe.name, size) {
                ("full-ring", _) => rings,
                (_, Size::Full) => (count - rings).div_ceil(recipes - 1),
                _ => count.div_ceil(recipes),
            };
            out.push(run_recipe(recipe, count, plan.seed, &mut progress));
        }
    }
    out
}

fn run_recipe(recipe: &Recipe, count: u64, seed: u64, progress: &mut impl FnMut(&Tally)) -> Tally {
    let pool = pool();
    let known = by_bytes(&pool);
    let with = With::Published(&known);
    let asked = asked(recipe.size);
    let (start, mut told) = (Instant::now(), Instant::now());
    let mut tally =
        Tally { recipe: recipe.name, stores: 0, requests: 0, took: Duration::ZERO, differences: vec![] };
    while tally.stores < count && tally.differences.len() < MOST_REPORTS {
        let seed = case(seed, tally.stores);
        let store = recipe.make(seed);
        tally.stores += 1;
        match visit(&store, &pool, seed, with, asked) {
            Ok(requests) => tally.requests += requests,
            Err(difference) => {
                tally.differences.push(report(recipe.name, store, &pool, seed, with, difference))
            }
        }
        tally.took = start.elapsed();
        if told.elapsed() > Duration::from_secs(5) {
            told = Instant::now();
            progress(&tally);
        }
    }
    progress(&tally);
    tally
}

/// The difference in words, the smallest store that shows one, and that store as a vector with the published Rust's
/// answers, in the form of oracle/VECTORS.md.
fn report(
    name: &str,
    store: Store,
    pool: &[Identifier],
    seed: u64,
    with: With<'_>,
    difference: Difference,
) -> String {
    let differs = |store: &Store| visit(store, pool, seed, with, Asked::ALL).is_err();
    let found = store.show();
    // what a sample of the questions found, all of them may find in a smaller store
    let least = if differs(&store) { store.minimize(&differs) } else { store };
    let says = visit(&least, pool, seed, with, Asked::ALL).err().unwrap_or(difference);
    let vector = text::store(&format!("{name}-{seed}"), &least, pool, seed, 1);
    format!("DIFFERENCE {name} {seed}: {says}\n  found in: {found}\n  smallest: {}\n{vector}", least.show())
}

/// What came of a deliberate mistake.
#[derive(Clone, Debug)]
pub struct Noticed {
    pub mistake: Mistake,
    pub says: &'static str,
    /// How many stores were tried, and how many of them the kernel and the mistaken reading answer differently.
    pub tried: u64,
    pub differ: u64,
    /// The smallest store that shows the first difference, and the difference.
    pub smallest: Option<(String, Difference)>,
}

impl Noticed {
    /// A mistake that changes an answer has to be noticed, and a harmless one not.
    pub fn is_right(&self) -> bool {
        (self.differ == 0) == self.mistake.is_harmless()
    }
}

/// The kernel against the mistaken plain reading, on stores of every small recipe in turn: until so many differ, or
/// so many of each recipe were tried.
pub fn mistaken(mistake: Mistake, most: u64, enough: u64, seed: u64) -> Noticed {
    let pool = pool();
    let with = With::Plain(mistake);
    let (_, says) = Mistake::ALL.into_iter().find(|(one, _)| *one == mistake).expect("a mistake");
    let mut out = Noticed { mistake, says, tried: 0, differ: 0, smallest: None };
    let small: Vec<&Recipe> = RECIPES.iter().filter(|recipe| recipe.size == Size::Small).collect();
    for i in 0..most {
        for recipe in &small {
            if out.differ >= enough {
                return out;
            }
            let seed = case(seed, i);
            let store = recipe.make(seed);
            out.tried += 1;
            if visit(&store, &pool, seed, with, Asked::ALL).is_ok() {
                continue;
            }
            out.differ += 1;
            if out.smallest.is_none() {
                let least = store.minimize(&|store| visit(store, &pool, seed, with, Asked::ALL).is_err());
                let difference = visit(&least, &pool, seed, with, Asked::ALL).expect_err("it still differs");
                out.smallest = Some((least.show(), difference));
            }
        }
    }
    out
}
