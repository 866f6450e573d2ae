//! fuzz RECIPE COUNT SEED: COUNT stores of a recipe, the published State against document 01 read plainly.
//! RECIPE may also be `small`, `medium` or `full`: all of that size; full-ring, whose stores cost most, has a
//! quarter of COUNT. Exits 1 on any disagreement, which it prints with the smallest store that shows it.
use oracle::{
    compare::{compare, Asked},
    mistakes::Mistake,
    naive::{all_pairs, evaluate, Derivation, Evaluation},
    published::{keys, Identifier, Rounds},
    recipes::{case, chosen, Recipe, Size},
    store::Store,
};
use std::process::exit;

/// Reported before it gives up on a recipe.
const MOST_REPORTS: u64 = 5;

/// What the stores of a recipe had in them: a recipe is worth what it brings about.
#[derive(Default)]
struct Tally {
    covered: usize,
    live_covered: usize,
    /// Live covered ones whose cap is under both the power and the issuer's positive level.
    capped: usize,
    most_rounds: Rounds,
    most_exclusions: usize,
}

impl Tally {
    fn add(&mut self, store: &Store, e: &Evaluation) {
        for (d, delegation) in store.delegations.iter().enumerate() {
            let covered = e.excluded[d].is_some();
            let issuers = e.positive[delegation.subject][delegation.issuer];
            self.covered += covered as usize;
            self.live_covered += (covered && e.live[d]) as usize;
            let plain = issuers.min(delegation.rank as u8 + 1);
            self.capped += (covered && e.live[d] && e.grades[d] < plain) as usize;
        }
        self.most_rounds.live = self.most_rounds.live.max(e.rounds.live);
        self.most_rounds.caps = self.most_rounds.caps.max(e.rounds.caps);
        let mut exclusions: Vec<_> = e.excluded.iter().flatten().collect();
        exclusions.sort();
        exclusions.dedup();
        self.most_exclusions = self.most_exclusions.max(exclusions.len());
    }
}

fn plainly(store: &Store, derivation: Derivation) -> Evaluation {
    evaluate(store, derivation, Mistake::NoMistake)
}

/// The disagreement about one store, if there is any. Larger stores are read by words, with their positive
/// levels derived over all pairs as well; one small store in 64 is read both ways.
fn disagreement(
    recipe: &Recipe,
    store: &Store,
    pool: &[Identifier],
    seed: u64,
) -> Result<Evaluation, String> {
    let small = recipe.size == Size::Small;
    let e = plainly(store, if small { Derivation::AllPairs } else { Derivation::Words });
    if small && seed & 63 == 0 && e != plainly(store, Derivation::Words) {
        return Err("the two derivations differ".into());
    }
    if !small {
        let power: Vec<u8> = store.delegations.iter().map(|d| d.rank as u8 + 1).collect();
        if e.positive != all_pairs(store, &power, None, Mistake::NoMistake) {
            return Err("the two derivations differ in the positive levels".into());
        }
    }
    let rounds = compare(store, &e, pool, seed, if small { Asked::All } else { Asked::Sample })?;
    if rounds != e.rounds {
        return Err(format!("rounds: rust {rounds:?}, document {:?}", e.rounds));
    }
    Ok(e)
}

/// How many stores were compared, and how many of them differ.
fn run(recipe: &Recipe, count: u64, seed: u64) -> (u64, u64) {
    let pool = keys(7, 65);
    let mut tally = Tally::default();
    let (mut stores, mut differ) = (0, 0);
    while stores < count && differ < MOST_REPORTS {
        let seed = case(seed, stores);
        stores += 1;
        let store = recipe.make(seed);
        let why = match disagreement(recipe, &store, &pool, seed) {
            Ok(e) => {
                tally.add(&store, &e);
                continue;
            }
            Err(why) => why,
        };
        differ += 1;
        println!("DISAGREEMENT {} {seed}: {why}\n  {}", recipe.name, store.show());
        let least = store.minimize(&|s| disagreement(recipe, s, &pool, seed).is_err());
        println!("  smallest: {}\n  {:?}", least.show(), disagreement(recipe, &least, &pool, seed).err());
    }
    let Tally { covered, live_covered, capped, most_rounds, most_exclusions } = tally;
    println!(
        "{:13} {stores} stores, {differ} differ; covered {covered}, live of them {live_covered}, lowered by \
         their cap {capped}; most rounds {} live, {} caps; most exclusions {most_exclusions}",
        recipe.name, most_rounds.live, most_rounds.caps
    );
    (stores, differ)
}

fn main() {
    let args: Vec<String> = std::env::args().skip(1).collect();
    let [word, count, seed] = args.as_slice() else {
        eprintln!("fuzz RECIPE COUNT SEED");
        exit(2);
    };
    let (count, seed): (u64, u64) = (count.parse().expect("COUNT"), seed.parse().expect("SEED"));
    let recipes = chosen(word).expect("a recipe");
    let (mut stores, mut differ) = (0, 0);
    for recipe in &recipes {
        let count = if recipe.name == "full-ring" { count.div_ceil(4) } else { count };
        let (compared, differing) = run(recipe, count, seed);
        stores += compared;
        differ += differing;
    }
    println!("fuzz {word}: {stores} stores, {differ} differ (recipes: {})", recipes.len());
    exit((differ > 0) as i32);
}
