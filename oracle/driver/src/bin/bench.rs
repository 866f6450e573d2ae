//! bench COUNT: what the published State takes on COUNT stores of each recipe, in microseconds: one evaluation
//! (the first query after an insertion), then `members` and `closure` of a key. The least of some runs for each
//! store; median and greatest over the stores.
use oracle::{
    published::{build, keys, Digest, State},
    recipes::{Recipe, RECIPES},
};
use std::{
    hint::black_box,
    time::{Duration, Instant},
};

const RUNS: usize = 3;

fn microseconds(mut run: impl FnMut() -> Duration) -> f64 {
    let times = (0..RUNS).map(|_| run().as_secs_f64() * 1e6);
    times.fold(f64::MAX, f64::min)
}

fn timed<T>(f: impl FnOnce() -> T) -> Duration {
    let start = Instant::now();
    black_box(f());
    start.elapsed()
}

/// Median and greatest.
fn show(mut times: Vec<f64>) -> String {
    times.sort_by(f64::total_cmp);
    format!("{:9.1} {:9.1}", times[times.len() / 2], times[times.len() - 1])
}

fn run(recipe: &Recipe, count: u64) {
    let pool = keys(7, 65);
    let (mut evaluation, mut members, mut closure) = (vec![], vec![], vec![]);
    for seed in 0..count {
        let store = recipe.make(seed);
        let concrete = store.concrete(&pool, seed);
        let state = build(&concrete.insertions);
        let digest = Digest::from(concrete.delegations[0]);
        evaluation.push(microseconds(|| {
            let fresh: State<()> = state.clone(); // carries no evaluation
            timed(|| fresh.is_live(&digest))
        }));
        state.is_live(&digest);
        let each = store.keys as f64;
        let keys = &concrete.keys[..store.keys];
        let all_members = || timed(|| keys.iter().map(|k| state.members(*k).len()).sum::<usize>());
        let all_closures = || timed(|| keys.iter().map(|k| state.closure(*k).len()).sum::<usize>());
        members.push(microseconds(all_members) / each);
        closure.push(microseconds(all_closures) / each);
    }
    println!("{:13} {} | {} | {}", recipe.name, show(evaluation), show(members), show(closure));
}

fn main() {
    let count = std::env::args().nth(1).map_or(20, |n| n.parse().expect("COUNT"));
    println!("microseconds, median and greatest of {count} stores: evaluation | members | closure");
    for recipe in &RECIPES {
        run(recipe, count);
    }
}
