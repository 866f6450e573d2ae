//! `stores [--small N] [--medium N] [--full N] [--scripts N] [--mistakes N] [--seed S]`: whole stores, the kernel
//! against the published Rust on every recipe of the oracle; then scripts of any requests against document 01 read
//! plainly, and scripts that are refused as a whole; then deliberate mistakes, each of which has to be noticed.
//! Prints each difference with its smallest store, and exits 1 if there is any.
use compare::{
    hostile::{self, Brought, Crowd},
    malformed::{self, Refused},
    slips::Slip,
    store_run::{self, Plan, Tally},
};
use oracle::{mistakes::Mistake, recipes::case};
use std::{env, process::exit, time::Instant};

/// A slip is looked for in so many scripts at least.
const SCRIPTS: u64 = 200;

struct Wanted {
    plan: Plan,
    /// Scripts of any requests.
    scripts: u64,
    /// Stores of each small recipe on which a mistake is looked for.
    mistakes: u64,
}

fn wanted() -> Result<Wanted, String> {
    let plan = Plan { small: 200_000, medium: 20_000, full: 5_000, seed: 1 };
    let mut out = Wanted { plan, scripts: 20_000, mistakes: 1_000 };
    let mut words = env::args().skip(1);
    while let Some(word) = words.next() {
        let number =
            words.next().and_then(|n| n.parse::<u64>().ok()).ok_or(format!("{word} wants a number"))?;
        match word.as_str() {
            "--small" => out.plan.small = number,
            "--medium" => out.plan.medium = number,
            "--full" => out.plan.full = number,
            "--scripts" => out.scripts = number,
            "--mistakes" => out.mistakes = number,
            "--seed" => out.plan.seed = number,
            _ => return Err(format!("what is {word}?")),
        }
    }
    Ok(out)
}

fn line(tally: &Tally) -> String {
    let Tally { recipe, stores, requests, took, differences } = tally;
    let seconds = took.as_secs_f64();
    let rate = *stores as f64 / seconds.max(1e-9);
    format!(
        "{recipe:13} {stores:7} stores, {requests:10} requests, {seconds:7.1} s, {rate:6.0} stores/s, {} differ",
        differences.len()
    )
}

/// The recipes against the published Rust: stores, requests, differences.
fn recipes(plan: Plan) -> (u64, usize, usize) {
    let tallies = store_run::run(plan, |tally| eprintln!("{}", line(tally)));
    for tally in &tallies {
        println!("{}", line(tally));
        tally.differences.iter().for_each(|difference| println!("{difference}"));
    }
    let differences = tallies.iter().map(|tally| tally.differences.len()).sum();
    (tallies.iter().map(|t| t.stores).sum(), tallies.iter().map(|t| t.requests).sum(), differences)
}

/// Any requests against the plain store, and refused scripts: requests, refused scripts, differences.
fn scripts(count: u64, seed: u64) -> (usize, usize, usize) {
    let (mut brought, mut refused, mut differ) = (Brought::default(), Refused::default(), 0);
    let mut differs = |why: String| {
        println!("DIFFERENCE {why}");
        differ += 1;
    };
    for i in 0..count {
        let seed = case(seed, i);
        // crowded stores take longer, and have more requests each
        let crowd = if i % 4 == 0 { Crowd::ALL[1 + (i / 4 % 3) as usize] } else { Crowd::Few };
        match hostile::compare(crowd, seed, Slip::NoSlip) {
            Ok(one) => {
                brought.requests += one.requests;
                brought.numbers.iter_mut().zip(one.numbers).for_each(|(all, n)| *all += n);
            }
            Err(difference) => differs(format!("{crowd:?} {seed}: {difference}")),
        }
        if i % 4 == 1 {
            malformed::damaged(seed, 400, &mut refused).unwrap_or_else(&mut differs);
        }
    }
    malformed::every_operation(&mut refused).unwrap_or_else(&mut differs);
    malformed::longest(&mut refused).unwrap_or_else(&mut differs);
    println!(
        "any requests: {count} scripts, {} requests; answers by number 0 to 9: {:?}",
        brought.requests, brought.numbers
    );
    println!("refused scripts: {} tried; answers by number 0 to 9: {:?}", refused.scripts, refused.numbers);
    (brought.requests, refused.scripts, differ)
}

/// Deliberate mistakes: how many are not as they should be.
fn mistakes(most: u64, seed: u64) -> usize {
    let mut wrong = 0;
    for (number, (mistake, says)) in Mistake::ALL.into_iter().enumerate() {
        let noticed = store_run::mistaken(mistake, most, 20, seed);
        let verdict = if noticed.is_right() { "" } else { "NOT AS IT SHOULD BE: " };
        println!("{:2} {verdict}{says}: {} of {} stores differ", number + 1, noticed.differ, noticed.tried);
        if let Some((store, difference)) = &noticed.smallest {
            println!("   smallest: {store}; {}", difference.asked.split(" of [").next().unwrap_or_default());
        }
        wrong += usize::from(!noticed.is_right());
    }
    for (number, (slip, says)) in Slip::ALL.into_iter().enumerate() {
        let tried = (0..most.max(SCRIPTS)).map(|i| (Crowd::ALL[(i % 4) as usize], case(seed, i)));
        let found = tried
            .enumerate()
            .find_map(|(i, (crowd, seed))| Some((i, hostile::compare(crowd, seed, slip).err()?)));
        match found {
            Some((i, difference)) => {
                let asked = difference.asked.split(" of [").next().unwrap_or_default();
                println!("s{:<2} {says}: noticed by script {i}, {asked}", number + 1);
            }
            None => {
                println!("s{:<2} NOT NOTICED: {says}", number + 1);
                wrong += 1;
            }
        }
    }
    wrong
}

fn main() {
    let Wanted { plan, scripts: count, mistakes: most } = wanted().unwrap_or_else(|why| {
        eprintln!(
            "{why}\nstores [--small N] [--medium N] [--full N] [--scripts N] [--mistakes N] [--seed S]"
        );
        exit(2)
    });
    let start = Instant::now();
    let (stores, requests, differ) = recipes(plan);
    let (any, refused, also) = scripts(count, plan.seed);
    let wrong = if most == 0 { 0 } else { mistakes(most, plan.seed) };
    println!(
        "stores: {stores} stores and {requests} requests against the published Rust, {any} requests and {refused} \
         refused scripts plainly, {} differences; {wrong} mistakes not as they should be (seed {}, {} s)",
        differ + also,
        plan.seed,
        start.elapsed().as_secs()
    );
    exit((differ + also + wrong > 0).into())
}
