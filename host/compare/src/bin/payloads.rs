//! `payloads [--count N] [--seed S] [--mistake M]`: N payloads read and N calls of the writer, the kernel
//! against the published Rust and the plain reading. Prints the first difference, and exits 1 if there is any.
//! With a deliberate mistake in the plain reading (1 to 8) there has to be one.
use compare::{
    mistakes::Mistake,
    run::{run, Plan, Tally},
};
use std::{env, process::exit};

/// Questions between two lines of progress.
const STEP: usize = 100_000;

fn plan() -> Result<Plan, String> {
    let mut plan = Plan { count: 1_000_000, seed: 1, mistake: Mistake::NoMistake };
    let mut words = env::args().skip(1);
    while let Some(word) = words.next() {
        let number =
            words.next().and_then(|n| n.parse::<u64>().ok()).ok_or(format!("{word} wants a number"))?;
        match word.as_str() {
            "--count" => plan.count = number as usize,
            "--seed" => plan.seed = number,
            "--mistake" => plan.mistake = Mistake::numbered(number as usize).ok_or("mistakes are 1 to 8")?,
            _ => return Err(format!("what is {word}?")),
        }
    }
    Ok(plan)
}

fn show(kind: &str, tally: &Tally, why_alone: &str) {
    let Tally { with_published, plain_only, .. } = tally;
    println!("{kind}: {tally}");
    println!("{kind}: {with_published} compared with the published Rust and with the plain reading");
    println!("{kind}: {plain_only} compared with the plain reading alone: {why_alone}");
}

fn main() {
    let plan = plan().unwrap_or_else(|why| {
        eprintln!("{why}\npayloads [--count N] [--seed S] [--mistake M]");
        exit(2)
    });
    if let Some((_, says)) = Mistake::ALL.into_iter().find(|(mistake, _)| *mistake == plan.mistake) {
        println!("a deliberate mistake in the plain reading: {says}");
    }
    let report = run(plan, |kind, asked, differences| {
        if asked % STEP == 0 {
            eprintln!("{kind}: {asked} of {}, {differences} differ", plan.count);
        }
    });
    show("reader", &report.reader, "a key that the Rust refuses, outside document 01's domain");
    show("writer", &report.writer, "such a key, or a length that the Rust's types do not have");
    if let Some(difference) = report.first() {
        println!("the first difference\n{difference}");
    }
    let Plan { count, seed, .. } = plan;
    println!("payloads: {count} read, {count} written, {} differences (seed {seed})", report.differences());
    exit((report.differences() > 0).into())
}
