//! A run over many questions: the reader's and then the writer's, counted.
use crate::{
    calls::calls,
    check::{self, Compared, Difference},
    mistakes::Mistake,
    payloads::payloads,
    sources::Turns,
};
use oracle::{
    published::{keys, Identifier},
    rng::Rng,
};
use std::fmt;

/// What is asked.
#[derive(Clone, Copy, Debug)]
pub struct Plan {
    /// So many payloads are read, and so many calls of the writer made.
    pub count: usize,
    pub seed: u64,
    /// In the plain reading.
    pub mistake: Mistake,
}

/// Keys that the published Rust accepts.
const POOL: usize = 64;

/// What came of the questions of one kind.
pub struct Tally {
    /// How many were asked from each source, and how many it has if it has an end.
    pub sources: Vec<(&'static str, usize, Option<usize>)>,
    pub with_published: usize,
    pub plain_only: usize,
    pub differences: usize,
    pub first: Option<Difference>,
}

/// What came of a run.
pub struct Report {
    pub reader: Tally,
    pub writer: Tally,
}

impl Report {
    pub fn differences(&self) -> usize {
        self.reader.differences + self.writer.differences
    }

    pub fn first(&self) -> Option<&Difference> {
        self.reader.first.as_ref().or(self.writer.first.as_ref())
    }
}

/// `progress` hears of the kind of question, how many have been asked and how many answers differed.
pub fn run(plan: Plan, mut progress: impl FnMut(&'static str, usize, usize)) -> Report {
    let mut seeds = Rng::new(plan.seed);
    let pool: Vec<Identifier> = keys(seeds.word(), POOL);
    let reader = tally(
        payloads(&pool, seeds.word()),
        plan.count,
        |payload| check::reader(payload, plan.mistake),
        |asked, differences| progress("reader", asked, differences),
    );
    let writer = tally(
        calls(&pool, seeds.word()),
        plan.count,
        |call| check::writer(call, &pool, plan.mistake),
        |asked, differences| progress("writer", asked, differences),
    );
    Report { reader, writer }
}

fn tally<T>(
    mut turns: Turns<T>,
    count: usize,
    check: impl Fn(&T) -> Result<Compared, Difference>,
    mut progress: impl FnMut(usize, usize),
) -> Tally {
    let mut out = Tally { sources: vec![], with_published: 0, plain_only: 0, differences: 0, first: None };
    for asked in 1..=count {
        match check(&turns.question()) {
            Ok(Compared::WithPublished) => out.with_published += 1,
            Ok(Compared::PlainOnly) => out.plain_only += 1,
            Err(difference) => {
                out.differences += 1;
                out.first.get_or_insert(difference);
            }
        }
        progress(asked, out.differences);
    }
    out.sources = turns.sources.iter().map(|source| (source.name, source.drawn, source.size)).collect();
    out
}

impl fmt::Display for Tally {
    fn fmt(&self, f: &mut fmt::Formatter<'_>) -> fmt::Result {
        let sources = self.sources.iter().map(|(name, drawn, size)| match size {
            Some(size) => format!("{name} {drawn} of {size}"),
            None => format!("{name} {drawn}"),
        });
        write!(f, "{}", sources.collect::<Vec<_>>().join(", "))
    }
}
