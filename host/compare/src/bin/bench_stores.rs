//! `bench_stores [BATCHES]`: what whole stores take, the kernel and the published Rust in one run on the same stores:
//! insertions, evaluations on every recipe, every question. What is timed is said below the table. Use a release
//! build.
use oracle::{
    published::{
        build, insert, keys, Bytes, Delegation, Digest, Encode, Identifier, Insertion, RevocationId, State,
    },
    recipes::{Recipe, Size, RECIPES},
    store::Concrete,
};
use saltbobbin::{
    c,
    script::{Request, Script},
};
use std::{env, hint::black_box, time::Instant};

/// Stores of each recipe.
const STORES: u64 = 12;

/// Batches of an evaluation of a large store, which takes the published Rust long.
const FEW: usize = 3;

/// A script with the requests has to take so many nanoseconds more than one without them.
const BATCH: f64 = 8e6;

/// And has so many of them at most: their replies have to fit.
const MOST: usize = 20_000;

const NOTES: &str = "
Microseconds a call; above 1 the kernel is faster. The sides take turns, and each time is the least over the batches,
since the machine may be shared. An evaluation's row has the mean over its stores, and behind it the least and the
greatest ratio of one store.
The kernel keeps nothing between C calls, so one of its calls is timed as the difference of two scripts on the same
store, one with many such requests and one without, by their number: reading a request and putting its reply are in it.
`published` is the State of docs/src over the oracle's stand-ins, compiled into this program. Its questions are asked
after it has evaluated; an evaluation is the first question put to a copy, which carries none.
The published Rust answers lists in new collections, the kernel in the caller's buffer.";

fn maps() -> &'static str {
    if cfg!(feature = "ordered") {
        "ordered"
    } else {
        "hashed"
    }
}

fn main() {
    let batches = env::args().nth(1).map_or(7, |n| n.parse().expect("BATCHES"));
    println!("published / kernel, then microseconds; the published State over {} maps", maps());
    if cfg!(not(target_arch = "x86_64")) {
        println!(
            "NOT x86-64: whatever is linked here is not the proved archive running on its own processor"
        );
    }
    let bench = Bench { pool: keys(7, 65), batches };
    println!("{:48} {:>9} {:>11} {:>11}", "", "ratio", "published", "kernel");
    bench.insertions();
    for recipe in &RECIPES {
        bench.evaluation(recipe);
    }
    for name in ["full-nested", "full-uniform"] {
        bench.questions(RECIPES.iter().find(|recipe| recipe.name == name).expect("a recipe"));
    }
    println!("{NOTES}");
}

fn row(what: &str, published: f64, kernel: f64, more: &str) {
    println!("{what:48} {:9.2} {published:11.3} {kernel:11.3}{more}", published / kernel);
}

fn least(times: &[f64]) -> f64 {
    times.iter().copied().fold(f64::MAX, f64::min)
}

fn mean(times: &[f64]) -> f64 {
    times.iter().sum::<f64>() / times.len() as f64
}

fn nanoseconds<T>(f: impl FnOnce() -> T) -> f64 {
    let start = Instant::now();
    black_box(f());
    start.elapsed().as_nanos() as f64
}

/// A script that is run again and again in one buffer.
struct Runner {
    script: Script,
    answers: Vec<u8>,
}

impl Runner {
    fn new(script: Script) -> Runner {
        let answers = vec![0; script.answers_length()];
        Runner { script, answers }
    }

    fn time(&mut self) -> f64 {
        let Runner { script, answers } = self;
        nanoseconds(|| {
            let ran = c::run(black_box(script.bytes()), answers);
            assert_eq!(ran.number, 0, "the kernel refuses the script");
        })
    }
}

fn push(script: &mut Script, request: Request<'_>) {
    script.push(request).expect("short arguments");
}

fn push_insertion(script: &mut Script, insertion: &Insertion) {
    match insertion {
        Insertion::Delegation { digest, issuer, payload } => {
            let payload = payload.encode();
            push(script, Request::insert_delegation(digest, issuer.as_bytes(), payload.as_bytes()));
        }
        Insertion::Revocation { digest, issuer, revoked } => {
            push(script, Request::insert_revocation(digest, issuer.as_bytes(), revoked));
        }
    }
}

/// The kernel's time for what `more` puts behind a script, `count` requests in all, in microseconds a request; and
/// the other's time for what `other` does at once, by how many calls it says that it made.
fn turns(
    batches: usize,
    before: &Script,
    more: &dyn Fn(&mut Script, usize),
    other: &mut dyn FnMut() -> (f64, usize),
) -> (f64, f64) {
    let mut without = Runner::new(before.clone());
    // how many make a batch: a first guess, then by what it took
    let mut count = 64;
    let with = |count: usize| {
        let mut script = before.clone();
        (0..count).for_each(|i| more(&mut script, i));
        Runner::new(script)
    };
    without.time();
    let base = without.time().min(without.time());
    let mut guess = with(count);
    guess.time();
    let each = ((guess.time() - base) / count as f64).max(1.0);
    count = ((BATCH / each) as usize).clamp(8, MOST);
    let mut with = with(count);
    let (mut long, mut short, mut published) = (vec![], vec![], vec![]);
    with.time();
    for _ in 0..batches {
        long.push(with.time());
        short.push(without.time());
        let (time, calls) = other();
        published.push(time / calls as f64 / 1e3);
    }
    (least(&published), (least(&long) - least(&short)) / count as f64 / 1e3)
}

struct Bench {
    pool: Vec<Identifier>,
    batches: usize,
}

impl Bench {
    fn concrete(&self, recipe: &Recipe, seed: u64) -> Concrete {
        recipe.make(seed).concrete(&self.pool, seed)
    }

    fn insertions(&self) {
        let recipe = RECIPES.iter().find(|recipe| recipe.name == "full-uniform").expect("a recipe");
        let concrete = self.concrete(recipe, 1);
        let all = &concrete.insertions;
        let full = built(all);

        // a held one again: the tables stay as they are, so it can be repeated
        let (published, kernel) =
            turns(self.batches, &full, &|script, i| push_insertion(script, &all[i % all.len()]), &mut || {
                let mut state = build(all);
                let time = nanoseconds(|| {
                    (0..10).for_each(|_| all.iter().for_each(|one| assert!(!insert(&mut state, one))))
                });
                (time, 10 * all.len())
            });
        row(&format!("insertion, held already, {} held", all.len()), published, kernel, "");

        // the whole set from nothing, and its last 32
        for (what, from) in [("every one of a full set", 0), ("the last 32 of a full set", all.len() - 32)] {
            let part = |from: usize| {
                let mut script = Script::new();
                for _ in 0..40 {
                    push(&mut script, Request::fresh());
                    all[..from].iter().for_each(|one| push_insertion(&mut script, one));
                }
                Runner::new(script)
            };
            let (mut short, mut long) = (part(from), part(all.len()));
            let (mut published, mut longs, mut shorts) = (vec![], vec![], vec![]);
            let added = (all.len() - from) as f64;
            for _ in 0..self.batches {
                longs.push(long.time());
                shorts.push(short.time());
                let mut times = vec![];
                for _ in 0..40 {
                    let mut state = build(&all[..from]);
                    times.push(nanoseconds(|| {
                        all[from..].iter().for_each(|one| assert!(insert(&mut state, one)))
                    }));
                }
                published.push(mean(&times) / added / 1e3);
            }
            let kernel = (least(&longs) - least(&shorts)) / 40.0 / added / 1e3;
            row(&format!("insertion, {what}"), least(&published), kernel, "");
        }
    }

    fn evaluation(&self, recipe: &Recipe) {
        let batches = if recipe.size == Size::Small { self.batches } else { self.batches.min(FEW) };
        let (mut published, mut kernel, mut keys) = (vec![], vec![], 0);
        for seed in 0..STORES {
            let concrete = self.concrete(recipe, seed);
            keys = keys.max(concrete.keys.len() - 1);
            let state = build(&concrete.insertions);
            let digest = Digest::from(concrete.delegations[0]);
            let (rust, ours) = turns(
                batches,
                &built(&concrete.insertions),
                &|script, _| push(script, Request::evaluate()),
                &mut || {
                    let fresh: State<()> = state.clone();
                    (nanoseconds(|| fresh.is_live(&digest)), 1)
                },
            );
            published.push(rust);
            kernel.push(ours);
        }
        let ratios: Vec<f64> = published.iter().zip(&kernel).map(|(rust, ours)| rust / ours).collect();
        let greatest = ratios.iter().copied().fold(0.0, f64::max);
        let more = format!("  {:.1} to {greatest:.1}", least(&ratios));
        row(&format!("evaluation, {}, to {keys} keys", recipe.name), mean(&published), mean(&kernel), &more);
    }

    fn questions(&self, recipe: &Recipe) {
        let concrete = self.concrete(recipe, 3);
        let state = build(&concrete.insertions);
        let ids: &[Identifier] = &concrete.keys;
        let keys: Vec<Bytes> = ids.iter().map(Identifier::to_bytes).collect();
        state.effective_power(ids[0], ids[1]);
        let mut evaluated = built(&concrete.insertions);
        push(&mut evaluated, Request::evaluate());
        let digests = &concrete.delegations;
        let revocations = &concrete.revocations;
        let delegation = |i: usize| Digest::<Delegation>::from(digests[i % digests.len()]);
        let revocation = |i: usize| Digest::<RevocationId>::from(revocations[i % revocations.len()]);
        let subject = |i: usize| ids[i % ids.len()];
        let audience = |i: usize| ids[i * 7 % ids.len()];
        let s = |i: usize| &keys[i % keys.len()];
        let a = |i: usize| &keys[i * 7 % keys.len()];
        let d = |i: usize| &digests[i % digests.len()];
        let question =
            |what: &str, calls: usize, more: &dyn Fn(&mut Script, usize), other: &dyn Fn(usize) -> usize| {
                let (published, kernel) = turns(self.batches, &evaluated, more, &mut || {
                    (nanoseconds(|| (0..calls).map(other).sum::<usize>()), calls)
                });
                row(&format!("{what}, {}", recipe.name), published, kernel, "");
            };
        question("positive_power", 4000, &|q, i| push(q, Request::positive_power(s(i), a(i))), &|i| {
            state.positive_power(subject(i), audience(i)).is_some().into()
        });
        question("effective_power", 65, &|q, i| push(q, Request::effective_power(s(i), a(i))), &|i| {
            state.effective_power(subject(i), audience(i)).is_some().into()
        });
        question("members", 65, &|q, i| push(q, Request::members(s(i), 2048, 64)), &|i| {
            black_box(state.members(subject(i))).len()
        });
        question("closure", 65, &|q, i| push(q, Request::closure(s(i), 6144)), &|i| {
            black_box(state.closure(subject(i))).len()
        });
        question("is_live", 4000, &|q, i| push(q, Request::is_live(d(i))), &|i| {
            state.is_live(&delegation(i)).into()
        });
        question("conveyed_power", 65, &|q, i| push(q, Request::conveyed_power(d(i))), &|i| {
            state.conveyed_power(&delegation(i)).is_some().into()
        });
        question(
            "standing (is_live and revocations_of)",
            4000,
            &|q, i| push(q, Request::standing(d(i))),
            &|i| {
                let digest = delegation(i);
                usize::from(state.is_live(&digest)) + black_box(state.revocations_of(&digest)).len()
            },
        );
        question("contains, a delegation", 4000, &|q, i| push(q, Request::contains_delegation(d(i))), &|i| {
            state.delegation(&delegation(i)).is_some().into()
        });
        question("lookup of a delegation", 4000, &|q, i| push(q, Request::delegation(d(i), 32, 98)), &|i| {
            black_box(state.delegation(&delegation(i))).is_some().into()
        });
        let v = |i: usize| &revocations[i % revocations.len()];
        question("lookup of a revocation", 4000, &|q, i| push(q, Request::revocation(v(i), 32, 32)), &|i| {
            black_box(state.revocation(&revocation(i))).is_some().into()
        });
        question("certificates", 200, &|q, _| push(q, Request::certificates(6144)), &|_| {
            black_box(state.certificates()).len()
        });
        question("subjects", 200, &|q, _| push(q, Request::subjects(2048)), &|_| {
            black_box(state.subjects()).len()
        });
        question("revocations_of", 4000, &|q, i| push(q, Request::revocations_of(d(i), 2048)), &|i| {
            black_box(state.revocations_of(&delegation(i))).len()
        });
        question("delegations_to", 1000, &|q, i| push(q, Request::delegations_to(s(i), a(i), 4096)), &|i| {
            black_box(state.delegations_to(subject(i), audience(i))).len()
        });
        question("len", 4000, &|q, _| push(q, Request::len()), &|_| state.len());
    }
}

/// The insertions as a script.
fn built(insertions: &[Insertion]) -> Script {
    let mut script = Script::new();
    insertions.iter().for_each(|insertion| push_insertion(&mut script, insertion));
    script
}
