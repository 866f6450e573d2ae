//! `bench [BATCHES]`: what the payload reader and writer take, the kernel and Rust in one run on the same
//! inputs. What is timed is said below the table. Use a release build.
use compare::{mistakes::Mistake::NoMistake, plain};
use oracle::{
    published::{keys, Decode, Delegation, Digest, Encode, Identifier, Power},
    rng::Rng,
};
use saltbobbin::delegation;
use std::{cell::RefCell, env, hint::black_box, time::Instant};

/// Different inputs of one row.
const INPUTS: usize = 32;

/// A batch goes over its inputs again until it has taken about this many nanoseconds.
const BATCH: f64 = 500_000.0;

const NOTES: &str = "
Nanoseconds a call: the median over the batches, in which the sides take turns. Above 1 the kernel is faster.
The kernel is called as an app calls it, through saltbobbin and its C call, which is never inlined.
`published` is Delegation::decode and Delegation::encode_into, or encode, compiled into this program. Its
reader tests both keys on the curve, here with the oracle's stand-in for ed25519_dalek, which is not made for
speed; the kernel leaves keys to the app. So the published reader's times are the keys', except for 65 bytes,
which it refuses before it looks at them.
`plain` is document 01's plain reading, compiled into this program: no key is tested and no C called.";

fn main() {
    let batches = env::args().nth(1).map_or(51, |n| n.parse().expect("BATCHES"));
    let (uncited, cited) = (delegations(None), delegations(Some([5; 32])));
    let [short_payloads, long_payloads] = [&uncited, &cited].map(|all| payloads(all));
    let changed = |at: usize, byte: u8| {
        let mut out = short_payloads.clone();
        out.iter_mut().for_each(|payload| payload[at] = byte);
        out
    };
    let cut: Vec<Vec<u8>> = short_payloads.iter().map(|payload| payload[..65].to_vec()).collect();
    let rows: [(&str, &[Vec<u8>]); 5] = [
        ("66 bytes", &short_payloads),
        ("98 bytes", &long_payloads),
        ("a power that is none", &changed(64, b'X')),
        ("a tag that is none", &changed(65, 9)),
        ("65 bytes", &cut),
    ];

    println!("{:42} {:>9} {:>9} {:>13}", "", "kernel", "Rust", "Rust / kernel");
    for (what, inputs) in rows {
        read(&format!("read {what}, published"), inputs, batches, |payload| {
            black_box(Delegation::decode(payload)).is_ok()
        });
    }
    for (what, inputs) in rows {
        read(&format!("read {what}, plain"), inputs, batches, |payload| {
            black_box(plain::read(payload, NoMistake)).number == 0
        });
    }
    for (what, inputs) in [("66 bytes", &uncited), ("98 bytes", &cited)] {
        let kept = RefCell::new(Vec::with_capacity(delegation::CITED_LENGTH));
        write(&format!("write {what}, published, Vec kept"), inputs, batches, |d| {
            let mut kept = kept.borrow_mut();
            kept.clear();
            d.encode_into(&mut kept);
            black_box(&*kept).len()
        });
        write(&format!("write {what}, published, new Vec"), inputs, batches, |d| black_box(d.encode()).len());
    }
    println!("{NOTES}");
}

fn delegations(citation: Option<[u8; 32]>) -> Vec<Delegation> {
    let (pool, mut r) = (keys(3, INPUTS), Rng::new(3));
    let some = |key: &Identifier| {
        let d = Delegation::new(*key, r.pick(&pool), r.pick(&Power::ALL));
        citation.map_or(d, |digest| d.reissue(Digest::from(digest)))
    };
    pool.iter().map(some).collect()
}

fn payloads(delegations: &[Delegation]) -> Vec<Vec<u8>> {
    delegations.iter().map(|d| d.encode().as_bytes().to_vec()).collect()
}

/// The kernel's reader, and another that says whether it accepts.
fn read(what: &str, inputs: &[Vec<u8>], batches: usize, other: impl Fn(&[u8]) -> bool) {
    let kernel = |payload: &Vec<u8>| black_box(delegation::decode(payload)).is_ok();
    row(what, inputs, batches, kernel, |payload| other(payload));
}

/// The kernel's writer into a kept buffer, and another that says how many bytes it wrote.
fn write(what: &str, inputs: &[Delegation], batches: usize, other: impl Fn(&Delegation) -> usize) {
    let out = RefCell::new([0; delegation::CITED_LENGTH]);
    let kernel = |d: &Delegation| {
        let (audience, subject) = (d.audience.as_bytes(), d.subject.as_bytes());
        let citation = d.citation.as_ref().map_or(&[][..], |digest| digest.as_slice());
        let mut out = out.borrow_mut();
        delegation::encode(audience, subject, d.power as u8, citation, &mut *out).expect("there is room")
    };
    row(what, inputs, batches, kernel, other);
}

/// Times both sides, which have to give the same answer.
fn row<I, A: PartialEq>(
    what: &str,
    inputs: &[I],
    batches: usize,
    kernel: impl Fn(&I) -> A,
    other: impl Fn(&I) -> A,
) {
    assert!(inputs.iter().all(|input| kernel(input) == other(input)), "{what}: the answers differ");
    let kernel = || inputs.iter().for_each(|input| drop(black_box(kernel(black_box(input)))));
    let other = || inputs.iter().for_each(|input| drop(black_box(other(black_box(input)))));
    let (kernel_passes, other_passes) = (passes(kernel), passes(other));
    let (mut kernel_times, mut other_times) = (vec![], vec![]);
    for _ in 0..batches {
        kernel_times.push(nanoseconds(kernel, kernel_passes) / inputs.len() as f64);
        other_times.push(nanoseconds(other, other_passes) / inputs.len() as f64);
    }
    let (kernel, other) = (median(kernel_times), median(other_times));
    println!("{what:42} {kernel:9.1} {other:9.1} {:13.2}", other / kernel);
}

/// One pass, as the mean of so many.
fn nanoseconds(pass: impl Fn(), passes: usize) -> f64 {
    let start = Instant::now();
    (0..passes).for_each(|_| pass());
    start.elapsed().as_nanos() as f64 / passes as f64
}

/// How many passes make a batch.
fn passes(pass: impl Fn()) -> usize {
    nanoseconds(&pass, 1); // the first one warms up
    (BATCH / nanoseconds(&pass, 1)).ceil() as usize
}

fn median(mut times: Vec<f64>) -> f64 {
    times.sort_by(f64::total_cmp);
    times[times.len() / 2]
}
