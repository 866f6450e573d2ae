//! The comparison notices deliberate mistakes: each against the kernel's answers, and all but one against the
//! published Rust's too.
use compare::{
    calls::calls,
    mistakes::Mistake::{self, *},
    payloads::payloads,
    plain, published,
    run::{run, Plan},
};
use oracle::published::keys;

/// Questions of each kind.
const COUNT: usize = 2_000;

#[test]
fn each_mistake_differs_from_the_kernel() {
    for (mistake, says) in Mistake::ALL {
        let report = run(Plan { count: COUNT, seed: 30, mistake }, |_, _, _| ());
        let first = report.first().unwrap_or_else(|| panic!("unnoticed: {says}"));
        assert!(first.to_string().contains("the plain reading"), "{says}: {first}");
    }
}

#[test]
fn the_published_rust_notices_mistakes_of_the_reader() {
    for mistake in [TagBeforePower, ShortCitation, TrailingIgnored, RankByByte] {
        let mut turns = payloads(&keys(31, 64), 31);
        let noticed = (0..COUNT).map(|_| turns.question()).any(|payload| {
            published::read(&payload).is_some_and(|answer| answer != Ok(plain::read(&payload, mistake)))
        });
        assert!(noticed, "{mistake:?}");
    }
}

/// It cannot notice `LastLengthFirst`: its types have one length.
#[test]
fn the_published_rust_notices_mistakes_of_the_writer() {
    for mistake in [RoomBeforePower, WritesWhatFits, ClearsTheRest] {
        let pool = keys(32, 64);
        let mut turns = calls(&pool, 32);
        let noticed = (0..COUNT).map(|_| turns.question()).any(|call| {
            published::write(&call, &pool).is_some_and(|answer| answer != plain::write(&call, mistake))
        });
        assert!(noticed, "{mistake:?}");
    }
}
