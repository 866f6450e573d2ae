//! A bounded part of what the program `payloads` does: no answer differs.
use compare::{
    calls::{calls, ROOMS},
    check,
    mistakes::Mistake::NoMistake,
    payloads::{payloads, LENGTHS},
    run::{run, Plan},
};
use oracle::published::keys;
use std::collections::HashSet;

#[test]
fn the_kernel_agrees_with_the_published_rust() {
    let report = run(Plan { count: 10_000, seed: 20, mistake: NoMistake }, |_, _, _| ());
    if let Some(difference) = report.first() {
        panic!("{} differences, the first\n{difference}", report.differences());
    }
    for tally in [report.reader, report.writer] {
        assert_eq!(tally.with_published + tally.plain_only, 10_000);
        assert!(tally.with_published > 5_000 && tally.plain_only > 500, "both occur: {tally}");
    }
}

/// Without the published Rust, which would take longer.
#[test]
fn the_reader_agrees_with_the_plain_reading_on_every_length_power_and_tag() {
    let mut turns = payloads(&keys(21, 64), 21);
    let (mut lengths, mut bytes) = (HashSet::new(), HashSet::new());
    while !turns.is_through() {
        let payload = turns.question();
        if let Err(difference) = check::reader_plainly(&payload, NoMistake) {
            panic!("{difference}");
        }
        lengths.insert(payload.len());
        if let 66 | 98 = payload.len() {
            bytes.insert((payload.len(), payload[64], payload[65]));
        }
    }
    assert!((0..LENGTHS).all(|length| lengths.contains(&length)));
    assert_eq!(bytes.len(), 2 * 256 * 256);
}

/// With the published Rust, which costs little here: the keys are known.
#[test]
fn the_writer_agrees_on_every_room_power_and_length() {
    let pool = keys(22, 64);
    let mut turns = calls(&pool, 22);
    let (mut rooms, mut powers) = (HashSet::new(), HashSet::new());
    while !turns.is_through() {
        let call = turns.question();
        if let Err(difference) = check::writer(&call, &pool, NoMistake) {
            panic!("{difference}");
        }
        rooms.insert((call.room(), call.citation.len()));
        powers.insert(call.power);
    }
    assert!((0..ROOMS).all(|room| [0, 32].iter().all(|citation| rooms.contains(&(room, *citation)))));
    assert_eq!(powers.len(), 256);
}
