//! A bounded part of what the program `stores` does: no answer differs, and each deliberate mistake does.
use compare::{
    hostile::{self, Crowd},
    malformed::{self, Refused},
    slips::Slip,
    store_run::{mistaken, run, Plan},
};
use oracle::mistakes::Mistake;

#[test]
fn the_kernel_agrees_with_the_published_rust_on_every_recipe() {
    let tallies = run(Plan { small: 160, medium: 3, full: 7, seed: 40 }, |_| ());
    for tally in &tallies {
        assert!(tally.differences.is_empty(), "{}", tally.differences.join("\n"));
        assert!(tally.stores > 0 && tally.requests > 0, "{}", tally.recipe);
    }
    assert_eq!(tallies.len(), 16);
}

#[test]
fn the_kernel_agrees_with_document_01_on_any_requests() {
    let mut numbers = [0; 10];
    for seed in 0..40 {
        let brought = hostile::compare(Crowd::ALL[seed as usize % 4], seed, Slip::NoSlip);
        let brought = brought.unwrap_or_else(|difference| panic!("{seed}: {difference}"));
        numbers.iter_mut().zip(brought.numbers).for_each(|(all, n)| *all += n);
    }
    assert!(numbers.iter().all(|n| *n > 0), "every number occurs: {numbers:?}");
}

#[test]
fn a_malformed_script_is_refused_and_touches_nothing() {
    let mut refused = Refused::default();
    for seed in 1..20 {
        malformed::damaged(seed, 400, &mut refused).unwrap_or_else(|why| panic!("{seed}: {why}"));
    }
    malformed::every_operation(&mut refused).unwrap_or_else(|why| panic!("{why}"));
    malformed::longest(&mut refused).unwrap_or_else(|why| panic!("{why}"));
    assert!([0, 1, 2, 4, 9].iter().all(|number| refused.numbers[*number] > 0), "{refused:?}");
}

#[test]
fn each_mistake_of_the_oracle_differs_from_the_kernel() {
    for (mistake, says) in Mistake::ALL {
        let (most, enough) = if mistake.is_harmless() { (3, 1) } else { (120, 1) };
        let noticed = mistaken(mistake, most, enough, 41);
        assert!(noticed.is_right(), "{says}: {} of {} stores differ", noticed.differ, noticed.tried);
    }
}

#[test]
fn each_slip_differs_from_the_kernel() {
    for (slip, says) in Slip::ALL {
        let noticed = (0..200).any(|i| hostile::compare(Crowd::ALL[i as usize % 4], i, slip).is_err());
        assert!(noticed, "unnoticed: {says}");
    }
}
