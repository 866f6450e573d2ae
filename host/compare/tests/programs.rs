//! The programs themselves: what they say last and how they exit.
use std::process::{Command, Output};

fn run(program: &str, arguments: &[&str]) -> (i32, String) {
    let Output { status, stdout, .. } = Command::new(program).args(arguments).output().expect("it runs");
    (status.code().expect("it exits"), String::from_utf8(stdout).expect("text"))
}

#[test]
fn payloads_says_what_it_compared() {
    let payloads = env!("CARGO_BIN_EXE_payloads");
    let (status, said) = run(payloads, &["--count", "500", "--seed", "9"]);
    let last = said.lines().last();
    assert_eq!((status, last), (0, Some("payloads: 500 read, 500 written, 0 differences (seed 9)")));
    assert!(said.contains("outside document 01's domain"));
}

#[test]
fn payloads_shows_the_first_difference() {
    let payloads = env!("CARGO_BIN_EXE_payloads");
    let (status, said) = run(payloads, &["--count", "500", "--mistake", "1"]);
    assert_eq!(status, 1);
    for part in
        ["the first difference\nasked: payload of", "\nthe kernel: 4 beside", "\nthe plain reading: 4 beside"]
    {
        assert!(said.contains(part), "{part} is not in\n{said}");
    }
    assert_eq!(run(payloads, &["--mistake", "9"]).0, 2);
    assert_eq!(run(payloads, &["--count"]).0, 2);
}

#[test]
fn stores_says_what_it_compared() {
    let stores = env!("CARGO_BIN_EXE_stores");
    let few =
        ["--small", "8", "--medium", "1", "--full", "0", "--scripts", "8", "--mistakes", "0", "--seed", "9"];
    let (status, said) = run(stores, &few);
    let last = said.lines().last().expect("a last line");
    assert_eq!(status, 0, "{said}");
    assert!(last.starts_with("stores: 9 stores and ") && last.contains(" 0 differences; "), "{last}");
    assert!(last.contains("(seed 9, "), "{last}");
    assert_eq!(run(stores, &["--small"]).0, 2);
    assert_eq!(run(stores, &["--large", "3"]).0, 2);
}

#[test]
fn bench_prints_its_table() {
    let (status, said) = run(env!("CARGO_BIN_EXE_bench"), &["1"]);
    assert_eq!(status, 0);
    assert_eq!(
        said.lines().filter(|line| line.starts_with("read ") || line.starts_with("write ")).count(),
        14
    );
}
