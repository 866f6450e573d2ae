//! A caller in C: tests/example.c, compiled with the system's `cc` against keyline.h and the archive, prints the replies of
//! the worked example.
use std::{
    fs,
    path::Path,
    process::{Command, Output},
};

#[test]
fn a_program_in_c_runs_the_worked_example() {
    if Command::new("cc").arg("--version").output().is_err() {
        println!("there is no cc here: the example in C was not tried");
        return;
    }
    let package = Path::new(env!("CARGO_MANIFEST_DIR"));
    let program = Path::new(env!("CARGO_TARGET_TMPDIR")).join("example");
    let Output { status, stderr, .. } = Command::new("cc")
        .args(["-std=c99", "-Wall", "-Wextra", "-Werror", "-pthread", "-I"])
        .arg(package.join("../../crates/exports"))
        .arg(package.join("tests/example.c"))
        .arg(Path::new(env!("SALTBOBBIN_STATICLIB")).join("libexports.a"))
        .arg("-o")
        .arg(&program)
        .output()
        .expect("cc runs");
    assert!(status.success(), "{}", String::from_utf8_lossy(&stderr));
    let Output { status, stdout, .. } = Command::new(&program).output().expect("the example runs");
    assert_eq!(status.code(), Some(0));
    let said = String::from_utf8(stdout).expect("text");
    assert_eq!(said, "00 01 00 00 00 00 00 00 00\n00 00 00 00 00 00 00 00 00\n00 45 00 00 00 00 00 00 00\n");
    // the header and the paper have the same example, byte for byte
    for text in ["../../crates/exports/keyline.h", "../../docs/SCRIPT.md"] {
        let text = fs::read_to_string(package.join(text)).expect("it is there");
        assert!(said.lines().all(|line| text.contains(line)), "the replies as the example prints them");
    }
}

#[test]
fn the_readme_has_lines_of_the_program_in_c() {
    let package = Path::new(env!("CARGO_MANIFEST_DIR"));
    let readme = fs::read_to_string(package.join("../../README.md")).expect("it is there");
    let block = readme.split("```c\n").nth(1).and_then(|rest| rest.split("\n```").next()).expect("a block of C");
    let program = include_str!("example.c").lines().map(str::trim_start).collect::<Vec<_>>().join("\n");
    assert!(program.contains(block), "README.md shows other lines than tests/example.c has");
}
