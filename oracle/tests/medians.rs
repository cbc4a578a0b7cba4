//! medians.awk gives the middle one of the runs' numbers in every shape of row, and keeps what is no number.

use std::fs;
use std::path::Path;
use std::process::Command;

/// The text of a run: a title and a row of each shape.
fn run(title: &str, by_size: &str, by_layout: &str, card: &str) -> String {
    format!(
        "{title}, n = 64: 45 samples\n\n\
         | routine | kind | n = 2 | n = 4 | n = 8 | Rust | ours |\n|---|---|---|---|---|---|---|\n\
         | her2 | complex | {by_size} |\n\n\
         | routine | kind | layout | Rust / ours | Rust | ours | OpenBLAS |\n|---|---|---|---|---|---|---|\n\
         | symm | f32 | Right and Lower | {by_layout} |\n\n\
         | call | kind | Rust / ours | Rust | ours | memcpy |\n|---|---|---|---|---|---|\n\
         | read | complex | {card} |\n"
    )
}

/// What medians.awk makes of the runs.
fn medians(runs: &[String]) -> String {
    let directory = Path::new(env!("CARGO_TARGET_TMPDIR")).join("medians");
    fs::create_dir_all(&directory).unwrap();
    let file = |(k, text): (usize, &String)| {
        let file = directory.join(format!("bench.{k}"));
        fs::write(&file, text).unwrap();
        file
    };
    let script = concat!(env!("CARGO_MANIFEST_DIR"), "/medians.awk");
    let files = runs.iter().enumerate().map(file);
    let made = Command::new("awk").args(["-f", script]).args(files).output().expect("awk is there");
    assert!(made.status.success(), "{}", String::from_utf8_lossy(&made.stderr));
    String::from_utf8(made.stdout).unwrap()
}

#[test]
fn the_middle_of_three_runs() {
    let runs = [
        run("first", "0.95 | 12.00 | - | 900 | 70", "2.00 | 99 | 3000000 | -", "0.50 | 4000 | 2000 | 50000"),
        run("second", "1.05 | 9.00 | - | 1100 | 71", "3.00 | 100 | 1000000 | -", "0.40 | 5000 | 1900 | 60000"),
        run("third", "1.00 | 10.00 | - | 1000 | 69", "2.50 | 101 | 2000000 | -", "0.60 | 6000 | 3600 | 40000"),
    ];
    let middle = run("first", "1.00 | 10.00 | - | 1000 | 70", "2.50 | 100 | 2000000 | -", "0.50 | 5000 | 2000 | 50000");
    assert_eq!(medians(&runs), middle);
}
