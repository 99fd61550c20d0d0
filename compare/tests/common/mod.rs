use compare::random::SEED;
use std::io::Write;

/// One line on what a test ran. Written past the test harness, which would keep it to itself.
pub fn report(what: &str, cases: u64) {
    let line = format!("{what}: {cases} cases, seed {SEED:#018x}\n");
    std::io::stdout().write_all(line.as_bytes()).expect("standard output takes a line");
    assert!(cases > 0, "{what} ran nothing");
}
