//! The vectors of the repository, replies of a third implementation of the same profile.

use independent::script::{replay, Independent};
use std::fs;
use std::path::Path;

#[test]
fn every_line_agrees() {
    let replayed = Path::new(env!("CARGO_MANIFEST_DIR")).join("../../crates/replay");
    let names = fs::read_to_string(replayed.join("args")).unwrap();
    let lines: String = names
        .lines()
        .map(|name| {
            let script = fs::read(replayed.join("data").join(name)).unwrap();
            replay(&Independent, &script).expect("a script")
        })
        .collect();
    let expected = fs::read_to_string(replayed.join("stdout")).unwrap();
    for (number, (line, expected)) in (1..).zip(lines.lines().zip(expected.lines())) {
        assert_eq!(line, expected, "line {number}");
    }
    assert_eq!(lines.len(), expected.len());
}
