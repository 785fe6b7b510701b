//! The stored files are what the source answers today.

fn stored(path: &str) -> String {
    let path = format!("{}/{path}", env!("CARGO_MANIFEST_DIR"));
    std::fs::read_to_string(path).unwrap()
}

#[test]
fn the_replay() {
    assert!(stored("../crates/replay/stdin") == oracle::replay::input());
    assert!(stored("../crates/replay/stdout") == oracle::replay::output());
}

#[test]
fn the_differences() {
    assert!(stored("answers/differences.txt") == oracle::differences::text());
}
