//! The stored answers are the Rust's, in the vectors and in the input of the program `test_replay`.

mod side;

#[test]
fn stored_answers_are_the_rusts() {
    let requests = include_str!("../vectors/requests.txt");
    let answers = include_str!("../vectors/answers.txt");
    assert!(side::compare_rust(requests) == answers);
}

#[test]
fn replayed_answers_are_the_rusts() {
    let requests = include_str!("../vectors/requests.txt");
    let stored: &[u8] = include_bytes!("../../crates/test_replay/stdin");
    assert!(side::run(&["replay-file"], requests) == stored);
}
