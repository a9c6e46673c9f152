//! Runs the oracle on requests.

use std::io::Write;
use std::process::{Command, Stdio};

/// What `compare rust` writes for a list of requests.
pub fn compare_rust(requests: &str) -> String {
    String::from_utf8(run(&["compare", "rust"], requests)).unwrap()
}

/// What the oracle writes for a list of requests, by the command that the words give.
pub fn run(words: &[&str], requests: &str) -> Vec<u8> {
    let mut command = Command::new(env!("CARGO_BIN_EXE_oracle"));
    command.args(words);
    command.stdin(Stdio::piped()).stdout(Stdio::piped());
    let mut child = command.spawn().unwrap();
    let mut input = child.stdin.take().unwrap();
    let requests = requests.to_string();
    let writer = std::thread::spawn(move || input.write_all(requests.as_bytes()).unwrap());
    let output = child.wait_with_output().unwrap();
    writer.join().unwrap();
    assert!(output.status.success());
    output.stdout
}
