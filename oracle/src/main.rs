//! Puts requests to the published Rust and to the port, and compares what they answer.

mod agree;
mod answer;
mod bench;
mod bindings;
mod channel;
mod codes;
mod context;
mod differ;
mod generate;
mod hex;
mod inputs;
mod interpreter;
mod lent;
mod machine_agree;
#[cfg(target_arch = "x86_64")]
mod native;
mod orders;
mod parse;
mod port;
mod port_side;
mod programs;
mod random;
mod reading;
mod record;
mod replay_file;
mod request;
mod rust_side;
mod shape;
mod soak;
mod well_formed;

use answer::Answer;
use request::Line;
use std::io::{BufRead, Write};
use std::process::ExitCode;

const USAGE: &str = "\
oracle compare rust|port                           answers requests on standard input
oracle differ                                      puts them to both and counts differences
oracle generate emission|sample|checks [OPTIONS]   writes requests (--count 1000, --seed 1)
oracle generate larger                             writes some at the limits of 512 spills
oracle generate second                             writes some of the second edition
oracle replay-file                                 writes requests with the Rust's answers for the program test_replay
oracle agree [OPTIONS]                             holds the port against the scope
                                                   (--count 100000, --seed 1)
oracle machine-agree [OPTIONS]                     holds the port's machine against the scope
                                                   (--count 200000, --seed 1)
oracle native [OPTIONS]                            holds it against this processor
                                                   (--count 400, --seed 1)
oracle soak [rust] [OPTIONS]                       plays lists of orders on the port and checks
                                                   (--orders 1000000, --seed 1, --blocks 2000)
oracle soak list SEED FOLDER                       writes the lists that the program test_soak plays
oracle bench machine                               times it beside plain Rust
oracle bench emission [table] [NAME]               times emission beside the published Rust
                                                   (as a Markdown table; rows with this name alone)";

/// Why a command did not run to its end.
enum Failure {
    Usage,
    WithoutPort,
    Files(std::io::Error),
}

fn main() -> ExitCode {
    rust_side::silence_panics();
    let words: Vec<String> = std::env::args().skip(1).collect();
    let words: Vec<&str> = words.iter().map(String::as_str).collect();
    let failure = match run(&words) {
        Ok(true) => return ExitCode::SUCCESS,
        Ok(false) => return ExitCode::FAILURE,
        Err(failure) => failure,
    };
    match failure {
        Failure::Usage => eprintln!("{USAGE}"),
        Failure::WithoutPort => eprintln!("oracle: built without the port (see oracle/build)"),
        Failure::Files(error) => eprintln!("oracle: {error}"),
    }
    ExitCode::from(2)
}

/// Runs a command; false if it found a difference.
fn run(words: &[&str]) -> Result<bool, Failure> {
    let input = std::io::stdin().lock();
    match words {
        ["compare", "rust"] => {
            let side = |line: &Line| rust_side::answer(line.chosen, &line.request);
            answer_all(input, side).map_err(Failure::Files)?;
        }
        ["compare", "port"] => {
            need_port()?;
            let mut channel = None;
            answer_all(input, |line| port_side::answer(line, &mut channel))
                .map_err(Failure::Files)?;
        }
        ["differ"] => {
            need_port()?;
            return differ::run(requests(input)).map_err(Failure::Files);
        }
        ["generate", kind, options @ ..] => {
            let (count, seed) = options_of(options, 1_000)?;
            let list = generate::list(kind, count, seed).ok_or(Failure::Usage)?;
            write_lines(&list).map_err(Failure::Files)?;
        }
        ["replay-file"] => {
            let mut output = std::io::BufWriter::new(std::io::stdout().lock());
            let (written, left) =
                replay_file::write(requests(input), &mut output).map_err(Failure::Files)?;
            output.flush().map_err(Failure::Files)?;
            eprintln!("{written} requests written, {left} left out");
        }
        ["agree", options @ ..] => {
            let (count, seed) = options_of(options, 100_000)?;
            need_port()?;
            return Ok(agree::run(count, seed));
        }
        ["machine-agree", options @ ..] => {
            let (count, seed) = options_of(options, 200_000)?;
            need_port()?;
            return Ok(machine_agree::run(count, seed));
        }
        #[cfg(target_arch = "x86_64")]
        ["native", options @ ..] => {
            let (count, seed) = options_of(options, 400)?;
            need_port()?;
            let folder = std::path::Path::new("target/native");
            return native::run(count, seed, folder).map_err(Failure::Files);
        }
        ["soak", "list", seed, folder] => {
            let seed = parse::number(seed).map_err(|_| Failure::Usage)?;
            let lists = soak::stored_lists(seed);
            let folder = std::path::Path::new(folder);
            std::fs::write(folder.join("stdin"), lists.input).map_err(Failure::Files)?;
            std::fs::write(folder.join("stdout"), lists.output).map_err(Failure::Files)?;
            print!("{}", lists.reuse);
        }
        ["soak", options @ ..] => {
            let (side, options) = match options {
                ["rust", options @ ..] => (channel::Side::Reading, options),
                options => (channel::Side::Port, options),
            };
            let options = soak_options(side, options)?;
            if side == channel::Side::Port {
                need_port()?;
            }
            return Ok(soak::run(options));
        }
        ["bench", "machine"] => {
            need_port()?;
            return Ok(bench::machine());
        }
        ["bench", "emission", words @ ..] => {
            let (form, words) = match words {
                ["table", words @ ..] => (bench::Form::Table, words),
                words => (bench::Form::Lines, words),
            };
            let name = match words {
                [] => "",
                [name] => name,
                _ => return Err(Failure::Usage),
            };
            need_port()?;
            return Ok(bench::emission(form, name));
        }
        _ => return Err(Failure::Usage),
    }
    Ok(true)
}

fn need_port() -> Result<(), Failure> {
    port::LINKED.then_some(()).ok_or(Failure::WithoutPort)
}

/// The count and the seed, from options in any sequence.
fn options_of(options: &[&str], count: u64) -> Result<(u64, u64), Failure> {
    let (mut count, mut seed) = (count, 1);
    for option in options.chunks(2) {
        let [name, value] = option else {
            return Err(Failure::Usage);
        };
        let value = parse::number(value).map_err(|_| Failure::Usage)?;
        match *name {
            "--count" => count = value,
            "--seed" => seed = value,
            _ => return Err(Failure::Usage),
        }
    }
    Ok((count, seed))
}

/// The options of `soak`, in any sequence.
fn soak_options(side: channel::Side, options: &[&str]) -> Result<soak::Options, Failure> {
    let mut found = soak::Options {
        side,
        orders: 1_000_000,
        seed: 1,
        blocks: 2_000,
    };
    for option in options.chunks(2) {
        let [name, value] = option else {
            return Err(Failure::Usage);
        };
        let value = parse::number(value).map_err(|_| Failure::Usage)?;
        match *name {
            "--orders" => found.orders = value,
            "--seed" => found.seed = value,
            "--blocks" => found.blocks = value,
            _ => return Err(Failure::Usage),
        }
    }
    Ok(found)
}

/// Answers every request in sequence.
fn answer_all(input: impl BufRead, mut side: impl FnMut(&Line) -> Answer) -> std::io::Result<()> {
    let mut output = std::io::BufWriter::new(std::io::stdout().lock());
    for (index, text) in requests(input).enumerate() {
        let line = parse::line(&text?);
        let answer = line.map_or_else(Answer::Malformed, |line| side(&line));
        writeln!(output, "answer {}\n{answer}", index + 1)?;
    }
    output.flush()
}

/// The lines that are requests: neither blank nor comments.
fn requests(input: impl BufRead) -> impl Iterator<Item = std::io::Result<String>> {
    let lines = input.split(b'\n');
    let lines = lines.map(|line| Ok(String::from_utf8_lossy(&line?).into_owned()));
    lines.filter(|line| match line {
        Ok(line) => !line.trim().is_empty() && !line.starts_with('#'),
        Err(_) => true,
    })
}

fn write_lines(lines: &[String]) -> std::io::Result<()> {
    let mut output = std::io::BufWriter::new(std::io::stdout().lock());
    for line in lines {
        writeln!(output, "{line}")?;
    }
    output.flush()
}
