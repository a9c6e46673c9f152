//! Random requests that both the Rust and the port answer.

use crate::hex;
use crate::random::Random;
use crate::record::LAST_FRESH;
use crate::shape::{Chosen, Frame, Shape};
use crate::well_formed::{immediate, instruction};

pub const CONDITIONS: [&str; 6] = [
    "equal",
    "not_equal",
    "less",
    "less_or_equal",
    "greater",
    "greater_or_equal",
];

pub const ZERO_CONDITIONS: [&str; 6] = [
    "zero",
    "not_zero",
    "less_zero",
    "less_or_equal_zero",
    "greater_zero",
    "greater_or_equal_zero",
];

pub const ARITHMETIC: [&str; 5] = ["add", "sub", "mul", "div", "rem"];

pub const LABELS: [&str; 10] = [
    "lab1",
    "lab2147483647",
    "77",
    "asm_main",
    "cleanup",
    "PRINT_I64",
    "PRINTLN_I64",
    "n2147483664",
    "n3000000000",
    "n4294967295",
];

/// Requests as they are asked in a shape.
pub fn in_shape<'a>(
    chosen: Chosen,
    requests: impl IntoIterator<Item = &'a String>,
) -> impl Iterator<Item = String> {
    let requests = requests.into_iter();
    requests.map(move |request| format!("{chosen}{request}"))
}

/// A request in a shape, with contexts of at most the given length.
pub fn random(shape: Shape, longest: usize, random: &mut Random) -> String {
    format!("{}{}", shape.chosen(), in_base(shape, longest, random))
}

/// The same without its shape's prefixes.
fn in_base(shape: Shape, longest: usize, random: &mut Random) -> String {
    let frame = shape.frame;
    if random.once_in(8) {
        return query(shape, random);
    }
    let most = if random.once_in(3) { 5 } else { 1 };
    let mut operations: Vec<String> = (0..1 + random.below(most))
        .map(|_| operation(frame, longest, random))
        .collect();
    if random.once_in(12) {
        operations.push(format!("routine {}", random.below(7)));
    }
    format!("{}{}", counter(random), operations.join("; "))
}

/// A counter in front of a request: none, in the middle, or near the limit.
fn counter(random: &mut Random) -> String {
    match random.below(10) {
        0..5 => String::new(),
        5..9 => format!("@{} ", random.below(1 << 31)),
        _ => format!("@{} ", LAST_FRESH as usize - random.below(30)),
    }
}

fn query(shape: Shape, random: &mut Random) -> String {
    let Shape { edition, frame } = shape;
    let which = fst_or_snd(random);
    let most = frame.most_variables();
    match random.below(5) {
        0 => format!("position {}", random.below(frame.positions() + 3)),
        1 => format!("fresh_temporary {which} {}", random.below(most + 3)),
        2 => format!("stack_offset {}", 1 + random.below(frame.spills() - 1)),
        3 => format!("field_offset {which} {}", random.below(edition.fields())),
        _ => {
            let id = random.below(6);
            format!("variable_temporary {which} {id} {}", ids(most, random))
        }
    }
}

pub fn fst_or_snd(random: &mut Random) -> &'static str {
    random.pick(&["fst", "snd"])
}

/// Few different ids, so that a context has some twice; with a run that leads to the last
/// positions.
fn ids(most: usize, random: &mut Random) -> String {
    let mut ids: Vec<String> = (0..random.below(8))
        .map(|_| random.below(6).to_string())
        .collect();
    if random.once_in(3) {
        ids.insert(0, format!("9*{}", most - 13 + random.below(15)));
    }
    if ids.is_empty() {
        return "-".to_string();
    }
    ids.join(",")
}

fn operation(frame: Frame, longest: usize, random: &mut Random) -> String {
    let [t, fst, snd] = [(); 3].map(|()| operand(frame, random));
    let label = random.pick(&LABELS);
    match random.below(23) {
        0 => format!("label {label}"),
        1 => format!("jump {t}"),
        2 => format!("jump_label {label}"),
        3 => format!("jump_label_fixed {label}"),
        4 => format!(
            "jump_label_if_{} {fst} {snd} {label}",
            random.pick(&CONDITIONS)
        ),
        5 => format!(
            "jump_label_if_{} {t} {label}",
            random.pick(&ZERO_CONDITIONS)
        ),
        6 => format!("load_immediate {t} {}", immediate(random)),
        7 => format!("load_label {t} {label}"),
        8 => format!("add_and_jump {t} {}", immediate(random)),
        9..12 => format!("{} {t} {fst} {snd}", random.pick(&ARITHMETIC)),
        12 => format!("mov {t} {fst}"),
        13 => print(frame, longest, random),
        14 => format!("compare {fst} {snd}"),
        15 => format!("compare_immediate {t} {}", immediate(random)),
        16 => format!("erase_block {t}"),
        17 => format!("share_block_n {t} {}", share_count(random)),
        18 | 19 => {
            let (stored, remaining) = split(longest, random);
            format!("store {stored} {remaining}")
        }
        20 | 21 => {
            let (loaded, existing) = split(longest, random);
            format!("load {loaded} {existing}")
        }
        _ => raw(random),
    }
}

/// A register 4..15, a spill but the first, or a position.
fn operand(frame: Frame, random: &mut Random) -> String {
    match random.below(5) {
        0 | 1 => format!("r{}", 4 + random.below(12)),
        2 | 3 => format!("s{}", 1 + random.below(frame.spills() - 1)),
        _ => format!("p{}", random.below(frame.positions())),
    }
}

fn print(frame: Frame, longest: usize, random: &mut Random) -> String {
    let length = random.below(longest + 1);
    let source = operand(frame, random);
    let newline = random.below(2);
    format!("print_i64 {newline} {source} {}", kinds(length, random))
}

pub fn share_count(random: &mut Random) -> u64 {
    let random_count = random.word() & LAST_FRESH;
    random.pick(&[0, 1, 2, 3, LAST_FRESH, random_count])
}

/// Two contexts, together of at most the given length.
fn split(longest: usize, random: &mut Random) -> (String, String) {
    let length = random.below(longest + 1);
    let first = random.below(length + 1);
    (kinds(first, random), kinds(length - first, random))
}

/// A context of so many mixed kinds.
pub fn kinds(length: usize, random: &mut Random) -> String {
    let letters: Vec<char> = (0..length).map(|_| random.pick(&['e', 'l'])).collect();
    write_kinds(&letters)
}

/// Kinds as requests write them, a run with its length.
pub fn write_kinds(letters: &[char]) -> String {
    if letters.is_empty() {
        return "-".to_string();
    }
    let runs = letters.chunk_by(|one, next| one == next);
    runs.map(|run| match run.len() {
        1 => run[0].to_string(),
        length => format!("{}{length}", run[0]),
    })
    .collect()
}

fn raw(random: &mut Random) -> String {
    let code = 1 + random.below(44) as u8;
    let record = hex::write(&instruction(code, random).to_bytes());
    match random.below(3) {
        0 => format!("rawn {} {record}", random.below(5)),
        _ => format!("raw {record}"),
    }
}
