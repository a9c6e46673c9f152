//! Times the port's machine beside the plain interpreter in Rust, on records that the published
//! Rust emits.

mod emission;

pub use emission::{Form, emission};

use crate::answer::Answer;
use crate::interpreter::{self, HEAP_START, Outcome, State};
use crate::parse;
use crate::port;
use crate::random::Random;
use crate::record::SIZE;
use crate::rust_side;
use crate::shape::Shape;
use std::hint::black_box;
use std::time::{Duration, Instant};

/// The machine is timed in the first edition and the smaller frame.
const SHAPE: Shape = Shape::BASE;
const HEAP_WORDS: usize = 80 * SHAPE.edition.block_words();
const WORDS: [u64; 9] = [0; 9];

/// How many times each side runs a program, in turns. The least time counts.
const TURNS: u64 = 4_000;

/// Records, and what they are run on.
struct Program {
    name: &'static str,
    records: Vec<u8>,
    state: State,
    heap: Vec<u64>,
}

/// Prints a line for each program. False if the two came out differently.
pub fn machine() -> bool {
    let stored = store();
    let loaded = shared_load(&stored);
    let mut alike = true;
    for program in [stored, loaded, mixed_routine(), even_routine()] {
        alike &= time(&program);
    }
    alike
}

/// The bytes of the records that the published Rust emits for a request.
fn emitted(request: &str) -> Vec<u8> {
    let line = parse::line(request).expect("a request");
    match rust_side::answer(line.chosen, &line.request) {
        Answer::Records(records, _) => records.iter().flat_map(|r| r.to_bytes()).collect(),
        answer => unreachable!("the Rust emits records, not {answer}"),
    }
}

/// A store of 133 variables, of both kinds, into 66 new blocks.
fn store() -> Program {
    let setup = emitted("routine 0");
    let mut state = interpreter::entry(SHAPE.frame);
    let mut heap = vec![0; HEAP_WORDS];
    by_rust(&setup[..16 * SIZE], &mut state, &mut heap, 16);
    assert_eq!(state.registers[2], HEAP_START);
    Program {
        name: "store of 133",
        records: emitted(&format!("store {} -", kinds())),
        state,
        heap,
    }
}

/// A load of the 133 variables from blocks that are shared.
fn shared_load(stored: &Program) -> Program {
    let (mut state, mut heap) = (stored.state.clone(), stored.heap.clone());
    for records in [&stored.records, &emitted("share_block_n p0 1")] {
        by_rust(records, &mut state, &mut heap, u64::MAX);
    }
    Program {
        name: "shared load of 133",
        records: emitted(&format!("load {} -", kinds())),
        state,
        heap,
    }
}

/// Every third variable is linked, to nothing.
fn kinds() -> String {
    "eel".repeat(44) + "e"
}

/// A routine without a jump: arithmetic and moves between registers and spills, in no pattern
/// that a processor could foresee.
fn mixed_routine() -> Program {
    let mut random = Random::new(1);
    let mut body = String::new();
    for _ in 0..1_000 {
        let [t, fst, snd] = [(); 3].map(|()| 1 + 2 * random.below(12));
        let operation = random.pick(&["add", "sub", "mul", "mov", "load_immediate"]);
        body += &match operation {
            "mov" => format!("mov p{t} p{fst}; "),
            "load_immediate" => format!("load_immediate p{t} {snd}; "),
            _ => format!("{operation} p{t} p{fst} p{snd}; "),
        };
    }
    routine("routine of mixed operations", &body)
}

/// A routine without a jump in which every operation is the same.
fn even_routine() -> Program {
    routine("routine of additions", &"add p1 p3 p5; ".repeat(1_000))
}

fn routine(name: &'static str, body: &str) -> Program {
    Program {
        name,
        records: emitted(&format!("{body}routine 5")),
        state: interpreter::entry(SHAPE.frame),
        heap: vec![0; HEAP_WORDS],
    }
}

/// How long the sides took at the least, the port first.
struct Least {
    whole: [Duration; 2],
    /// With a limit of 0: the check of the records, and the state in and out.
    check: [Duration; 2],
}

fn time(program: &Program) -> bool {
    let mut least = Least {
        whole: [Duration::MAX; 2],
        check: [Duration::MAX; 2],
    };
    let mut steps = [0; 2];
    let left = (program.state.clone(), program.heap.clone());
    let mut left = [left.clone(), left];
    for _ in 0..TURNS {
        for side in 0..2 {
            for (limit, least) in [(0, &mut least.check), (u64::MAX, &mut least.whole)] {
                let (state, heap) = &mut left[side];
                state.clone_from(&program.state);
                heap.clone_from(&program.heap);
                let records = black_box(&program.records);
                let start = Instant::now();
                let done = SIDES[side](records, state, heap, limit);
                least[side] = least[side].min(start.elapsed());
                steps[side] = black_box(done);
            }
        }
    }
    let alike = steps[0] == steps[1] && left[0] == left[1];
    report(program, steps[0], &least);
    if !alike {
        println!("    the port and the Rust came out differently");
    }
    alike
}

fn report(program: &Program, steps: u64, least: &Least) {
    let count = program.records.len() / SIZE;
    println!("{}: {count} records, {steps} steps", program.name);
    let line = |what: &str, [port, rust]: [Duration; 2], unit: &str, units: u64| {
        let [port, rust] = [port, rust].map(|time| time.as_nanos() as f64 / units as f64);
        let ratio = port / rust;
        println!("    {what}: port {port:.2}, Rust {rust:.2} ns a {unit}, ratio {ratio:.2}");
    };
    let alone = [0, 1].map(|side| least.whole[side].saturating_sub(least.check[side]));
    line("whole run", least.whole, "step", steps);
    line("check", least.check, "record", count as u64);
    line("steps alone", alone, "step", steps);
}

/// Runs records with a limit; the steps done.
type Side = fn(&[u8], &mut State, &mut [u64], u64) -> u64;

const SIDES: [Side; 2] = [by_port, by_rust];

fn by_port(records: &[u8], state: &mut State, heap: &mut [u64], limit: u64) -> u64 {
    let ran = port::run(SHAPE.chosen(), records, state, heap, &WORDS, limit);
    assert!(matches!(ran.number, 0 | 12), "{ran}");
    ran.steps
}

fn by_rust(records: &[u8], state: &mut State, heap: &mut [u64], limit: u64) -> u64 {
    match interpreter::run(SHAPE.chosen(), records, state, heap, &WORDS, limit) {
        Outcome::Ended { steps, .. } => steps,
        Outcome::Limit { limit } => limit,
        outcome => unreachable!("{outcome:?}"),
    }
}
