//! Holds the port's run of records against the reading of the scope's machine: the answer, the
//! steps, the place, every register, every word of the stack and of the heap.

use crate::codes::FORMS;
use crate::hex;
use crate::interpreter::{self, Fault, Outcome, State};
use crate::port::{self, Ran};
use crate::programs::{self, Program};
use crate::random::Random;
use crate::shape::SHAPES;
use std::collections::BTreeMap;

/// How many differences are shown.
const SHOWN: u64 = 3;

/// Words on either side of the lent heap, which must stay as they are.
const MARGIN: usize = 8;
const FILLING: u64 = 0x5555_AAAA_5555_AAAA;

#[derive(Default)]
struct Tally {
    programs: u64,
    different: u64,
    outcomes: BTreeMap<&'static str, u64>,
    /// For each code, from 0.
    performed: Vec<u64>,
}

/// Puts the programs at the limits, each fault and `count` random programs to both. True if they
/// agree.
pub fn run(count: u64, seed: u64) -> bool {
    let mut tally = Tally {
        performed: vec![0; FORMS.len()],
        ..Tally::default()
    };
    for shape in SHAPES {
        let starts = [port::entry(shape), port::fresh(shape)];
        if starts != [interpreter::entry(shape.frame), interpreter::fresh(shape)] {
            println!("{shape:?}: the entry or the fresh state differs");
            tally.different += 1;
        }
        for (program, place, why) in programs::faults(shape) {
            let outcome = tally.compare(&program);
            let steps = place - 1;
            if outcome != (Outcome::Fault { steps, place, why }) {
                println!("{why:?} at {place} was made, {outcome:?} met");
                tally.different += 1;
            }
        }
    }
    for program in programs::other_shapes() {
        tally.compare(&program);
        tally.compare_start(&program);
    }
    for program in programs::limits() {
        tally.compare(&program);
    }
    let made = tally.programs;
    let mut random = Random::new(seed);
    for _ in 0..count {
        let program = programs::random(&mut random);
        tally.compare(&program);
    }
    tally.report(seed, made);
    tally.different == 0
}

impl Tally {
    fn compare(&mut self, program: &Program) -> Outcome {
        self.programs += 1;
        let Program {
            chosen,
            records,
            words,
            limit,
            ..
        } = program;
        let inside = MARGIN..MARGIN + program.heap.len();
        let mut lent = vec![FILLING; program.heap.len() + 2 * MARGIN];
        lent[inside.clone()].copy_from_slice(&program.heap);
        let mut expected = (program.state.clone(), lent.clone());
        let mut found = (program.state.clone(), lent);
        let performed = &mut self.performed;
        let outcome = interpreter::run_watched(
            *chosen,
            records,
            &mut expected.0,
            &mut expected.1[inside.clone()],
            words,
            *limit,
            |code| performed[usize::from(code.number()) - 1] += 1,
        );
        let (state, heap) = (&mut found.0, &mut found.1[inside]);
        let ran = port::run(*chosen, records, state, heap, words, *limit);
        *self.outcomes.entry(name(&outcome)).or_default() += 1;
        if outcome.numbers() != ran || expected != found {
            self.different += 1;
            if self.different <= SHOWN {
                show(program, &outcome, &ran, &expected, &found);
            }
        }
        outcome
    }

    /// A start on a program's stack: a state of the shape, or refused with 23 for the edition, then
    /// with 3 for the frame, and nothing written.
    fn compare_start(&mut self, program: &Program) {
        let Program { chosen, state, .. } = program;
        let stack_words = state.stack.len();
        let known = chosen.shape();
        let known = known.filter(|shape| shape.frame.stack_words() == stack_words);
        let number = match known {
            Some(_) => 0,
            None if chosen.edition().is_none() => 23,
            None => 3,
        };
        for (fresh, started) in [
            (false, known.map(|shape| interpreter::entry(shape.frame))),
            (true, known.map(interpreter::fresh)),
        ] {
            let expected = (number, started.unwrap_or_else(|| state.clone()));
            let mut state = state.clone();
            let found = (port::start(*chosen, fresh, &mut state), state);
            if expected != found {
                self.different += 1;
                println!("a start in {chosen:?} differs");
            }
        }
    }

    fn report(&self, seed: u64, made: u64) {
        println!("how the runs came out, by the scope:");
        for (name, count) in &self.outcomes {
            println!("{count:>9} {name}");
        }
        println!("how many times each code was performed:");
        for row in FORMS
            .iter()
            .zip(&self.performed)
            .collect::<Vec<_>>()
            .chunks(6)
        {
            let row = row
                .iter()
                .map(|(form, count)| format!("{:>12} {count:<8}", form.name));
            println!("{}", row.collect::<String>().trim_end());
        }
        println!(
            "seed {seed}: {made} made and {} random programs, {} steps: {} differ",
            self.programs - made,
            self.performed.iter().sum::<u64>(),
            self.different
        );
    }
}

fn name(outcome: &Outcome) -> &'static str {
    match outcome {
        Outcome::Ended {
            at_return: false, ..
        } => "ended past the last record",
        Outcome::Ended {
            at_return: true, ..
        } => "ended at RET",
        Outcome::NoEdition => "refused: no such edition",
        Outcome::Malformed { place: 0 } => "refused: the heap",
        Outcome::Malformed { .. } => "refused: a record",
        Outcome::NoFrame => "refused: no such frame",
        Outcome::Limit { .. } => "step limit reached",
        Outcome::Fault { why, .. } => match why {
            Fault::AddressOutside => "fault: address outside",
            Fault::AddressUnaligned => "fault: address unaligned",
            Fault::LabelAbsent => "fault: jump to an absent label",
            Fault::LabelDoubled => "fault: jump to a doubled label",
            Fault::RegisterJump => "fault: JMP",
            Fault::LabelAddress => "fault: LEAL",
            Fault::NoCompare => "fault: conditional jump not after a compare",
            Fault::CallOfOtherName => "fault: CALL to another name",
            Fault::CallUnaligned => "fault: CALL with STACK unaligned",
            Fault::ReturnElsewhere => "fault: RET elsewhere",
            Fault::DividendNotExtended => "fault: IDIV, register 5 not from CQO",
            Fault::DivisorZero => "fault: IDIV by zero",
            Fault::QuotientTooLarge => "fault: IDIV of -2^63 by -1",
        },
    }
}

/// A program and how the two came out, with the words that differ.
fn show(
    program: &Program,
    outcome: &Outcome,
    ran: &Ran,
    expected: &(State, Vec<u64>),
    found: &(State, Vec<u64>),
) {
    let records: String = hex::write(&program.records).chars().take(2_400).collect();
    println!(
        "{:?}, limit {}, records {records}",
        program.chosen, program.limit
    );
    println!("    registers {:?}", program.state.registers);
    println!("    the scope: {outcome:?}, port: {ran}");
    let parts = [
        (
            "register",
            &expected.0.registers[..],
            &found.0.registers[..],
        ),
        ("stack word", &expected.0.stack, &found.0.stack),
        ("heap word, margin counted", &expected.1, &found.1),
    ];
    for (part, expected, found) in parts {
        let words = expected.iter().zip(found).enumerate();
        for (index, (expected, found)) in words.filter(|(_, (x, y))| x != y) {
            println!("    {part} {index}: the scope {expected}, port {found}");
        }
    }
}
