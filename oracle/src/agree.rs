//! Holds the port against the reading of the documents on many inputs.

use crate::bindings;
use crate::inputs::{self, Input, Question};
use crate::port::{self, Returned};
use crate::random::Random;
use crate::reading::{self, Refusal};
use crate::request::Form;

/// How many differences are shown.
const SHOWN: u64 = 5;

#[derive(Default)]
struct Tally {
    inputs: u64,
    answers: u64,
    accepted: u64,
    different: u64,
    damaged: u64,
}

/// What either side answers: a text (empty but for a listing) or a refusal.
type Outcome = Result<String, Refusal>;

/// Asks both about the inputs at the limits and about `count` random ones. True if they agree.
pub fn run(count: u64, seed: u64) -> bool {
    let mut random = Random::new(seed);
    let mut tally = Tally::default();
    tally.compare_other_kinds();
    for input in inputs::limits(&mut random) {
        tally.compare(&input, &mut random);
    }
    for _ in 0..count {
        let input = inputs::random(&mut random);
        tally.compare(&input, &mut random);
    }
    let Tally {
        inputs,
        answers,
        accepted,
        different,
        damaged,
    } = tally;
    println!(
        "seed {seed}: {inputs} inputs, {answers} answers ({accepted} accepted): \
         {different} differ, {damaged} damaged"
    );
    let contexts = bindings::run(seed);
    different == 0 && damaged == 0 && contexts
}

impl Tally {
    fn compare(&mut self, input: &Input, random: &mut Random) {
        self.inputs += 1;
        match input.question {
            Question::Check(form) => {
                let expected = by_document(form, &input.bytes);
                self.count(input, expected, by_port(form, &input.bytes));
            }
            Question::List => self.compare_lists(input, random),
        }
    }

    /// A kind that names no check is refused with 3, whatever the bytes.
    fn compare_other_kinds(&mut self) {
        for kind in [0, 4, 1 << 32 | 1, u64::MAX] {
            let found = port::check_kind(kind, &[]);
            self.answers += 1;
            if (found.number, found.value) != (3, 0) {
                self.different += 1;
                println!("check of kind {kind}: {found:?}");
            }
        }
    }

    /// Asks for the listing with ample room, with exactly enough and with too little.
    fn compare_lists(&mut self, input: &Input, random: &mut Random) {
        let ample = port::ample_text(&input.bytes);
        let mut rooms = vec![ample];
        if let Ok(text) = reading::list(&input.bytes, ample) {
            rooms.extend([text.len(), text.len() - 1, random.below(text.len())]);
        } else {
            rooms.push(0);
        }
        for room in rooms {
            let expected = reading::list(&input.bytes, room);
            match port::list(&input.bytes, room) {
                Err(port::Damaged) => {
                    self.damaged += 1;
                    show(self.damaged, input, "damaged");
                }
                Ok((returned, text)) => {
                    let text = String::from_utf8_lossy(&text).into_owned();
                    self.count(input, expected, outcome(returned, text));
                }
            }
        }
    }

    fn count(&mut self, input: &Input, expected: Outcome, found: Outcome) {
        self.answers += 1;
        self.accepted += u64::from(expected.is_ok());
        if expected == found {
            return;
        }
        self.different += 1;
        let answers = format!("documents: {expected:?}, port: {found:?}");
        show(self.different, input, &answers);
    }
}

/// Shows the first few of their sort.
fn show(number: u64, input: &Input, answers: &str) {
    if number <= SHOWN {
        let request: String = input.request().chars().take(200).collect();
        println!("{request}\n    {answers}");
    }
}

fn by_document(form: Form, bytes: &[u8]) -> Outcome {
    let verdict = match form {
        Form::Context => reading::check_context(bytes),
        Form::Records => reading::check_records(bytes),
        Form::Order => reading::check_order(bytes),
    };
    verdict.map(|()| String::new())
}

fn by_port(form: Form, bytes: &[u8]) -> Outcome {
    outcome(port::check(form, bytes), String::new())
}

fn outcome(Returned { number, value }: Returned, text: String) -> Outcome {
    match number {
        0 => Ok(text),
        number => Err(Refusal {
            number,
            value: Some(value),
        }),
    }
}
