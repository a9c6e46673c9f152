//! Byte strings for the checks and the lister: well-formed, damaged, random, and at every limit.

use crate::codes;
use crate::hex;
use crate::random::Random;
use crate::record::{self, Record};
use crate::request::Form;
use crate::well_formed::{binding, instruction, order};

#[derive(Debug, Clone, Copy, PartialEq, Eq)]
pub enum Question {
    Check(Form),
    List,
}

pub const QUESTIONS: [Question; 4] = [
    Question::Check(Form::Context),
    Question::Check(Form::Records),
    Question::Check(Form::Order),
    Question::List,
];

#[derive(Debug)]
pub struct Input {
    pub question: Question,
    pub bytes: Vec<u8>,
}

impl Input {
    /// The request that asks for it.
    pub fn request(&self) -> String {
        let words = match self.question {
            Question::Check(Form::Context) => "check context",
            Question::Check(Form::Records) => "check records",
            Question::Check(Form::Order) => "check order",
            Question::List => "list",
        };
        format!("{words} {}", hex::write(&self.bytes))
    }
}

/// The length of the record that a question is about.
fn unit(question: Question) -> usize {
    match question {
        Question::Check(Form::Context) => 8,
        Question::Check(Form::Records | Form::Order) | Question::List => record::SIZE,
    }
}

/// How many records a question allows.
fn most(question: Question) -> usize {
    match question {
        Question::Check(Form::Context) => 4_096,
        Question::Check(Form::Records) => 65_536,
        Question::Check(Form::Order) => 1,
        Question::List => 2_730,
    }
}

/// A well-formed record for the question.
fn well_formed(question: Question, random: &mut Random) -> Vec<u8> {
    match question {
        Question::Check(Form::Context) => binding(random).to_vec(),
        Question::Check(Form::Order) => {
            let code = 1 + random.below(7) as u8;
            order(code, random).to_vec()
        }
        Question::Check(Form::Records) | Question::List => {
            let code = 1 + random.below(codes::FORMS.len()) as u8;
            instruction(code, random).to_bytes().to_vec()
        }
    }
}

/// Well-formed records in a row.
fn row(question: Question, count: usize, random: &mut Random) -> Vec<u8> {
    let records = (0..count).map(|_| well_formed(question, random));
    records.flatten().collect()
}

/// One change to the bytes: a byte, a cut or an addition, or a field with a forbidden value.
fn damage(question: Question, bytes: &mut Vec<u8>, random: &mut Random) {
    if bytes.is_empty() {
        let length = 1 + random.below(30);
        *bytes = random.bytes(length);
        return;
    }
    let at = random.below(bytes.len());
    match random.below(8) {
        0 => bytes[at] = random.word() as u8,
        1 => bytes[at] ^= 1 << random.below(8),
        2 => bytes[at] = bytes[at].wrapping_add(1),
        3 => bytes.truncate(at),
        4 => {
            let length = 1 + random.below(unit(question) + 1);
            bytes.extend(random.bytes(length));
        }
        5 => {
            let start = at - at % unit(question);
            bytes.drain(start..bytes.len().min(start + unit(question)));
            bytes.insert(at.min(bytes.len()), random.word() as u8);
        }
        _ => forbid(question, at / unit(question), bytes, random),
    }
}

/// Puts a value at or beside a limit into a field of a whole record.
fn forbid(question: Question, index: usize, bytes: &mut [u8], random: &mut Random) {
    let Some(record) = bytes.chunks_exact_mut(unit(question)).nth(index) else {
        return;
    };
    match (question, random.below(4)) {
        (Question::Check(Form::Context), _) => {
            let field = random.below(4);
            record[field] = random.pick(&[0, 1, 2, 0xA6, 0xA8, 0xFF]);
        }
        (_, 0) => record[1] = random.pick(&[0, 1, 7, 8, 43, 44, 45, 255]),
        (_, 1) => {
            let field = 2 + random.below(2);
            record[field] = random.pick(&[0, 1, 2, 4, 5, 15, 16, 255]);
        }
        (_, 2) => {
            let beside = record::ASM_MAIN + random.below(18) as u32;
            let label = random.pick(&[0, 1, beside, beside, record::ASM_MAIN - 1, u32::MAX]);
            record[4..8].copy_from_slice(&label.to_le_bytes());
        }
        _ => {
            let field = 8 + random.below(16);
            record[field] = random.pick(&[0, 1, 0x80, 0xFF]);
        }
    }
}

/// How many records an input has: mostly few, at times about the question's limit.
fn count(question: Question, random: &mut Random) -> usize {
    let about_limit = match question {
        Question::Check(Form::Context) => random.once_in(200),
        Question::Check(Form::Records) => random.once_in(2_000),
        Question::Check(Form::Order) => true,
        Question::List => random.once_in(200),
    };
    match random.below(10) {
        _ if about_limit => (most(question) + random.below(3)).saturating_sub(random.below(2)),
        0 => random.below(200),
        _ => random.below(12),
    }
}

/// A random input: of random bytes, well formed, or well formed and then damaged.
pub fn random(random: &mut Random) -> Input {
    let question = random.pick(&QUESTIONS);
    let bytes = match random.below(8) {
        0 => {
            let length = random.below(200);
            random.bytes(length)
        }
        1 | 2 => {
            let count = count(question, random);
            row(question, count, random)
        }
        _ => {
            let count = count(question, random);
            let mut bytes = row(question, count, random);
            for _ in 0..1 + random.below(2) {
                damage(question, &mut bytes, random);
            }
            bytes
        }
    };
    Input { question, bytes }
}

/// The inputs at the limits, the same for every seed but for the fields' contents.
pub fn limits(random: &mut Random) -> Vec<Input> {
    let mut inputs = Vec::new();
    for question in QUESTIONS {
        counts_at_limits(question, random, &mut inputs);
        values_in_each_byte(question, random, &mut inputs);
    }
    for code in 0..=u8::MAX {
        for bytes in instructions_of(code, random) {
            for question in [Question::Check(Form::Records), Question::List] {
                let bytes = bytes.to_vec();
                inputs.push(Input { question, bytes });
            }
        }
        for bytes in fields_filled(order(code, random)) {
            let question = Question::Check(Form::Order);
            let bytes = bytes.to_vec();
            inputs.push(Input { question, bytes });
        }
    }
    inputs
}

/// None, one, the most and one more record, each whole, cut, lengthened and with one bad.
fn counts_at_limits(question: Question, random: &mut Random, inputs: &mut Vec<Input>) {
    let mut ask = |bytes: Vec<u8>| inputs.push(Input { question, bytes });
    for count in [0, 1, most(question), most(question) + 1] {
        let bytes = row(question, count, random);
        let mut lengthened = bytes.clone();
        lengthened.push(random.word() as u8);
        ask(lengthened);
        if count > 0 {
            ask(bytes[..bytes.len() - 1].to_vec());
            let mut bad = bytes.clone();
            let at = random.below(count) * unit(question);
            bad[at] ^= 0x10;
            ask(bad);
        }
        ask(bytes);
    }
}

/// One record with each of its bytes changed in turn to many values.
fn values_in_each_byte(question: Question, random: &mut Random, inputs: &mut Vec<Input>) {
    for at in 0..unit(question) {
        for value in [
            0, 1, 2, 4, 5, 7, 8, 15, 16, 0x7F, 0x80, 0xA7, 0xA8, 0xA9, 0xFF,
        ] {
            let mut bytes = well_formed(question, random);
            bytes[at] = value;
            inputs.push(Input { question, bytes });
        }
    }
}

/// Records of a code number; of a known code one that is well formed, and it with other fields.
fn instructions_of(code: u8, random: &mut Random) -> Vec<[u8; record::SIZE]> {
    if codes::form(code).is_none() {
        let unknown = Record {
            code,
            ..Record::default()
        };
        return vec![unknown.to_bytes()];
    }
    let instruction = instruction(code, random);
    let labels = [0, 3, 4, 15, 16].map(|name| Record {
        label: record::ASM_MAIN + name,
        ..instruction
    });
    let mut records = fields_filled(instruction.to_bytes());
    records.extend(labels.map(Record::to_bytes));
    records
}

/// A record of 24 bytes as it is, and with each field in turn set to some small numbers.
fn fields_filled(bytes: [u8; record::SIZE]) -> Vec<[u8; record::SIZE]> {
    let mut records = vec![bytes];
    for field in [2..3, 3..4, 4..8, 8..12, 12..16, 8..16, 16..24] {
        for filling in [0, 1, 2, 4, 5, 15, 16] {
            let mut filled = bytes;
            filled[field.clone()].fill(0);
            filled[field.start] = filling;
            records.push(filled);
        }
    }
    records
}
