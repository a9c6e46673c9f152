//! A reading of the scope's machine, made from the document, the Intel manual and the text that
//! the published Rust prints for each instruction, and not from the port, to be held against it.
//! It is plain Rust on mutable words, so it also serves to time the port's machine.

use crate::codes::{CODES, Code};
use crate::port::Ran;
use crate::reading;
use crate::record::{PRINT_I64, PRINTLN_I64, SIZE};
use crate::shape::{Chosen, Edition, Frame, Shape};

pub const STACK: usize = 0;
pub const RETURN1: usize = 4;
pub const RETURN2: usize = 5;

/// "A stack of 320 words ... ends at 2^40; STACK enters at 2^40−8"; with 512 spills it "is then
/// 576 words".
pub const STACK_END: u64 = 1 << 40;
pub const STACK_AT_ENTRY: u64 = STACK_END - 8;

/// The address of the first word of a stack of so many.
pub fn stack_start(words: usize) -> u64 {
    STACK_END - 8 * words as u64
}

/// "The lent heap is 2 to 1,048,576 blocks from address 65,536."
pub const HEAP_START: u64 = 65_536;
pub const MOST_BLOCKS: usize = 1_048_576;

/// "A print CALL puts nine lent words in registers 1 and 4..11, in that order."
const PRINTED: [usize; 9] = [1, 4, 5, 6, 7, 8, 9, 10, 11];

#[derive(Debug, Clone, PartialEq, Eq)]
pub struct State {
    pub registers: [u64; 16],
    pub stack: Vec<u64>,
}

/// "Entered with 65,536 in register 7 and zero in the others but STACK", the stack "all zero".
pub fn entry(frame: Frame) -> State {
    let mut registers = [0; 16];
    registers[7] = HEAP_START;
    registers[STACK] = STACK_AT_ENTRY;
    State {
        registers,
        stack: vec![0; frame.stack_words()],
    }
}

/// "Runs of operations start with STACK where the routine's setup leaves it": below six pushes and
/// the spills.
pub fn stack_in_body(frame: Frame) -> u64 {
    STACK_AT_ENTRY - 6 * 8 - 8 * frame.spills() as u64
}

/// "The first state follows the 16 records before the body of a 0-argument routine": six pushes of
/// zeros, room for the spills, the heap's first block in HEAP and the second in FREE.
pub fn fresh(shape: Shape) -> State {
    let mut state = entry(shape.frame);
    state.registers[STACK] = stack_in_body(shape.frame);
    state.registers[2] = HEAP_START;
    state.registers[3] = HEAP_START + shape.edition.block_bytes();
    state
}

/// Why a record faults.
#[derive(Debug, Clone, Copy, PartialEq, Eq, PartialOrd, Ord)]
pub enum Fault {
    AddressOutside,
    AddressUnaligned,
    LabelAbsent,
    LabelDoubled,
    RegisterJump,
    LabelAddress,
    NoCompare,
    CallOfOtherName,
    CallUnaligned,
    ReturnElsewhere,
    DividendNotExtended,
    DivisorZero,
    QuotientTooLarge,
}

/// How a run came out; places count from 1.
#[derive(Debug, Clone, Copy, PartialEq, Eq)]
pub enum Outcome {
    /// Past the last record, or at RET.
    Ended {
        steps: u64,
        at_return: bool,
    },
    /// No such edition, which comes before all else.
    NoEdition,
    Malformed {
        place: u64,
    },
    /// No such frame, or another number of words on the stack than it has.
    NoFrame,
    Fault {
        steps: u64,
        place: u64,
        why: Fault,
    },
    Limit {
        limit: u64,
    },
}

impl Outcome {
    /// The numbers that the port has for it.
    pub fn numbers(&self) -> Ran {
        let (number, steps, place) = match *self {
            Outcome::Ended { steps, .. } => (0, steps, 0),
            Outcome::NoEdition => (23, 0, 0),
            Outcome::Malformed { place } => (2, 0, place),
            Outcome::NoFrame => (3, 0, 0),
            Outcome::Fault { steps, place, .. } => (11, steps, place),
            Outcome::Limit { limit } => (12, limit, 0),
        };
        Ran {
            number,
            steps,
            place,
        }
    }
}

/// Where a record leads.
enum Next {
    Following,
    Label(u32),
    End,
}

struct Machine<'a> {
    registers: &'a mut [u64; 16],
    stack: &'a mut [u64],
    stack_start: u64,
    heap: &'a mut [u64],
    words: &'a [u64; 9],
    /// The last compare's operands, while only moves have come since.
    compared: Option<(u64, u64)>,
}

pub fn run(
    chosen: Chosen,
    bytes: &[u8],
    state: &mut State,
    heap: &mut [u64],
    words: &[u64; 9],
    limit: u64,
) -> Outcome {
    run_watched(chosen, bytes, state, heap, words, limit, |_| ())
}

/// The run, with a look at each code whose record was performed.
pub fn run_watched(
    chosen: Chosen,
    bytes: &[u8],
    state: &mut State,
    heap: &mut [u64],
    words: &[u64; 9],
    limit: u64,
    mut performed: impl FnMut(Code),
) -> Outcome {
    let Some(edition) = chosen.edition() else {
        return Outcome::NoEdition;
    };
    if !heap_allowed(edition, heap.len()) {
        return Outcome::Malformed { place: 0 };
    }
    if let Err(refusal) = reading::check_records(bytes) {
        let place = refusal.value.expect("a bad record has a place");
        return Outcome::Malformed { place };
    }
    let frame = chosen.frame();
    if frame.is_none_or(|frame| frame.stack_words() != state.stack.len()) {
        return Outcome::NoFrame;
    }
    let (records, _) = bytes.as_chunks::<SIZE>();
    let mut machine = Machine {
        registers: &mut state.registers,
        stack_start: stack_start(state.stack.len()),
        stack: &mut state.stack,
        heap,
        words,
        compared: None,
    };
    let mut index = 0;
    let mut steps = 0;
    while let Some(record) = records.get(index) {
        if steps == limit {
            return Outcome::Limit { limit };
        }
        let next = machine.step(record).and_then(|next| match next {
            Next::Following => Ok(Some(index + 1)),
            Next::Label(label) => Ok(Some(target(records, label)?)),
            Next::End => Ok(None),
        });
        match next {
            Err(why) => {
                let place = index as u64 + 1;
                return Outcome::Fault { steps, place, why };
            }
            Ok(next) => {
                performed(code(record));
                steps += 1;
                match next {
                    Some(next) => index = next,
                    None => {
                        return Outcome::Ended {
                            steps,
                            at_return: true,
                        };
                    }
                }
            }
        }
    }
    Outcome::Ended {
        steps,
        at_return: false,
    }
}

/// "Heap not 2 to 1,048,576 whole blocks" is malformed.
fn heap_allowed(edition: Edition, words: usize) -> bool {
    let block = edition.block_words();
    words.is_multiple_of(block) && (2..=MOST_BLOCKS).contains(&(words / block))
}

fn code(record: &[u8; SIZE]) -> Code {
    CODES[usize::from(record[1]) - 1]
}

fn label(record: &[u8; SIZE]) -> u32 {
    u32::from_le_bytes(record[4..8].try_into().unwrap())
}

fn offset(record: &[u8; SIZE]) -> u64 {
    u64::from_le_bytes(record[8..16].try_into().unwrap())
}

fn value(record: &[u8; SIZE]) -> u64 {
    u64::from_le_bytes(record[16..].try_into().unwrap())
}

/// "A jump goes to the one LAB record with its label"; "absent or doubled" faults.
fn target(records: &[[u8; SIZE]], wanted: u32) -> Result<usize, Fault> {
    let is_target =
        |record: &[u8; SIZE]| record[1] == const { Code::LAB.number() } && label(record) == wanted;
    let first = records.iter().position(is_target);
    let first = first.ok_or(Fault::LabelAbsent)?;
    if records[first + 1..].iter().any(is_target) {
        return Err(Fault::LabelDoubled);
    }
    Ok(first)
}

impl Machine<'_> {
    /// Performs one record. Whatever can fault comes before anything is written.
    #[inline(always)]
    fn step(&mut self, record: &[u8; SIZE]) -> Result<Next, Fault> {
        use Code::*;
        let code = code(record);
        let (a, b) = (usize::from(record[2]), usize::from(record[3]));
        let compared = self.compared.take();
        match code {
            ADD => self.registers[a] = self.registers[a].wrapping_add(self.registers[b]),
            ADDRM => {
                let word = *self.word(b, offset(record))?;
                self.registers[a] = self.registers[a].wrapping_add(word);
            }
            ADDMR => {
                let source = self.registers[b];
                let word = self.word(a, offset(record))?;
                *word = word.wrapping_add(source);
            }
            ADDI => self.registers[a] = self.registers[a].wrapping_add(value(record)),
            ADDIM => {
                let word = self.word(a, offset(record))?;
                *word = word.wrapping_add(value(record));
            }
            SUB => self.registers[a] = self.registers[a].wrapping_sub(self.registers[b]),
            SUBRM => {
                let word = *self.word(b, offset(record))?;
                self.registers[a] = self.registers[a].wrapping_sub(word);
            }
            SUBMR => {
                let source = self.registers[b];
                let word = self.word(a, offset(record))?;
                *word = word.wrapping_sub(source);
            }
            SUBI => self.registers[a] = self.registers[a].wrapping_sub(value(record)),
            IMUL => self.registers[a] = self.registers[a].wrapping_mul(self.registers[b]),
            IMULRM => {
                let word = *self.word(b, offset(record))?;
                self.registers[a] = self.registers[a].wrapping_mul(word);
            }
            // "which the manual lacks, multiplies the memory word"
            IMULMR => {
                let source = self.registers[b];
                let word = self.word(a, offset(record))?;
                *word = word.wrapping_mul(source);
            }
            IDIV => self.divide(self.registers[a])?,
            IDIVM => {
                let divisor = *self.word(a, offset(record))?;
                self.divide(divisor)?;
            }
            CQO => self.registers[RETURN2] = extension(self.registers[RETURN1]),
            JMP => return Err(Fault::RegisterJump),
            JMPL | JMPLN => return Ok(Next::Label(label(record))),
            LEAL => return Err(Fault::LabelAddress),
            MOV => {
                self.registers[a] = self.registers[b];
                self.compared = compared;
            }
            MOVS => {
                let source = self.registers[a];
                *self.word(b, offset(record))? = source;
                self.compared = compared;
            }
            MOVL => {
                self.registers[a] = *self.word(b, offset(record))?;
                self.compared = compared;
            }
            MOVI => {
                self.registers[a] = value(record);
                self.compared = compared;
            }
            MOVIM => {
                *self.word(a, offset(record))? = value(record);
                self.compared = compared;
            }
            CMP => self.compared = Some((self.registers[a], self.registers[b])),
            CMPRM => {
                let word = *self.word(b, offset(record))?;
                self.compared = Some((self.registers[a], word));
            }
            CMPMR => {
                let word = *self.word(a, offset(record))?;
                self.compared = Some((word, self.registers[b]));
            }
            CMPI => self.compared = Some((self.registers[a], value(record))),
            CMPIM => {
                let word = *self.word(a, offset(record))?;
                self.compared = Some((word, value(record)));
            }
            JEL | JNEL | JLL | JLEL | JGL | JGEL => {
                let (fst, snd) = compared.ok_or(Fault::NoCompare)?;
                let order = (fst as i64).cmp(&(snd as i64));
                let holds = match code {
                    JEL => order.is_eq(),
                    JNEL => order.is_ne(),
                    JLL => order.is_lt(),
                    JLEL => order.is_le(),
                    JGL => order.is_gt(),
                    _ => order.is_ge(),
                };
                if holds {
                    return Ok(Next::Label(label(record)));
                }
            }
            PUSH => {
                // the manual: PUSH of STACK pushes its value before
                let source = self.registers[a];
                *self.word(STACK, 8u64.wrapping_neg())? = source;
                self.registers[STACK] = self.registers[STACK].wrapping_sub(8);
            }
            POP => {
                // the manual: POP into STACK leaves the word that was read
                let word = *self.word(STACK, 0)?;
                self.registers[STACK] = self.registers[STACK].wrapping_add(8);
                self.registers[a] = word;
            }
            CALL => {
                if !matches!(label(record), PRINT_I64 | PRINTLN_I64) {
                    return Err(Fault::CallOfOtherName);
                }
                if !self.registers[STACK].is_multiple_of(16) {
                    return Err(Fault::CallUnaligned);
                }
                for (register, word) in PRINTED.iter().zip(self.words) {
                    self.registers[*register] = *word;
                }
            }
            RET => {
                if self.registers[STACK] != STACK_AT_ENTRY {
                    return Err(Fault::ReturnElsewhere);
                }
                self.registers[STACK] = self.registers[STACK].wrapping_add(8);
                return Ok(Next::End);
            }
            LAB | NOEXECSTACK | TEXT | GLOBAL | EXTERN => (),
        }
        Ok(Next::Following)
    }

    /// The word of memory at a register's content plus an offset.
    #[inline(always)]
    fn word(&mut self, base: usize, offset: u64) -> Result<&mut u64, Fault> {
        let address = self.registers[base].wrapping_add(offset);
        if !address.is_multiple_of(8) {
            return Err(Fault::AddressUnaligned);
        }
        if (self.stack_start..STACK_END).contains(&address) {
            return Ok(&mut self.stack[((address - self.stack_start) / 8) as usize]);
        }
        let index = address.wrapping_sub(HEAP_START) / 8;
        let word = self.heap.get_mut(index as usize);
        word.ok_or(Fault::AddressOutside)
    }

    /// "IDIV truncates toward zero, quotient to register 4, remainder to 5; a register 5 that
    /// isn't what CQO makes of register 4, a zero divisor or −2^63 / −1 faults."
    fn divide(&mut self, divisor: u64) -> Result<(), Fault> {
        let dividend = self.registers[RETURN1];
        if self.registers[RETURN2] != extension(dividend) {
            return Err(Fault::DividendNotExtended);
        }
        let (dividend, divisor) = (dividend as i64, divisor as i64);
        if divisor == 0 {
            return Err(Fault::DivisorZero);
        }
        let quotient = dividend.checked_div(divisor);
        let quotient = quotient.ok_or(Fault::QuotientTooLarge)?;
        self.registers[RETURN1] = quotient as u64;
        self.registers[RETURN2] = (dividend % divisor) as u64;
        Ok(())
    }
}

/// What CQO makes of register 4: its sign in every bit.
fn extension(word: u64) -> u64 {
    (word as i64 >> 63) as u64
}

#[cfg(test)]
mod tests {
    use super::*;
    use crate::answer::Answer;
    use crate::programs::{self, Program};
    use crate::shape::SHAPES;
    use crate::{parse, rust_side};

    fn routine(shape: Shape, request: &str) -> Vec<u8> {
        let line = parse::line(request).unwrap();
        match rust_side::answer(shape.chosen(), &line.request) {
            Answer::Records(records, _) => records.iter().flat_map(|r| r.to_bytes()).collect(),
            answer => panic!("{answer}"),
        }
    }

    fn ran(program: &mut Program) -> Outcome {
        let Program {
            chosen,
            records,
            state,
            heap,
            words,
            limit,
        } = program;
        run(*chosen, records, state, heap, words, *limit)
    }

    /// "The first state follows the 16 records before the body of a 0-argument routine."
    #[test]
    fn where_a_body_starts() {
        let bytes = [(2_048, 64), (4_096, 64), (2_048, 128), (4_096, 128)];
        for (shape, (spill_bytes, block_bytes)) in SHAPES.into_iter().zip(bytes) {
            let records = &routine(shape, "routine 0")[..16 * SIZE];
            let (mut state, mut heap) = (entry(shape.frame), vec![0; 32]);
            let outcome = run(shape.chosen(), records, &mut state, &mut heap, &[0; 9], 16);
            let at_return = false;
            assert_eq!(
                outcome,
                Outcome::Ended {
                    steps: 16,
                    at_return
                }
            );
            let [stack, _, heap, free, ..] = state.registers;
            assert_eq!(stack, STACK_AT_ENTRY - 6 * 8 - spill_bytes);
            assert_eq!([heap, free], [HEAP_START, HEAP_START + block_bytes]);
            assert_eq!(state, fresh(shape));
        }
    }

    /// A routine gives back what it saved and returns.
    #[test]
    fn a_routine_returns() {
        for shape in SHAPES {
            let last = shape.frame.positions() - 1;
            let body = format!("load_immediate p1 7; add p{last} p1 p1; routine 0");
            let records = routine(shape, &body);
            let mut state = entry(shape.frame);
            state.registers[12..].copy_from_slice(&[5, 6, 7, 8]);
            let outcome = run(
                shape.chosen(),
                &records,
                &mut state,
                &mut [0; 32],
                &[0; 9],
                u64::MAX,
            );
            assert!(matches!(
                outcome,
                Outcome::Ended {
                    at_return: true,
                    ..
                }
            ));
            assert_eq!(state.registers[12..], [5, 6, 7, 8]);
            assert_eq!(state.registers[STACK], STACK_END);
            assert_eq!(state.stack[57], 14);
        }
    }

    #[test]
    fn each_fault_has_its_place_and_cause() {
        for shape in SHAPES {
            for (mut program, place, why) in programs::faults(shape) {
                let steps = place - 1;
                assert_eq!(ran(&mut program), Outcome::Fault { steps, place, why });
            }
        }
    }

    #[test]
    fn a_stack_is_its_frames() {
        for mut program in programs::other_shapes() {
            let Program { chosen, state, .. } = &program;
            let known_edition = matches!(chosen.edition, 1 | 2);
            let its_own = [(256, 320), (512, 576)];
            let known_frame = its_own.contains(&(chosen.frame, state.stack.len()));
            let malformed = program.heap.is_empty() || program.records[0] == 0;
            let number = match ran(&mut program) {
                Outcome::NoEdition => 23,
                Outcome::Malformed { .. } => 2,
                Outcome::NoFrame => 3,
                _ => 0,
            };
            let expected = match (known_edition, malformed, known_frame) {
                (false, ..) => 23,
                (_, true, _) => 2,
                (.., false) => 3,
                _ => 0,
            };
            assert_eq!(number, expected, "{:?}", program.chosen);
        }
    }

    /// A heap of 24 words is three blocks of the first edition, and no whole blocks of the second.
    #[test]
    fn a_heap_is_of_its_editions_blocks() {
        let allowed = |edition| move |words: &usize| heap_allowed(edition, *words);
        let up_to = |edition| (0..=48).filter(allowed(edition)).collect::<Vec<_>>();
        assert_eq!(up_to(Edition::First), [16, 24, 32, 40, 48]);
        assert_eq!(up_to(Edition::Second), [32, 48]);
        for (edition, most) in [(Edition::First, 8 << 20), (Edition::Second, 16 << 20)] {
            assert!(heap_allowed(edition, most));
            assert!(!heap_allowed(edition, most + edition.block_words()));
        }
    }
}
