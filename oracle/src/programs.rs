//! Programs for the machine: records, the state and heap that they are run on, print words and a
//! step limit. Random ones go on for some steps before they fault, if they do; made ones show each
//! fault once.

use crate::codes::Code::{self, *};
use crate::codes::{CODES, FORMS};
use crate::interpreter::{
    self, Fault, HEAP_START, MOST_BLOCKS, RETURN1, RETURN2, STACK, STACK_AT_ENTRY, STACK_END,
    State, stack_start,
};
use crate::random::Random;
use crate::record::{self, PRINT_I64, PRINTLN_I64, Record};
use crate::shape::{Chosen, EDITIONS, Edition, OTHER_EDITIONS, OTHER_FRAMES, SHAPES, Shape};
use crate::well_formed::{self, immediate};

#[derive(Debug, Clone)]
pub struct Program {
    pub chosen: Chosen,
    pub records: Vec<u8>,
    pub state: State,
    pub heap: Vec<u64>,
    pub words: [u64; 9],
    pub limit: u64,
}

/// A record with registers, label, offset and value; a field that the code does not use is left
/// zero.
pub fn record(code: Code, a: usize, b: usize, label: u32, offset: i64, value: i64) -> Record {
    let form = &FORMS[usize::from(code.number()) - 1];
    let used = |field, number: i64| if form.uses(field) { number } else { 0 };
    Record {
        code: code.number(),
        a: used('a', a as i64) as u8,
        b: used('b', b as i64) as u8,
        label: used('l', label.into()) as u32,
        offset: used('o', offset),
        value: used('v', value),
    }
}

/// Records without offset and value.
fn plain(code: Code, a: usize, b: usize) -> Record {
    record(code, a, b, 0, 0, 0)
}

fn labelled(code: Code, label: u32) -> Record {
    record(code, 0, 0, label, 0, 0)
}

fn immediate_of(code: Code, a: usize, value: i64) -> Record {
    record(code, a, 0, 0, 0, value)
}

fn at_offset(code: Code, a: usize, b: usize, offset: i64) -> Record {
    record(code, a, b, 0, offset, 7)
}

fn bytes_of(records: &[Record]) -> Vec<u8> {
    records.iter().flat_map(|r| r.to_bytes()).collect()
}

/// From the entry state, beside two zeroed blocks.
fn entered(shape: Shape, records: &[Record]) -> Program {
    Program {
        chosen: shape.chosen(),
        records: bytes_of(records),
        state: interpreter::entry(shape.frame),
        heap: vec![0; 2 * shape.edition.block_words()],
        words: [11, 12, 13, 14, 15, 16, 17, 18, 19],
        limit: 1_000,
    }
}

/// Each fault of the scope's list, with the place and the cause that it must have.
pub fn faults(shape: Shape) -> Vec<(Program, u64, Fault)> {
    let mut list = Vec::new();
    let mut fault = |why: Fault, place: u64, records: &[Record]| {
        list.push((entered(shape, records), place, why));
    };
    addresses(shape, &mut fault);
    jumps(&mut fault);
    calls(&mut fault);
    divisions(&mut fault);
    list
}

/// Every memory form at every end of the stack and the heap, and unaligned.
fn addresses(shape: Shape, fault: &mut impl FnMut(Fault, u64, &[Record])) {
    // the base register of each form
    const AT_A: [Code; 8] = [ADDMR, ADDIM, SUBMR, IMULMR, IDIVM, MOVIM, CMPMR, CMPIM];
    const AT_B: [Code; 6] = [ADDRM, SUBRM, IMULRM, MOVS, MOVL, CMPRM];
    let stack_words = shape.frame.stack_words();
    let heap_end = 2 * shape.edition.block_bytes() as i64;
    let ends = [
        (7, -8, Fault::AddressOutside),
        (7, heap_end, Fault::AddressOutside),
        (7, 4, Fault::AddressUnaligned),
        (7, heap_end - 1, Fault::AddressUnaligned),
        (STACK, 8, Fault::AddressOutside),
        (STACK, -8 * stack_words as i64, Fault::AddressOutside),
        (STACK, 7, Fault::AddressUnaligned),
        (1, 0, Fault::AddressOutside),
        (1, -8, Fault::AddressOutside),
    ];
    for (base, offset, why) in ends {
        for code in AT_A {
            fault(why, 1, &[at_offset(code, base, 8, offset)]);
        }
        for code in AT_B {
            fault(why, 1, &[at_offset(code, 8, base, offset)]);
        }
    }
    let stack_start = stack_start(stack_words);
    for (address, why) in [
        (stack_start, Fault::AddressOutside),
        (HEAP_START, Fault::AddressOutside),
        (STACK_END + 8, Fault::AddressOutside),
        (STACK_END - 4, Fault::AddressUnaligned),
    ] {
        let set = immediate_of(MOVI, STACK, address as i64);
        fault(why, 2, &[set, plain(PUSH, 3, 0)]);
    }
    for address in [stack_start - 8, HEAP_START - 8, STACK_END] {
        let set = immediate_of(MOVI, STACK, address as i64);
        fault(Fault::AddressOutside, 2, &[set, plain(POP, 3, 0)]);
    }
}

fn jumps(fault: &mut impl FnMut(Fault, u64, &[Record])) {
    const CONDITIONS: [Code; 6] = [JEL, JNEL, JLL, JLEL, JGL, JGEL];
    let lab = labelled(LAB, 5);
    for jump in [JMPL, JMPLN] {
        fault(Fault::LabelAbsent, 1, &[labelled(jump, 5)]);
        fault(
            Fault::LabelAbsent,
            1,
            &[labelled(jump, 5), labelled(GLOBAL, 5)],
        );
        fault(Fault::LabelDoubled, 2, &[lab, labelled(jump, 5), lab]);
    }
    fault(Fault::RegisterJump, 1, &[plain(JMP, 7, 0)]);
    fault(Fault::LabelAddress, 1, &[record(LEAL, 4, 0, 5, 0, 0), lab]);
    for jump in CONDITIONS {
        let jump = labelled(jump, 5);
        fault(Fault::NoCompare, 1, &[jump, lab]);
        // a compare that is not the last but for moves
        for between in CODES {
            let stays = matches!(between, MOV | MOVS | MOVL | MOVI | MOVIM);
            let compares = matches!(between, CMP | CMPRM | CMPMR | CMPI | CMPIM);
            let jumps = matches!(between, JMP | JMPL | JMPLN | LEAL | CALL | RET);
            let divides = matches!(between, IDIV | IDIVM);
            let conditional = CONDITIONS.contains(&between);
            if stays || compares || jumps || divides || conditional {
                continue;
            }
            let between = record(between, 7, 7, 9, 0, 8);
            fault(Fault::NoCompare, 3, &[plain(CMP, 1, 1), between, jump, lab]);
        }
        // a second conditional jump on one compare; equal words, so this first one stays
        let first = labelled(JNEL, 5);
        fault(Fault::NoCompare, 3, &[plain(CMP, 1, 1), first, jump, lab]);
    }
    for (jump, value) in [
        (JEL, 0),
        (JNEL, 1),
        (JLL, 1),
        (JLEL, 0),
        (JGL, -1),
        (JGEL, 0),
    ] {
        let compare = immediate_of(CMPI, 1, value);
        fault(Fault::LabelAbsent, 2, &[compare, labelled(jump, 5)]);
        fault(
            Fault::LabelDoubled,
            2,
            &[compare, labelled(jump, 5), lab, lab],
        );
    }
}

fn calls(fault: &mut impl FnMut(Fault, u64, &[Record])) {
    let align = immediate_of(SUBI, STACK, 8);
    for name in [1, record::ASM_MAIN, record::CLEANUP, record::FIRST_CALLERS] {
        let call = [align, labelled(CALL, name), labelled(LAB, name)];
        fault(Fault::CallOfOtherName, 2, &call);
    }
    for name in [PRINT_I64, PRINTLN_I64] {
        fault(Fault::CallUnaligned, 1, &[labelled(CALL, name)]);
        let lower = immediate_of(SUBI, STACK, 4);
        fault(Fault::CallUnaligned, 2, &[lower, labelled(CALL, name)]);
    }
    for below in [8, -8, 16, 1] {
        let lower = immediate_of(SUBI, STACK, below);
        fault(Fault::ReturnElsewhere, 2, &[lower, plain(RET, 0, 0)]);
    }
}

fn divisions(fault: &mut impl FnMut(Fault, u64, &[Record])) {
    // by a register and by a word of the heap
    let by = |divisor: i64, dividend: i64, high: i64| {
        let set = [
            immediate_of(MOVI, RETURN1, dividend),
            immediate_of(MOVI, RETURN2, high),
            immediate_of(MOVI, 8, divisor),
            record(MOVIM, 7, 0, 0, 16, divisor),
        ];
        [plain(IDIV, 8, 0), at_offset(IDIVM, 7, 0, 16)].map(|divide| {
            let mut records = set.to_vec();
            records.push(divide);
            records
        })
    };
    for (divisor, dividend, high, why) in [
        (0, 5, 0, Fault::DivisorZero),
        (0, i64::MIN, -1, Fault::DivisorZero),
        (-1, i64::MIN, -1, Fault::QuotientTooLarge),
        (1, 5, 1, Fault::DividendNotExtended),
        (1, 5, -1, Fault::DividendNotExtended),
        (1, -5, 0, Fault::DividendNotExtended),
        (7, i64::MIN, 0, Fault::DividendNotExtended),
    ] {
        for records in by(divisor, dividend, high) {
            fault(why, 5, &records);
        }
    }
}

/// Heaps and lists at and beside their limits. They come one by one: the largest heaps have 128
/// megabytes.
pub fn limits() -> impl Iterator<Item = Program> {
    let heaps = EDITIONS.into_iter().flat_map(heaps);
    heaps.chain(lists())
}

/// Heaps of every few words, and about the most.
fn heaps(edition: Edition) -> impl Iterator<Item = Program> {
    let shape = Shape {
        edition,
        ..Shape::BASE
    };
    let (block, few) = (edition.block_words(), 3 * edition.block_words());
    let most = MOST_BLOCKS * block;
    let words = (0..=few).chain([most - block, most - 1, most, most + 1, most + block]);
    words.flat_map(move |words| {
        // the last word of the heap, and the one after it; the heap comes before the records
        let read = |at: usize| bytes_of(&[at_offset(MOVL, 4, 7, 8 * at as i64)]);
        let programs = [read(words.wrapping_sub(1)), read(words), vec![0; 24]];
        programs.into_iter().map(move |records| Program {
            records,
            heap: vec![3; words],
            ..entered(shape, &[])
        })
    })
}

fn lists() -> impl Iterator<Item = Program> {
    [0, 1, 65_535, 65_536, 65_537, 65_538]
        .into_iter()
        .flat_map(|count| {
            [0, 1, 23].into_iter().flat_map(move |part| {
                let mut records = plain(MOV, 1, 2).to_bytes().repeat(count);
                records.extend(vec![0xA9; part]);
                let limits = [0, 1, count as u64, count as u64 + 1, u64::MAX];
                limits.map(|limit| Program {
                    records: records.clone(),
                    limit,
                    ..entered(Shape::BASE, &[])
                })
            })
        })
}

/// Editions and frames that there are and others, the frames each with stacks of its own number of
/// words and of others; a malformed record and heap come between the two.
pub fn other_shapes() -> Vec<Program> {
    let mut programs = Vec::new();
    let store = at_offset(MOVS, 7, STACK, 0);
    for edition in OTHER_EDITIONS.into_iter().chain([1, 2]) {
        for frame in OTHER_FRAMES.into_iter().chain([256, 512]) {
            for words in [0, 1, 64, 319, 320, 321, 575, 576, 577] {
                let mut program = entered(SHAPES[3], &[store]);
                program.chosen = Chosen { edition, frame };
                program.state.stack = vec![5; words];
                let records = vec![0; 24];
                programs.push(Program {
                    records,
                    ..program.clone()
                });
                programs.push(Program {
                    heap: Vec::new(),
                    ..program.clone()
                });
                programs.push(program);
            }
        }
    }
    programs
}

const LABELS: [u32; 5] = [1, 2, record::CLEANUP, record::FIRST_CALLERS, u32::MAX];

/// What random programs are made of, beside the program itself.
struct Maker<'a> {
    random: &'a mut Random,
    /// Registers that hold addresses at the start.
    bases: Vec<usize>,
    stack_words: usize,
    heap_bytes: u64,
}

/// A random program in any shape.
pub fn random(random: &mut Random) -> Program {
    let shape = random.pick(&SHAPES);
    let heap_words = match random.below(60) {
        0 => random.below(80),
        _ => shape.edition.block_words() * (2 + random.below(4)),
    };
    let mut maker = Maker {
        random,
        bases: Vec::new(),
        stack_words: shape.frame.stack_words(),
        heap_bytes: 8 * heap_words as u64,
    };
    let state = maker.state(shape);
    let heap = (0..heap_words).map(|_| maker.word()).collect();
    let mut records = bytes_of(&maker.list());
    if maker.random.once_in(40) {
        maker.damage(&mut records);
    }
    let words = std::array::from_fn(|_| maker.word());
    let limit = match maker.random.below(8) {
        0 => maker.random.below(12) as u64,
        1 => maker.random.below(60) as u64,
        _ => 300,
    };
    Program {
        chosen: shape.chosen(),
        records,
        state,
        heap,
        words,
        limit,
    }
}

impl Maker<'_> {
    /// The entry state, or one with addresses in some registers.
    fn state(&mut self, shape: Shape) -> State {
        let mut state = interpreter::entry(shape.frame);
        if self.random.once_in(10) {
            self.bases = vec![STACK, 7];
            return state;
        }
        for register in 0..16 {
            state.registers[register] = self.word();
        }
        for word in &mut state.stack {
            if self.random.once_in(4) {
                *word = self.word();
            }
        }
        self.bases = vec![STACK];
        for _ in 0..3 {
            let base = 1 + self.random.below(15);
            self.bases.push(base);
        }
        for index in 0..self.bases.len() {
            let address = self.address();
            state.registers[self.bases[index]] = address;
        }
        state.registers[STACK] = match self.random.below(6) {
            0 => STACK_AT_ENTRY,
            1 => self.address(),
            2 => stack_start(self.stack_words) + 8 * self.random.below(4) as u64,
            3 => STACK_END - 8 * self.random.below(4) as u64,
            _ => STACK_END - 8 * self.random.below(self.stack_words + 1) as u64,
        };
        if self.random.once_in(2) {
            state.registers[RETURN2] = (state.registers[RETURN1] as i64 >> 63) as u64;
        }
        state
    }

    /// An address in the stack or the heap, often at an end, at times beside it or unaligned.
    fn address(&mut self) -> u64 {
        let stack_start = stack_start(self.stack_words);
        let heap_end = HEAP_START + self.heap_bytes;
        let near = 8 * self.random.below(4) as u64;
        let address = match self.random.below(12) {
            0 => stack_start.wrapping_add(near).wrapping_sub(8),
            1 => STACK_END.wrapping_sub(near),
            2 => HEAP_START.wrapping_add(near).wrapping_sub(8),
            3 => heap_end.wrapping_sub(near),
            4..8 => stack_start + 8 * self.random.below(self.stack_words) as u64,
            _ => HEAP_START + 8 * self.random.below(self.heap_bytes as usize / 8 + 1) as u64,
        };
        match self.random.below(40) {
            0 => address.wrapping_add(self.random.word() % 8),
            _ => address,
        }
    }

    fn word(&mut self) -> u64 {
        match self.random.below(6) {
            0 => self.address(),
            1 => self.random.below(4) as u64,
            2 => (self.random.below(4) as u64).wrapping_neg(),
            _ => immediate(self.random) as u64,
        }
    }

    /// Any register, but seldom one with an address, which most codes would spoil.
    fn register(&mut self) -> usize {
        let register = match self.random.below(12) {
            0 => RETURN1,
            1 => RETURN2,
            _ => self.random.below(16),
        };
        if self.bases.contains(&register) && !self.random.once_in(6) {
            return 8 + self.random.below(8);
        }
        register
    }

    fn base(&mut self) -> usize {
        match self.random.below(40) {
            0 => self.register(),
            _ => self.random.pick(&self.bases),
        }
    }

    /// An offset that mostly stays inside the memory that a base is in.
    fn offset(&mut self) -> i64 {
        match self.random.below(40) {
            0 => immediate(self.random),
            1 => self.random.below(64) as i64 - 32,
            2 => 8 * (self.random.below(1_200) as i64 - 600),
            _ => 8 * (self.random.below(5) as i64 - 2),
        }
    }

    /// One of few labels, so that one is found at times, at times twice.
    fn label(&mut self) -> u32 {
        self.random.pick(&LABELS)
    }

    /// A record of the code, with fields that keep a run going for a while.
    fn record(&mut self, code: Code) -> Record {
        let form = &FORMS[usize::from(code.number()) - 1];
        let memory = form.uses('o');
        let (a, b) = match code {
            _ if !memory => (self.register(), self.register()),
            ADDRM | SUBRM | IMULRM | MOVS | MOVL | CMPRM => (self.register(), self.base()),
            _ => (self.base(), self.register()),
        };
        let label = match code {
            CALL if !self.random.once_in(12) => PRINT_I64 + self.random.below(2) as u32,
            _ => self.label(),
        };
        let value = match self.random.below(3) {
            0 => 8 * (self.random.below(5) as i64 - 2),
            _ => self.word() as i64,
        };
        record(code, a, b, label, self.offset(), value)
    }

    /// Records in a row, some of them in the sequences that the machine has rules about.
    fn list(&mut self) -> Vec<Record> {
        let length = match self.random.below(10) {
            0 => self.random.below(3),
            _ => 1 + self.random.below(24),
        };
        let mut list = Vec::new();
        while list.len() < length {
            match self.random.below(12) {
                0 | 1 => self.compare_and_jump(&mut list),
                2 => self.division(&mut list),
                3 if self.random.once_in(2) => self.print(&mut list),
                4 if self.random.once_in(3) => self.finish(&mut list),
                _ => {
                    let code = self.code();
                    list.push(self.record(code));
                }
            }
        }
        self.mark(&mut list);
        list
    }

    /// Puts most of the labels that have no LAB somewhere, mostly far down.
    fn mark(&mut self, list: &mut Vec<Record>) {
        for label in LABELS {
            let lab = labelled(LAB, label);
            if list.contains(&lab) || self.random.once_in(5) {
                continue;
            }
            let lowest = match self.random.below(4) {
                0 => 0,
                _ => list.len() / 2,
            };
            let place = lowest + self.random.below(list.len() - lowest + 1);
            list.insert(place, lab);
        }
    }

    /// Any code, but seldom one that faults whatever the state.
    fn code(&mut self) -> Code {
        let code = self.random.pick(&CODES);
        let seldom = matches!(code, JMP | LEAL | RET | CALL | IDIV | IDIVM | JMPL | JMPLN);
        let conditional = matches!(code, JEL | JNEL | JLL | JLEL | JGL | JGEL);
        if (seldom || conditional) && !self.random.once_in(6) {
            return self
                .random
                .pick(&[LAB, MOV, MOVS, MOVL, PUSH, POP, ADDI, TEXT]);
        }
        code
    }

    /// A compare, at times moves or something else, and a conditional jump; often equal operands.
    fn compare_and_jump(&mut self, list: &mut Vec<Record>) {
        let compare = self.random.pick(&[CMP, CMPRM, CMPMR, CMPI, CMPIM]);
        let mut compare = self.record(compare);
        if compare.code == CMP.number() && self.random.once_in(4) {
            compare.b = compare.a;
        }
        list.push(compare);
        while self.random.once_in(2) {
            let between = match self.random.below(12) {
                0 => self.code(),
                _ => self.random.pick(&[MOV, MOVS, MOVL, MOVI, MOVIM]),
            };
            list.push(self.record(between));
        }
        let jump = self.random.pick(&[JEL, JNEL, JLL, JLEL, JGL, JGEL]);
        list.push(self.record(jump));
        if self.random.once_in(2) {
            list.push(self.record(LAB));
        }
    }

    /// A dividend, its sign and a division; at times a part is missing.
    fn division(&mut self, list: &mut Vec<Record>) {
        if self.random.once_in(4) {
            list.push(immediate_of(MOVI, RETURN1, i64::MIN));
        }
        if !self.random.once_in(6) {
            list.push(plain(CQO, 0, 0));
        }
        if self.random.once_in(3) {
            let divisor = self.random.pick(&[-1, 0, 1, 2, i64::MIN, -7]);
            list.push(immediate_of(MOVI, 8, divisor));
            list.push(plain(IDIV, 8, 0));
        } else {
            let divide = self.random.pick(&[IDIV, IDIVM]);
            list.push(self.record(divide));
        }
    }

    /// A print, with STACK on a multiple of 16 if it was beside one or on one.
    fn print(&mut self, list: &mut Vec<Record>) {
        let lower = self.random.once_in(2);
        if lower {
            list.push(immediate_of(SUBI, STACK, 8));
        }
        list.push(self.record(CALL));
        if lower {
            list.push(immediate_of(ADDI, STACK, 8));
        }
    }

    /// RET, at times with STACK put where it must be.
    fn finish(&mut self, list: &mut Vec<Record>) {
        if !self.random.once_in(3) {
            list.push(immediate_of(MOVI, STACK, STACK_AT_ENTRY as i64));
        }
        list.push(plain(RET, 0, 0));
    }

    /// One byte changed, a cut, an addition, or a record of random fields.
    fn damage(&mut self, bytes: &mut Vec<u8>) {
        if bytes.is_empty() {
            bytes.push(record::MARK);
            return;
        }
        let at = self.random.below(bytes.len());
        match self.random.below(4) {
            0 => bytes[at] = self.random.word() as u8,
            1 => bytes.truncate(at),
            2 => {
                let length = 1 + self.random.below(30);
                bytes.extend(self.random.bytes(length));
            }
            _ => {
                let code = 1 + self.random.below(CODES.len()) as u8;
                let mut changed = well_formed::instruction(code, self.random).to_bytes();
                changed[1 + at % 8] ^= 1 << self.random.below(8);
                bytes.extend(changed);
            }
        }
    }
}
