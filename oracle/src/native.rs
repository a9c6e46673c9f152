//! Holds the port's machine against the processor. Random programs are assembled by GNU as, put
//! into memory where the scope's machine has its stack and heap, run, and their registers, stack
//! and heap compared with what the port's run leaves.

use crate::codes::Code::{self, *};
use crate::codes::{CODES, FORMS};
use crate::interpreter::{self, HEAP_START, STACK, STACK_AT_ENTRY, STACK_END, State, stack_start};
use crate::port;
use crate::programs::{Program, record};
use crate::random::Random;
use crate::record::{PRINT_I64, Record};
use crate::shape::SHAPES;
use crate::well_formed::immediate;
use std::ffi::c_void;
use std::io::{Error, ErrorKind, Result};
use std::path::Path;
use std::process::Command;

/// The registers in the order of the records.
const NAMES: [&str; 16] = [
    "rsp", "rcx", "rbx", "rbp", "rax", "rdx", "rsi", "rdi", "r8", "r9", "r10", "r11", "r12", "r13",
    "r14", "r15",
];

/// Registers that hold addresses in the heap throughout; no print and no record changes them.
const BASES: [usize; 2] = [13, 14];

/// Where the code is put. Its first instructions end a program: RET goes there, by the last word
/// of the stack, and every program's last record.
const CODE_START: u64 = 1 << 41;

/// Where in the code the registers, the host's stack pointer with the print words, and the table
/// of programs stand.
const REGISTERS: usize = 0x200;
const HOST: usize = REGISTERS + 16 * 8;
const WORDS: usize = HOST + 8;
const TABLE: usize = 0x400;

const LIMIT: u64 = 1_000;
/// Whole blocks of either edition.
const HEAP_WORDS: usize = 64;

/// How many differences are shown.
const SHOWN: u64 = 5;

/// Runs `count` programs on both. True if they agree.
pub fn run(count: u64, seed: u64, folder: &Path) -> Result<bool> {
    let mut random = Random::new(seed);
    let mut faulting = 0;
    let mut programs = Vec::new();
    while (programs.len() as u64) < count {
        let (program, records) = program(&mut random);
        let ran = on_port(&program).0;
        // a fault of the machine would be a fault of this process
        match ran.number {
            0 => programs.push((program, records)),
            _ => faulting += 1,
        }
    }
    let code = assemble(&programs, folder)?;
    let mut processor = Processor::new(&code)?;
    let mut different = 0;
    let mut return_addresses = 0;
    let mut performed = vec![0u64; CODES.len()];
    for (index, (program, records)) in programs.iter().enumerate() {
        let (_, state, heap) = on_port(program);
        let found = processor.run(index, program);
        count_performed(program, &mut performed);
        match differences(&(state, heap), &found, &code) {
            Ok(words) => return_addresses += words,
            Err(text) => {
                different += 1;
                if different <= SHOWN {
                    println!("program {index}: {text}");
                    records.iter().for_each(|record| println!("    {record}"));
                }
            }
        }
    }
    println!("how many times each code was performed:");
    for (form, count) in FORMS.iter().zip(&performed) {
        print!(" {} {count}", form.name);
    }
    println!(
        "\nseed {seed}: {count} programs on the processor, {} steps ({faulting} more that the \
         machine faults on were left out), {return_addresses} return addresses below STACK: \
         {different} differ",
        performed.iter().sum::<u64>()
    );
    Ok(different == 0)
}

fn on_port(program: &Program) -> (port::Ran, State, Vec<u64>) {
    let (mut state, mut heap) = (program.state.clone(), program.heap.clone());
    let ran = port::run(
        program.chosen,
        &program.records,
        &mut state,
        &mut heap,
        &program.words,
        LIMIT,
    );
    (ran, state, heap)
}

fn count_performed(program: &Program, performed: &mut [u64]) {
    let (mut state, mut heap) = (program.state.clone(), program.heap.clone());
    interpreter::run_watched(
        program.chosen,
        &program.records,
        &mut state,
        &mut heap,
        &program.words,
        LIMIT,
        |code| performed[usize::from(code.number()) - 1] += 1,
    );
}

/// The number of words that are return addresses on the processor; or the first other word that
/// differs.
fn differences(
    expected: &(State, Vec<u64>),
    found: &(State, Vec<u64>),
    code: &[u8],
) -> std::result::Result<u64, String> {
    let in_code = CODE_START + 1..CODE_START + code.len() as u64;
    let stack_start = stack_start(expected.0.stack.len());
    let mut return_addresses = 0;
    for (index, (word, native)) in expected.0.stack.iter().zip(&found.0.stack).enumerate() {
        let address = stack_start + 8 * index as u64;
        let below = address < expected.0.registers[STACK];
        if word != native && below && in_code.contains(native) {
            return_addresses += 1;
        } else if word != native {
            return Err(format!(
                "stack word {index}: port {word}, processor {native}"
            ));
        }
    }
    let parts = [
        (
            "register",
            &expected.0.registers[..],
            &found.0.registers[..],
        ),
        ("heap word", &expected.1, &found.1),
    ];
    for (part, expected, found) in parts {
        for (index, (word, native)) in expected.iter().zip(found).enumerate() {
            if word != native {
                return Err(format!("{part} {index}: port {word}, processor {native}"));
            }
        }
    }
    Ok(return_addresses)
}

/// A program in any shape whose jumps go forward and whose addresses stay inside.
fn program(random: &mut Random) -> (Program, Vec<Record>) {
    let shape = random.pick(&SHAPES);
    let mut state = interpreter::entry(shape.frame);
    let word = |random: &mut Random| match random.below(3) {
        0 => random.below(16) as u64,
        _ => immediate(random) as u64,
    };
    for register in &mut state.registers {
        *register = word(random);
    }
    for word_of_stack in &mut state.stack {
        *word_of_stack = word(random);
    }
    let depth = state.stack.len();
    state.stack[depth - 1] = CODE_START;
    state.registers[STACK] = stack_start(depth) + 16 * (40 + random.below(depth / 4)) as u64;
    let heap: Vec<u64> = (0..HEAP_WORDS).map(|_| word(random)).collect();
    for base in BASES {
        state.registers[base] = HEAP_START + 8 * (16 + random.below(heap.len() - 32)) as u64;
    }
    let words = std::array::from_fn(|_| word(random));
    let records = records(random);
    let program = Program {
        chosen: shape.chosen(),
        records: records.iter().flat_map(|r| r.to_bytes()).collect(),
        state,
        heap,
        words,
        limit: LIMIT,
    };
    (program, records)
}

/// Records that a processor has, in a row; labels are numbered as they come.
fn records(random: &mut Random) -> Vec<Record> {
    let mut list = Vec::new();
    let mut labels = 0;
    for _ in 0..1 + random.below(30) {
        match random.below(10) {
            0 | 1 => {
                // a compare, moves, a conditional jump over some records
                let compare = random.pick(&[CMP, CMPRM, CMPMR, CMPI, CMPIM]);
                list.push(of_code(compare, random));
                for _ in 0..random.below(3) {
                    let code = random.pick(&[MOV, MOVS, MOVL, MOVI, MOVIM]);
                    list.push(of_code(code, random));
                }
                labels += 1;
                let jump = random.pick(&[JEL, JNEL, JLL, JLEL, JGL, JGEL]);
                list.push(record(jump, 0, 0, labels, 0, 0));
                skipped(labels, random, &mut list);
            }
            2 => {
                list.push(record(CQO, 0, 0, 0, 0, 0));
                let divide = random.pick(&[IDIV, IDIVM]);
                list.push(of_code(divide, random));
            }
            3 => {
                labels += 1;
                let jump = random.pick(&[JMPL, JMPLN]);
                list.push(record(jump, 0, 0, labels, 0, 0));
                skipped(labels, random, &mut list);
            }
            _ => {
                let code = random.pick(&CODES);
                if straight(code) {
                    list.push(of_code(code, random));
                }
            }
        }
    }
    if random.once_in(3) {
        list.push(record(MOVI, STACK, 0, 0, 0, STACK_AT_ENTRY as i64));
        list.push(record(RET, 0, 0, 0, 0, 0));
    }
    list
}

/// Some records and the label after them.
fn skipped(label: u32, random: &mut Random, list: &mut Vec<Record>) {
    for _ in 0..random.below(4) {
        let code = random.pick(&[ADD, SUBI, MOVI, IMUL, MOVS]);
        list.push(of_code(code, random));
    }
    list.push(record(LAB, 0, 0, label, 0, 0));
}

/// Whether the processor has the code and it neither jumps nor is placed by itself. IMULMR is no
/// instruction of the processor; directives are none of its either.
fn straight(code: Code) -> bool {
    let jumps = matches!(code, JMP | JMPL | JMPLN | LEAL | RET | LAB)
        || matches!(code, JEL | JNEL | JLL | JLEL | JGL | JGEL);
    let none = matches!(code, IMULMR | NOEXECSTACK | TEXT | GLOBAL | EXTERN);
    !jumps && !none
}

/// A record of the code. Addresses are STACK or a base with a small offset, never below STACK,
/// where the processor's calls write; immediates and offsets have 32 bits but for MOVI.
fn of_code(code: Code, random: &mut Random) -> Record {
    let any = |random: &mut Random| match random.below(16) {
        STACK => 1,
        register if BASES.contains(&register) => 15,
        register => register,
    };
    let form = &FORMS[usize::from(code.number()) - 1];
    let base = random.pick(&[STACK, BASES[0], BASES[1]]);
    let (a, b) = match code {
        _ if !form.uses('o') => (any(random), any(random)),
        ADDRM | SUBRM | IMULRM | MOVS | MOVL | CMPRM => (any(random), base),
        _ => (base, any(random)),
    };
    let offset = match base {
        STACK => 8 * random.below(12) as i64,
        _ => 8 * (random.below(32) as i64 - 16),
    };
    let value = match code {
        MOVI => immediate(random),
        _ => i64::from(immediate(random) as i32),
    };
    record(
        code,
        a,
        b,
        PRINT_I64 + random.below(2) as u32,
        offset,
        value,
    )
}

/// The bytes of all programs, with what surrounds them, by GNU as.
fn assemble(programs: &[(Program, Vec<Record>)], folder: &Path) -> Result<Vec<u8>> {
    std::fs::create_dir_all(folder)?;
    let [source, object, code] = ["s", "o", "bin"].map(|end| folder.join(format!("native.{end}")));
    std::fs::write(&source, source_of(programs))?;
    tool(Command::new("as").arg(&source).arg("-o").arg(&object))?;
    let mut copy = Command::new("objcopy");
    copy.args(["-O", "binary", "-j", ".text"]);
    tool(copy.arg(&object).arg(&code))?;
    std::fs::read(&code)
}

fn tool(command: &mut Command) -> Result<()> {
    let name = command.get_program().to_string_lossy().into_owned();
    let status = command.status();
    let status = status.map_err(|error| Error::new(error.kind(), format!("{name}: {error}")))?;
    match status.success() {
        true => Ok(()),
        false => Err(Error::other(format!("{name} failed"))),
    }
}

fn source_of(programs: &[(Program, Vec<Record>)]) -> String {
    let mut text = ".intel_syntax noprefix\n.text\nstart:\n".to_string();
    for (index, name) in NAMES.iter().enumerate() {
        text += &format!("mov [rip + registers + {}], {name}\n", 8 * index);
    }
    text += "mov rsp, [rip + host]\n";
    text += "pop r15\npop r14\npop r13\npop r12\npop rbp\npop rbx\nret\n";
    text += &format!(".org {REGISTERS}\nregisters: .skip 128\nhost: .skip 8\nwords: .skip 72\n");
    text += &format!(".org {TABLE}\n");
    for index in 0..programs.len() {
        text += &format!(".quad program{index} - start\n");
    }
    text += "print:\n";
    let printed = [1, 4, 5, 6, 7, 8, 9, 10, 11];
    for (index, register) in printed.iter().enumerate() {
        text += &format!("mov {}, [rip + words + {}]\n", NAMES[*register], 8 * index);
    }
    text += "ret\n";
    for (index, (_, records)) in programs.iter().enumerate() {
        text += &format!("program{index}:\n");
        text += "push rbx\npush rbp\npush r12\npush r13\npush r14\npush r15\n";
        text += "mov [rip + host], rsp\n";
        for (index, name) in NAMES.iter().enumerate() {
            text += &format!("mov {name}, [rip + registers + {}]\n", 8 * index);
        }
        for record in records {
            text += &instruction(record, index);
        }
        text += "jmp start\n";
    }
    text
}

/// The instruction in the assembler's language; labels are the program's own.
fn instruction(record: &Record, program: usize) -> String {
    let code = CODES[usize::from(record.code) - 1];
    let a = NAMES[usize::from(record.a)];
    let b = NAMES[usize::from(record.b)];
    let at = |base: &str| format!("qword ptr [{base} + {}]", record.offset);
    let value = record.value;
    let label = format!("label{program}_{}", record.label);
    let text = match code {
        ADD => format!("add {a}, {b}"),
        ADDRM => format!("add {a}, {}", at(b)),
        ADDMR => format!("add {}, {b}", at(a)),
        ADDI => format!("add {a}, {value}"),
        ADDIM => format!("add {}, {value}", at(a)),
        SUB => format!("sub {a}, {b}"),
        SUBRM => format!("sub {a}, {}", at(b)),
        SUBMR => format!("sub {}, {b}", at(a)),
        SUBI => format!("sub {a}, {value}"),
        IMUL => format!("imul {a}, {b}"),
        IMULRM => format!("imul {a}, {}", at(b)),
        IDIV => format!("idiv {a}"),
        IDIVM => format!("idiv {}", at(a)),
        CQO => "cqo".to_string(),
        JMPL | JMPLN => format!("jmp {label}"),
        MOV => format!("mov {a}, {b}"),
        MOVS => format!("mov {}, {a}", at(b)),
        MOVL => format!("mov {a}, {}", at(b)),
        MOVI => format!("movabs {a}, {value}"),
        MOVIM => format!("mov {}, {value}", at(a)),
        CMP => format!("cmp {a}, {b}"),
        CMPRM => format!("cmp {a}, {}", at(b)),
        CMPMR => format!("cmp {}, {b}", at(a)),
        CMPI => format!("cmp {a}, {value}"),
        CMPIM => format!("cmp {}, {value}", at(a)),
        JEL => format!("je {label}"),
        JNEL => format!("jne {label}"),
        JLL => format!("jl {label}"),
        JLEL => format!("jle {label}"),
        JGL => format!("jg {label}"),
        JGEL => format!("jge {label}"),
        PUSH => format!("push {a}"),
        POP => format!("pop {a}"),
        CALL => "call print".to_string(),
        RET => "ret".to_string(),
        LAB => format!("{label}:"),
        IMULMR | JMP | LEAL | NOEXECSTACK | TEXT | GLOBAL | EXTERN => {
            unreachable!("{code:?} is not made for the processor")
        }
    };
    text + "\n"
}

/// The code, the stack and the heap, mapped where the machine has them.
struct Processor;

impl Processor {
    fn new(code: &[u8]) -> Result<Processor> {
        map(CODE_START, code.len())?;
        map(STACK_END - (1 << 16), 1 << 16)?;
        map(HEAP_START, 8 * HEAP_WORDS)?;
        write(CODE_START, code);
        Ok(Processor)
    }

    /// Runs a program from the state and heap it has, and reads back what it leaves.
    fn run(&mut self, index: usize, program: &Program) -> (State, Vec<u64>) {
        let registers = CODE_START + REGISTERS as u64;
        write(registers, &program.state.registers);
        write(CODE_START + WORDS as u64, &program.words);
        let words = program.state.stack.len();
        write(stack_start(words), &program.state.stack);
        write(HEAP_START, &program.heap);
        let place: [u64; 1] = read(CODE_START + TABLE as u64 + 8 * index as u64);
        let start = (CODE_START + place[0]) as usize as *const c_void;
        // the programs save what the ABI asks for, and every run of theirs ends
        unsafe { std::mem::transmute::<*const c_void, extern "C" fn()>(start)() };
        let state = State {
            registers: read(registers),
            stack: read_words(stack_start(words), words),
        };
        (state, read_words(HEAP_START, program.heap.len()))
    }
}

unsafe extern "C" {
    fn mmap(
        address: *mut c_void,
        length: usize,
        protection: i32,
        flags: i32,
        file: i32,
        offset: i64,
    ) -> *mut c_void;
}

/// Maps fresh memory at an address, to be read, written and executed.
fn map(address: u64, length: usize) -> Result<()> {
    const READ_WRITE_EXECUTE: i32 = 7;
    const PRIVATE_ANONYMOUS_FIXED_NOREPLACE: i32 = 0x2 | 0x20 | 0x10_0000;
    let wanted = address as usize as *mut c_void;
    let flags = PRIVATE_ANONYMOUS_FIXED_NOREPLACE;
    let mapped = unsafe { mmap(wanted, length, READ_WRITE_EXECUTE, flags, -1, 0) };
    if mapped != wanted {
        let text = format!("no memory can be had at address {address}");
        return Err(Error::new(ErrorKind::AddrNotAvailable, text));
    }
    Ok(())
}

/// Writes items to memory that was mapped.
fn write<T: Copy>(address: u64, items: &[T]) {
    let target = address as usize as *mut T;
    unsafe { std::ptr::copy_nonoverlapping(items.as_ptr(), target, items.len()) };
}

/// Reads so many words.
fn read_words(address: u64, count: usize) -> Vec<u64> {
    (0..count as u64)
        .map(|index| read(address + 8 * index))
        .collect()
}

/// Reads from memory that was mapped.
fn read<T: Copy>(address: u64) -> T {
    unsafe { std::ptr::read_volatile(address as usize as *const T) }
}
