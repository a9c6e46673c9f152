//! Records of operations and routines.

use crate::edition::Edition;
use crate::ffi::{self, Told};
use crate::frame::Frame;
use crate::order::{context_bytes, Arithmetic, Binding};
use crate::refusal::Refusal;
use crate::RECORD_SIZE;

/// Where an operation's input or output stands.
#[derive(Debug, Clone, Copy, PartialEq, Eq)]
pub enum Operand {
    /// 4 to 15.
    Register(u8),
    /// 1 to 255, in the larger frame to 511.
    Spill(u16),
}

impl Operand {
    fn word(self) -> u64 {
        match self {
            Operand::Register(register) => u64::from(register),
            Operand::Spill(spill) => 16 + u64::from(spill),
        }
    }

    fn of_word(word: u64) -> Operand {
        match word {
            0..=15 => Operand::Register(word as u8),
            _ => Operand::Spill((word - 16) as u16),
        }
    }
}

/// When a jump is taken.
#[derive(Debug, Clone, Copy, PartialEq, Eq)]
#[allow(missing_docs)]
pub enum Condition {
    Equal,
    NotEqual,
    Less,
    LessOrEqual,
    Greater,
    GreaterOrEqual,
}

/// An operation that draws no label. The target comes first.
#[derive(Debug, Clone, Copy, PartialEq, Eq)]
#[allow(missing_docs)]
pub enum Operation {
    Label(u32),
    Jump(Operand),
    JumpLabel(u32),
    JumpLabelFixed(u32),
    JumpLabelIf(Condition, Operand, Operand, u32),
    JumpLabelIfZero(Condition, Operand, u32),
    LoadImmediate(Operand, i64),
    LoadLabel(Operand, u32),
    AddAndJump(Operand, i64),
    Arithmetic(Arithmetic, Operand, Operand, Operand),
    Mov(Operand, Operand),
    Compare(Operand, Operand),
    CompareImmediate(Operand, i64),
}

impl Operation {
    fn numbered(self) -> ffi::Operation {
        let plain = |number: u64, operands: &[Operand], label: u32, immediate: i64| {
            let mut words = [0; 3];
            for (word, operand) in words.iter_mut().zip(operands) {
                *word = operand.word();
            }
            ffi::Operation {
                number,
                operands: words,
                label,
                immediate: immediate as u64,
            }
        };
        match self {
            Operation::Label(label) => plain(1, &[], label, 0),
            Operation::Jump(x) => plain(2, &[x], 0, 0),
            Operation::JumpLabel(label) => plain(3, &[], label, 0),
            Operation::JumpLabelFixed(label) => plain(4, &[], label, 0),
            Operation::JumpLabelIf(condition, x, y, label) => {
                plain(5 + condition as u64, &[x, y], label, 0)
            }
            Operation::JumpLabelIfZero(condition, x, label) => {
                plain(11 + condition as u64, &[x], label, 0)
            }
            Operation::LoadImmediate(x, value) => plain(17, &[x], 0, value),
            Operation::LoadLabel(x, label) => plain(18, &[x], label, 0),
            Operation::AddAndJump(x, value) => plain(19, &[x], 0, value),
            Operation::Arithmetic(operation, x, y, z) => {
                plain(20 + operation as u64, &[x, y, z], 0, 0)
            }
            Operation::Mov(x, y) => plain(25, &[x, y], 0, 0),
            Operation::Compare(x, y) => plain(26, &[x, y], 0, 0),
            Operation::CompareImmediate(x, value) => plain(27, &[x], 0, value),
        }
    }
}

/// An operation on blocks.
#[derive(Debug, Clone, Copy, PartialEq, Eq)]
pub enum Memory<'a> {
    /// One pointer fewer to a block.
    EraseBlock(Operand),
    /// So many more.
    ShareBlockN(Operand, u64),
    /// The last so many variables of a context become an object.
    Store(&'a [Binding], u64),
    /// The object that follows a context becomes these variables.
    Load(&'a [Binding], &'a [Binding]),
}

/// The most records of an operation, of `EraseBlock` and `ShareBlockN`, and of a print.
const OPERATION_RECORDS: usize = 9;
const ERASE_RECORDS: usize = 12;
const SHARE_RECORDS: usize = 5;
const PRINT_RECORDS: usize = 21;

/// The records of a routine beside its body's, without arguments, and the most arguments.
const ROUTINE_RECORDS: usize = 25;
const MOST_ARGUMENTS: usize = 5;

impl Memory<'_> {
    /// The most records that the operation has, as the header says. A store of more variables than
    /// there are is refused, whatever the room.
    fn most_records(&self, edition: Edition) -> usize {
        match self {
            Memory::EraseBlock(_) => ERASE_RECORDS,
            Memory::ShareBlockN(..) => SHARE_RECORDS,
            Memory::Store(context, n) => edition.store_records(context.len().min(*n as usize)),
            Memory::Load(_, loaded) => edition.load_records(loaded.len()),
        }
    }
}

/// Asks once, with room for the most records that there can be: so they are written in one pass.
fn written(records: usize, ask: impl FnOnce(&mut [u8]) -> Told) -> Result<Vec<u8>, Refusal> {
    let mut out = vec![0; records * RECORD_SIZE];
    match ask(&mut out) {
        Told { number: 0, value } => {
            out.truncate(value as usize * RECORD_SIZE);
            Ok(out)
        }
        Told { number, value } => Err(Refusal::told(number, value)),
    }
}

/// The records of an operation.
pub fn operation(frame: Frame, operation: Operation) -> Result<Vec<u8>, Refusal> {
    let operation = operation.numbered();
    written(OPERATION_RECORDS, |out| {
        ffi::operation(frame, &operation, out)
    })
}

/// The records of an operation on blocks; those of a store or a load are the edition's. The counter
/// is the last label drawn; a refusal keeps it.
pub fn memory(
    edition: Edition,
    frame: Frame,
    memory: Memory,
    counter: &mut u64,
) -> Result<Vec<u8>, Refusal> {
    let (context, loaded) = match memory {
        Memory::Store(context, _) => (context_bytes(context), Vec::new()),
        Memory::Load(context, loaded) => (context_bytes(context), context_bytes(loaded)),
        _ => (Vec::new(), Vec::new()),
    };
    let (number, operand, n) = match memory {
        Memory::EraseBlock(operand) => (1, operand.word(), 0),
        Memory::ShareBlockN(operand, n) => (2, operand.word(), n),
        Memory::Store(_, n) => (3, 0, n),
        Memory::Load(..) => (4, 0, 0),
    };
    let asked = ffi::Memory {
        number,
        operand,
        n,
        context: &context,
        loaded: &loaded,
    };
    written(memory.most_records(edition), |out| {
        ffi::memory(edition, frame, &asked, counter, out)
    })
}

/// The records of a print of an operand, which keep the variables of a context.
pub fn print(
    frame: Frame,
    newline: bool,
    source: Operand,
    context: &[Binding],
) -> Result<Vec<u8>, Refusal> {
    let context = context_bytes(context);
    written(PRINT_RECORDS, |out| {
        ffi::print(frame, newline, source.word(), &context, out)
    })
}

/// The records of a routine around a body.
pub fn routine(
    edition: Edition,
    frame: Frame,
    body: &[u8],
    arguments: usize,
) -> Result<Vec<u8>, Refusal> {
    let records =
        ROUTINE_RECORDS + arguments.min(MOST_ARGUMENTS) + body.len().div_ceil(RECORD_SIZE);
    written(records, |out| {
        ffi::routine(edition, frame, body, arguments, out)
    })
}

/// The operand of a variable of a context by its id: its Snd or its Fst.
pub fn variable(
    frame: Frame,
    context: &[Binding],
    id: u32,
    second: bool,
) -> Result<Operand, Refusal> {
    match ffi::query(frame, 3, second, 0, id, &context_bytes(context)) {
        Told { number: 0, value } => Ok(Operand::of_word(value)),
        Told { number, value } => Err(Refusal::told(number, value)),
    }
}

#[cfg(test)]
mod tests {
    use super::{Condition, Edition, Frame, Memory, Operand, Operation};
    use crate::{list, Arithmetic, Binding, Kind, Refusal, RECORD_SIZE};

    const R5: Operand = Operand::Register(5);
    const R7: Operand = Operand::Register(7);

    const CONDITIONS: [Condition; 6] = [
        Condition::Equal,
        Condition::NotEqual,
        Condition::Less,
        Condition::LessOrEqual,
        Condition::Greater,
        Condition::GreaterOrEqual,
    ];

    const FIRST: Edition = Edition::First;
    const SECOND: Edition = Edition::Second;

    const SMALLER: Frame = Frame::Of256;
    const LARGER: Frame = Frame::Of512;

    type Written = Result<Vec<u8>, Refusal>;

    fn operation(operation: Operation) -> Written {
        super::operation(SMALLER, operation)
    }

    fn memory(memory: Memory, counter: &mut u64) -> Written {
        super::memory(FIRST, SMALLER, memory, counter)
    }

    fn routine(body: &[u8], arguments: usize) -> Written {
        super::routine(FIRST, SMALLER, body, arguments)
    }

    fn codes(records: &[u8]) -> Vec<u8> {
        records
            .chunks(RECORD_SIZE)
            .map(|record| record[1])
            .collect()
    }

    fn context(kinds: &[Kind]) -> Vec<Binding> {
        kinds
            .iter()
            .zip(0..)
            .map(|(kind, id)| Binding { kind: *kind, id })
            .collect()
    }

    #[test]
    fn operations_go_by_their_numbers() {
        let x = Operation::Arithmetic(Arithmetic::Sub, R5, R5, R7);
        assert_eq!(
            list(&operation(x).unwrap()).unwrap(),
            "1 records\n1 SUB 5 7 0 0 0\n"
        );
        for (condition, jump) in CONDITIONS.into_iter().zip(30..) {
            let x = Operation::JumpLabelIf(condition, R5, R7, 9);
            assert_eq!(codes(&operation(x).unwrap()), [25, jump]);
            let x = Operation::JumpLabelIfZero(condition, R5, 9);
            assert_eq!(codes(&operation(x).unwrap()), [28, jump]);
        }
    }

    #[test]
    fn operations_of_one_record() {
        let single = [
            (Operation::Label(9), 40),
            (Operation::Jump(R5), 16),
            (Operation::JumpLabel(9), 17),
            (Operation::JumpLabelFixed(9), 18),
            (Operation::LoadImmediate(R5, 1), 23),
            (Operation::LoadLabel(R5, 9), 19),
            (Operation::Arithmetic(Arithmetic::Add, R5, R5, R7), 1),
            (Operation::Arithmetic(Arithmetic::Mul, R5, R5, R7), 10),
            (Operation::Mov(R5, R7), 20),
            (Operation::Compare(R5, R7), 25),
            (Operation::CompareImmediate(R5, 1), 28),
        ];
        for (each, code) in single {
            assert_eq!(codes(&operation(each).unwrap()), [code], "{each:?}");
        }
    }

    #[test]
    fn what_may_not_be_given_is_refused() {
        assert_eq!(
            operation(Operation::Jump(Operand::Register(3)))
                .unwrap_err()
                .number,
            3
        );
        assert_eq!(
            operation(Operation::Jump(Operand::Spill(0)))
                .unwrap_err()
                .number,
            3
        );
        assert_eq!(operation(Operation::Label(0)).unwrap_err().number, 3);
        assert_eq!(routine(&[], 6).unwrap_err().number, 6);
        assert_eq!(routine(&[0; 24], 0).unwrap_err().place, 1);
    }

    #[test]
    fn worked_numbers() {
        let ext = context(&[Kind::Ext; 4]);
        let mut counter = 0;
        let records = memory(Memory::Store(&ext, 4), &mut counter).unwrap();
        assert_eq!((records.len() / RECORD_SIZE, counter), (118, 26));
        counter = 0;
        let records = memory(Memory::Load(&[], &ext[..1]), &mut counter).unwrap();
        assert_eq!((records.len() / RECORD_SIZE, counter), (10, 2));
        counter = 0;
        let records = memory(Memory::EraseBlock(Operand::Spill(1)), &mut counter).unwrap();
        assert_eq!((records.len() / RECORD_SIZE, counter), (12, 3));
        assert_eq!(memory(Memory::Load(&[], &[]), &mut counter), Ok(Vec::new()));
        let records = super::print(SMALLER, true, R5, &ext[..1]).unwrap();
        assert_eq!(records.len() / RECORD_SIZE, 6);
        assert_eq!(routine(&[], 5).unwrap().len() / RECORD_SIZE, 30);
    }

    /// The records and labels of an operation on blocks.
    fn size(edition: Edition, frame: Frame, memory: Memory) -> Result<(usize, u64), u64> {
        let mut counter = 0;
        match super::memory(edition, frame, memory, &mut counter) {
            Ok(records) => Ok((records.len() / RECORD_SIZE, counter)),
            Err(refusal) => Err(refusal.number),
        }
    }

    #[test]
    fn worked_numbers_of_the_second_edition() {
        let ext = context(&[Kind::Ext; 8]);
        let stored = |n| size(SECOND, SMALLER, Memory::Store(&ext[..n], n as u64));
        let stores = [1, 4, 7, 8].map(|n| stored(n).unwrap());
        assert_eq!(stores, [(110, 25), (113, 25), (117, 25), (228, 50)]);
        let load = size(SECOND, SMALLER, Memory::Load(&[], &ext[..1]));
        assert_eq!(load, Ok((10, 2)));
        for memory in [Memory::EraseBlock(R5), Memory::ShareBlockN(R5, 3)] {
            assert_eq!(size(SECOND, SMALLER, memory), size(FIRST, SMALLER, memory));
        }
    }

    /// Linked variables in spills reach the bounds where the first block is full.
    #[test]
    fn stores_and_loads_fill_their_bounds() {
        for (edition, full) in [(FIRST, 5), (SECOND, 13)] {
            let linked = context(&vec![Kind::Linked; 6 + full]);
            for n in 0..=full {
                let store = size(edition, SMALLER, Memory::Store(&linked[..6 + n], n as u64));
                let load = size(edition, SMALLER, Memory::Load(&linked[..6], &linked[..n]));
                let [stored, loaded] = [store, load].map(|size| size.unwrap().0);
                let (most_stored, most_loaded) =
                    (edition.store_records(n), edition.load_records(n));
                assert!(stored <= most_stored && loaded <= most_loaded);
                if n == full {
                    assert_eq!((stored, loaded), (most_stored, most_loaded));
                }
            }
        }
    }

    #[test]
    fn a_refusal_keeps_the_counter() {
        let mut counter = u64::from(u32::MAX >> 1);
        let refusal = memory(Memory::ShareBlockN(R5, 1), &mut counter).unwrap_err();
        assert_eq!((refusal.number, counter), (9, 2_147_483_647));
    }

    #[test]
    fn a_variable_is_found_by_its_id() {
        let variable = super::variable;
        let seven = context(&[Kind::Linked; 7]);
        for frame in [SMALLER, LARGER] {
            assert_eq!(variable(frame, &seven, 0, true), Ok(R5));
            assert_eq!(variable(frame, &seven, 6, false), Ok(Operand::Spill(1)));
            assert_eq!(variable(frame, &seven, 7, false).unwrap_err().number, 4);
        }
        let many = context(&[Kind::Ext; 262]);
        let last = [(SMALLER, 133, 255), (LARGER, 261, 511)];
        for (frame, id, spill) in last {
            assert_eq!(variable(frame, &many, id, false), Ok(Operand::Spill(spill)));
            assert_eq!(variable(frame, &many, id, true).unwrap_err().number, 8);
        }
    }

    #[test]
    fn the_last_spill_is_the_frames() {
        for (frame, last) in [(SMALLER, 255), (LARGER, 511)] {
            let jump = |spill| super::operation(frame, Operation::Jump(Operand::Spill(spill)));
            let listing = list(&jump(last).unwrap()).unwrap();
            assert!(listing.contains("MOVL 1 0 0 0 0"), "{listing}");
            assert_eq!(jump(last + 1).unwrap_err().number, 3);
        }
    }

    #[test]
    fn stores_and_loads_by_edition_and_frame() {
        for (edition, frame, stored, loaded) in [
            (FIRST, SMALLER, (4_275, 858), (2_096, 135)),
            (FIRST, LARGER, (8_435, 1_690), (4_144, 263)),
            (SECOND, SMALLER, (2_827, 550), (1_752, 135)),
            (SECOND, LARGER, (5_651, 1_100), (3_460, 263)),
        ] {
            let most = frame.most_variables();
            let linked = context(&vec![Kind::Linked; most + 1]);
            let size = |memory| size(edition, frame, memory);
            let store = size(Memory::Store(&linked[..most], most as u64));
            let load = size(Memory::Load(&[], &linked[..most]));
            assert_eq!((store, load), (Ok(stored), Ok(loaded)));
            assert_eq!(size(Memory::Store(&linked, 1)), Err(8));
            assert_eq!(size(Memory::Load(&linked[..most], &linked[..1])), Err(8));
            assert!(size(Memory::Store(&linked[..most], 0)).is_ok());
        }
    }

    /// The setup leaves FREE one block past HEAP, and STACK below the frame.
    #[test]
    fn a_routine_has_its_edition_and_frame() {
        for (edition, block) in [(FIRST, 64), (SECOND, 128)] {
            for (frame, bytes) in [(SMALLER, 2_048), (LARGER, 4_096)] {
                let records = super::routine(edition, frame, &[], 0).unwrap();
                let listing = list(&records).unwrap();
                assert!(listing.contains(&format!("ADDI 3 0 0 0 {block}\n")));
                assert!(listing.contains(&format!("SUBI 0 0 0 0 {bytes}\n")));
                assert!(listing.contains(&format!("ADDI 0 0 0 0 {bytes}\n")));
            }
        }
    }
}
