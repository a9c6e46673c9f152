//! The machine's state, and where variables stand in it.

use crate::edition::Edition;
use crate::ffi;
use crate::frame::Frame;
use crate::refusal::Refusal;

pub(crate) const REGISTERS: usize = 16;

/// Blocks of the largest heap; the smallest has 2.
pub const MOST_BLOCKS: usize = 1 << 20;

/// The address past the stack's last word.
const STACK_END: u64 = 1 << 40;

/// Registers and stack.
#[derive(Debug, Clone, PartialEq, Eq)]
pub struct State {
    /// Whose blocks the heap beside it has.
    pub edition: Edition,
    /// Whose words the stack has.
    pub frame: Frame,
    /// In the sequence rsp, rcx, rbx, rbp, rax, rdx, rsi, rdi, r8 to r15.
    pub registers: [u64; REGISTERS],
    /// From the lowest address up, [`Frame::stack_words`] of them.
    pub stack: Vec<u64>,
}

impl State {
    /// The state that a list of orders starts from.
    pub fn fresh(edition: Edition, frame: Frame) -> State {
        State::start(edition, frame, true)
    }

    /// The state with which a routine is entered.
    pub fn entry(edition: Edition, frame: Frame) -> State {
        State::start(edition, frame, false)
    }

    fn start(edition: Edition, frame: Frame, fresh: bool) -> State {
        let mut state = State {
            edition,
            frame,
            registers: [0; REGISTERS],
            stack: vec![0; frame.stack_words()],
        };
        let number = ffi::start(&mut state, fresh);
        debug_assert_eq!(number, 0, "the stack has the frame's words");
        state
    }

    /// Runs records beside a heap of whole blocks, [`Edition::block_words`] to each, for at most
    /// `limit` steps; a print call leaves `words` in registers 1 and 4 to 11. The steps of a run that
    /// ended. Refused with 11 or 12, state and heap are as the steps done left them; a stack that has
    /// not the frame's words is refused with 3.
    pub fn run(
        &mut self,
        records: &[u8],
        heap: &mut [u64],
        words: &[u64; 9],
        limit: u64,
    ) -> Result<u64, Refusal> {
        let ran = ffi::run(self, records, heap, words, limit);
        match ran.number {
            0 => Ok(ran.steps),
            number => Err(Refusal {
                number,
                value: ran.steps,
                place: ran.place,
            }),
        }
    }

    /// The word that a variable holds, by its place: its Snd or its Fst. None where it has no
    /// position.
    pub fn word(&self, place: u32, second: bool) -> Option<u64> {
        let position = 2 * u64::from(place) + u64::from(second);
        let operand = answered(ffi::query(self.frame, 1, false, position, 0, &[]))?;
        if let Some(word) = usize::try_from(operand)
            .ok()
            .and_then(|index| self.registers.get(index))
        {
            return Some(*word);
        }
        let offset = answered(ffi::query(self.frame, 4, false, operand, 0, &[]))?;
        let bottom = STACK_END - 8 * self.frame.stack_words() as u64;
        let from_bottom = self.registers[0].wrapping_add(offset).wrapping_sub(bottom);
        self.stack
            .get(usize::try_from(from_bottom / 8).ok()?)
            .copied()
    }
}

fn answered(told: ffi::Told) -> Option<u64> {
    (told.number == 0).then_some(told.value)
}

#[cfg(test)]
mod tests {
    use super::{Edition, Frame, State};
    use crate::emit::{operation, Operand, Operation};

    const EDITIONS: [Edition; 2] = [Edition::First, Edition::Second];

    #[test]
    fn a_variable_is_read_from_register_or_spill() {
        for (frame, last) in [(Frame::Of256, 133), (Frame::Of512, 261)] {
            let mut state = State::fresh(Edition::First, frame);
            state.registers[15] = 5;
            state.stack[57 + frame.spills() - 2] = 6;
            state.stack[57] = 7;
            assert_eq!(state.word(5, true), Some(5));
            assert_eq!(state.word(6, false), Some(6));
            assert_eq!(state.word(last, false), Some(7));
            assert_eq!(state.word(last, true), None);
            state.registers[0] = 0;
            assert_eq!(state.word(6, false), None);
        }
    }

    #[test]
    fn a_run_says_how_it_came_out() {
        let frame = Frame::Of256;
        let operation = |asked| operation(frame, asked).unwrap();
        let put = operation(Operation::LoadImmediate(Operand::Register(5), -3));
        let mut heap = [0; 2 * Edition::First.block_words()];
        let mut state = State::entry(Edition::First, frame);
        assert_eq!(state.run(&put, &mut heap, &[0; 9], 1), Ok(1));
        assert_eq!(state.registers[5] as i64, -3);
        assert_eq!(
            state.run(&put, &mut heap, &[0; 9], 0).unwrap_err().number,
            12
        );
        assert_eq!(
            state
                .run(&put, &mut heap[..9], &[0; 9], 1)
                .unwrap_err()
                .number,
            2
        );
        let load = operation(Operation::Jump(Operand::Register(5)));
        let fault = state.run(&load, &mut heap, &[0; 9], 9).unwrap_err();
        assert_eq!((fault.number, fault.value, fault.place), (11, 0, 1));
    }

    /// 24 words are three blocks in the first edition, and one and a half in the second.
    #[test]
    fn a_heap_has_whole_blocks_of_the_edition() {
        let runs = |edition, words: usize| {
            let mut state = State::fresh(edition, Frame::Of256);
            let ran = state.run(&[], &mut vec![0; words], &[0; 9], 0);
            ran.map_err(|refusal| (refusal.number, refusal.place))
        };
        for edition in EDITIONS {
            let block = edition.block_words();
            assert_eq!(runs(edition, block), Err((2, 0)));
            assert_eq!(runs(edition, 2 * block), Ok(0));
            assert_eq!(runs(edition, 3 * block - 1), Err((2, 0)));
            assert_eq!(runs(edition, 3 * block), Ok(0));
        }
        assert_eq!(runs(Edition::First, 24), Ok(0));
        assert_eq!(runs(Edition::Second, 24), Err((2, 0)));
    }

    /// HEAP at the heap's first block, FREE at the second.
    #[test]
    fn a_fresh_state_has_the_editions_first_blocks() {
        for frame in [Frame::Of256, Frame::Of512] {
            for edition in EDITIONS {
                let registers = State::fresh(edition, frame).registers;
                let second = 65_536 + edition.block_bytes() as u64;
                assert_eq!(registers[2..4], [65_536, second]);
            }
            let entered = EDITIONS.map(|edition| State::entry(edition, frame).registers);
            assert_eq!(entered[0], entered[1]);
        }
    }

    #[test]
    fn a_stack_of_other_words_is_refused() {
        for frame in [Frame::Of256, Frame::Of512] {
            let put = operation(
                frame,
                Operation::LoadImmediate(Operand::Spill(frame.spills() as u16 - 1), 4),
            );
            let mut state = State::fresh(Edition::First, frame);
            let run = |state: &mut State| {
                let ran = state.run(put.as_ref().unwrap(), &mut [0; 16], &[0; 9], 9);
                ran.map_err(|refusal| (refusal.number, refusal.place))
            };
            assert_eq!(run(&mut state), Ok(1));
            assert_eq!(state.stack[57], 4);
            for words in [0, 319, 321, 575, 577] {
                state.stack = vec![0; words];
                assert_eq!(run(&mut state), Err((3, 0)));
            }
        }
    }
}
