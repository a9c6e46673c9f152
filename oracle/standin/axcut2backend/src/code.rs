//! Stands in for `axcut2backend::code`, which was not supplied: the trait that the published
//! `code.rs` implements.

use axcut::syntax::ContextBinding;

/// The instructions of a back end.
pub trait Instructions<Code, Temporary, Immediate> {
    fn comment(msg: String) -> Code;
    fn label(name: String) -> Code;
    fn jump(temporary: Temporary, instructions: &mut Vec<Code>);
    fn jump_label(name: String, instructions: &mut Vec<Code>);
    fn jump_label_fixed(name: String, instructions: &mut Vec<Code>);
    fn jump_label_if_equal(
        fst: Temporary,
        snd: Temporary,
        name: String,
        instructions: &mut Vec<Code>,
    );
    fn jump_label_if_not_equal(
        fst: Temporary,
        snd: Temporary,
        name: String,
        instructions: &mut Vec<Code>,
    );
    fn jump_label_if_less(
        fst: Temporary,
        snd: Temporary,
        name: String,
        instructions: &mut Vec<Code>,
    );
    fn jump_label_if_less_or_equal(
        fst: Temporary,
        snd: Temporary,
        name: String,
        instructions: &mut Vec<Code>,
    );
    fn jump_label_if_greater(
        fst: Temporary,
        snd: Temporary,
        name: String,
        instructions: &mut Vec<Code>,
    );
    fn jump_label_if_greater_or_equal(
        fst: Temporary,
        snd: Temporary,
        name: String,
        instructions: &mut Vec<Code>,
    );
    fn jump_label_if_zero(temporary: Temporary, name: String, instructions: &mut Vec<Code>);
    fn jump_label_if_not_zero(temporary: Temporary, name: String, instructions: &mut Vec<Code>);
    fn jump_label_if_less_zero(temporary: Temporary, name: String, instructions: &mut Vec<Code>);
    fn jump_label_if_less_or_equal_zero(
        temporary: Temporary,
        name: String,
        instructions: &mut Vec<Code>,
    );
    fn jump_label_if_greater_zero(temporary: Temporary, name: String, instructions: &mut Vec<Code>);
    fn jump_label_if_greater_or_equal_zero(
        temporary: Temporary,
        name: String,
        instructions: &mut Vec<Code>,
    );
    fn load_immediate(temporary: Temporary, immediate: Immediate, instructions: &mut Vec<Code>);
    fn load_label(temporary: Temporary, name: String, instructions: &mut Vec<Code>);
    fn add_and_jump(temporary: Temporary, immediate: Immediate, instructions: &mut Vec<Code>);
    fn add(
        target_temporary: Temporary,
        source_temporary_1: Temporary,
        source_temporary_2: Temporary,
        instructions: &mut Vec<Code>,
    );
    fn sub(
        target_temporary: Temporary,
        source_temporary_1: Temporary,
        source_temporary_2: Temporary,
        instructions: &mut Vec<Code>,
    );
    fn mul(
        target_temporary: Temporary,
        source_temporary_1: Temporary,
        source_temporary_2: Temporary,
        instructions: &mut Vec<Code>,
    );
    fn div(
        target_temporary: Temporary,
        source_temporary_1: Temporary,
        source_temporary_2: Temporary,
        instructions: &mut Vec<Code>,
    );
    fn rem(
        target_temporary: Temporary,
        source_temporary_1: Temporary,
        source_temporary_2: Temporary,
        instructions: &mut Vec<Code>,
    );
    fn mov(target_temporary: Temporary, source_temporary: Temporary, instructions: &mut Vec<Code>);
    fn print_i64(
        newline: bool,
        source_temporary: Temporary,
        context: &[ContextBinding],
        instructions: &mut Vec<Code>,
    );
}
