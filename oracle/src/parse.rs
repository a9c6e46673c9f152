//! Reads the text of a request.

use crate::channel::Rooms;
use crate::context::{read_ids, read_kinds};
use crate::hex;
use crate::orders::answer::Asked;
use crate::record;
use crate::request::{
    Arithmetic, Condition, Emission, Form, Line, Number, Operand, Operation, Ordering, Query,
    Request, Run,
};
use crate::shape::{Chosen, Shape};

type Read<T> = Result<T, String>;

/// Reads one line, which is neither blank nor a comment. The error is the reason why it is no
/// request.
pub fn line(text: &str) -> Read<Line> {
    let (edition, rest) = prefix("edition", text.trim())?;
    let (frame, rest) = prefix("frame", rest)?;
    let request = request(rest)?;
    let on_channel = matches!(
        request,
        Request::Order(Ordering::Play { .. } | Ordering::Show)
    );
    if edition.or(frame).is_some() && on_channel {
        return Err("a channel keeps the edition and the frame of its fresh".to_string());
    }
    let base = Shape::BASE.chosen();
    let chosen = Chosen {
        edition: edition.unwrap_or(base.edition),
        frame: frame.unwrap_or(base.frame),
    };
    Ok(Line { chosen, request })
}

/// The number after a prefix, if the text begins with it, and the rest.
fn prefix<'a>(name: &str, text: &'a str) -> Read<(Option<u64>, &'a str)> {
    match first_word(text) {
        (word, after) if word == name => {
            let (digits, rest) = first_word(after);
            Ok((Some(number(digits)?), rest))
        }
        _ => Ok((None, text)),
    }
}

fn request(line: &str) -> Read<Request> {
    let words: Vec<&str> = line.split_whitespace().collect();
    match words[..] {
        ["check", "context", bytes] => Ok(Request::Check(Form::Context, hex::read(bytes)?)),
        ["check", "records", bytes] => Ok(Request::Check(Form::Records, hex::read(bytes)?)),
        ["check", "order", bytes] => Ok(Request::Check(Form::Order, hex::read(bytes)?)),
        ["list", bytes] => Ok(Request::List(hex::read(bytes)?)),
        ["run", limit, blocks, words, records] => Ok(Request::Run(Run {
            limit: number(limit)?,
            blocks: number(blocks)?,
            words: print_words(words)?,
            records: hex::read(records)?,
        })),
        ["run", ..] => Err("wrong words after run".to_string()),
        ["order" | "fresh" | "play" | "show", ..] => Ok(Request::Order(ordering(&words)?)),
        [
            "variable_temporary" | "fresh_temporary" | "position" | "stack_offset" | "field_offset",
            ..,
        ] => Ok(Request::Query(query(&words)?)),
        _ => Ok(Request::Emission(emission(line)?)),
    }
}

fn ordering(words: &[&str]) -> Read<Ordering> {
    match *words {
        ["order", context, counter, order, bindings, records, after] => Ok(Ordering::Alone {
            context: hex::read(context)?,
            asked: asked(order, bindings, counter)?,
            rooms: Rooms::of(number(records)?, number(after)?),
        }),
        ["fresh", blocks] => Ok(Ordering::Fresh(number(blocks)?)),
        ["play", order, bindings, counter, records, after, words] => Ok(Ordering::Play {
            asked: asked(order, bindings, counter)?,
            rooms: Rooms::of(number(records)?, number(after)?),
            words: print_words(words)?,
        }),
        ["show"] => Ok(Ordering::Show),
        _ => Err(format!("wrong words after {}", words[0])),
    }
}

fn asked(order: &str, bindings: &str, counter: &str) -> Read<Asked> {
    Ok(Asked {
        order: hex::read(order)?,
        bindings: hex::read(bindings)?,
        counter: number(counter)?,
    })
}

fn query(words: &[&str]) -> Read<Query> {
    match words {
        ["variable_temporary", which, id, ids] => Ok(Query::VariableTemporary(
            fst_or_snd(which)?,
            number(id)?,
            read_ids(ids)?,
        )),
        ["fresh_temporary", which, length] => {
            Ok(Query::FreshTemporary(fst_or_snd(which)?, number(length)?))
        }
        ["position", n] => Ok(Query::Position(number(n)?)),
        ["stack_offset", spill] => Ok(Query::StackOffset(number(spill)?)),
        ["field_offset", which, n] => Ok(Query::FieldOffset(fst_or_snd(which)?, number(n)?)),
        _ => Err(format!("wrong words after {}", words[0])),
    }
}

fn emission(line: &str) -> Read<Emission> {
    let mut rest = line.trim();
    let mut counter = 0;
    if let Some(after) = rest.strip_prefix('@') {
        let (text, operations) = first_word(after.trim_start());
        counter = number(text)?;
        rest = operations;
    }
    if rest == "nothing" {
        let operations = Vec::new();
        return Ok(Emission {
            counter,
            room: None,
            operations,
        });
    }
    let mut room = None;
    if let ("room", after) = first_word(rest) {
        let (text, operations) = first_word(after);
        room = Some(number(text)?);
        rest = operations;
    }
    let operations = rest.split(';').map(operation).collect::<Read<_>>()?;
    Ok(Emission {
        counter,
        room,
        operations,
    })
}

/// The first word, and what follows it without white space between.
fn first_word(text: &str) -> (&str, &str) {
    let (word, rest) = text.split_once(char::is_whitespace).unwrap_or((text, ""));
    (word, rest.trim_start())
}

fn operation(text: &str) -> Read<Operation> {
    let words: Vec<&str> = text.split_whitespace().collect();
    let Some((name, operands)) = words.split_first() else {
        return Err("no operation".to_string());
    };
    if let Some(condition) = name.strip_prefix("jump_label_if_") {
        return conditional_jump(condition, operands);
    }
    if let Some(arithmetic) = arithmetic(name) {
        let [t, fst, snd] = operands else {
            return Err(format!("{name} has three operands"));
        };
        let (t, fst, snd) = (operand(t)?, operand(fst)?, operand(snd)?);
        return Ok(Operation::Arithmetic(arithmetic, t, fst, snd));
    }
    match words[..] {
        ["label", l] => Ok(Operation::Label(label(l)?)),
        ["jump", t] => Ok(Operation::Jump(operand(t)?)),
        ["jump_label", l] => Ok(Operation::JumpLabel(label(l)?)),
        ["jump_label_fixed", l] => Ok(Operation::JumpLabelFixed(label(l)?)),
        ["load_immediate", t, i] => Ok(Operation::LoadImmediate(operand(t)?, immediate(i)?)),
        ["load_label", t, l] => Ok(Operation::LoadLabel(operand(t)?, label(l)?)),
        ["add_and_jump", t, i] => Ok(Operation::AddAndJump(operand(t)?, immediate(i)?)),
        ["mov", t, source] => Ok(Operation::Mov(operand(t)?, operand(source)?)),
        ["print_i64", newline, source, context] => Ok(Operation::PrintI64(
            zero_or_one(newline)?,
            operand(source)?,
            read_kinds(context)?,
        )),
        ["compare", fst, snd] => Ok(Operation::Compare(operand(fst)?, operand(snd)?)),
        ["compare_immediate", t, i] => Ok(Operation::CompareImmediate(operand(t)?, immediate(i)?)),
        ["erase_block", t] => Ok(Operation::EraseBlock(operand(t)?)),
        ["share_block_n", t, n] => Ok(Operation::ShareBlockN(operand(t)?, number(n)?)),
        ["store", to_store, remaining] => Ok(Operation::Store {
            to_store: read_kinds(to_store)?,
            remaining: read_kinds(remaining)?,
        }),
        ["store_last", context, n] => Ok(Operation::StoreLast {
            context: read_kinds(context)?,
            n: number(n)?,
        }),
        ["load", to_load, existing] => Ok(Operation::Load {
            to_load: read_kinds(to_load)?,
            existing: read_kinds(existing)?,
        }),
        ["raw", bytes] => Ok(Operation::Raw(1, record_bytes(bytes)?)),
        ["rawn", count, bytes] => Ok(Operation::Raw(number(count)?, record_bytes(bytes)?)),
        ["routine", n] => Ok(Operation::Routine(number(n)?)),
        _ => Err(format!(
            "no operation {name} with {} operands",
            operands.len()
        )),
    }
}

fn conditional_jump(condition: &str, operands: &[&str]) -> Read<Operation> {
    let (condition, zero) = match condition {
        "equal" => (Condition::Equal, false),
        "not_equal" => (Condition::NotEqual, false),
        "less" => (Condition::Less, false),
        "less_or_equal" => (Condition::LessOrEqual, false),
        "greater" => (Condition::Greater, false),
        "greater_or_equal" => (Condition::GreaterOrEqual, false),
        "zero" => (Condition::Equal, true),
        "not_zero" => (Condition::NotEqual, true),
        "less_zero" => (Condition::Less, true),
        "less_or_equal_zero" => (Condition::LessOrEqual, true),
        "greater_zero" => (Condition::Greater, true),
        "greater_or_equal_zero" => (Condition::GreaterOrEqual, true),
        _ => return Err(format!("no condition {condition}")),
    };
    match operands {
        [t, l] if zero => Ok(Operation::JumpLabelIfZero(
            condition,
            operand(t)?,
            label(l)?,
        )),
        [fst, snd, l] if !zero => Ok(Operation::JumpLabelIf(
            condition,
            operand(fst)?,
            operand(snd)?,
            label(l)?,
        )),
        _ => Err("wrong number of operands of a conditional jump".to_string()),
    }
}

fn arithmetic(name: &str) -> Option<Arithmetic> {
    match name {
        "add" => Some(Arithmetic::Add),
        "sub" => Some(Arithmetic::Sub),
        "mul" => Some(Arithmetic::Mul),
        "div" => Some(Arithmetic::Div),
        "rem" => Some(Arithmetic::Rem),
        _ => None,
    }
}

fn operand(text: &str) -> Read<Operand> {
    let no_operand = || format!("no operand {text}");
    let (letter, rest) = text.split_at_checked(1).ok_or_else(no_operand)?;
    match letter {
        "r" => Ok(Operand::Register(number(rest)?)),
        "s" => Ok(Operand::Spill(number(rest)?)),
        "p" => Ok(Operand::Position(number(rest)?)),
        _ => Err(no_operand()),
    }
}

fn label(text: &str) -> Read<u64> {
    match text {
        "asm_main" => Ok(record::ASM_MAIN.into()),
        "cleanup" => Ok(record::CLEANUP.into()),
        "PRINT_I64" => Ok(record::PRINT_I64.into()),
        "PRINTLN_I64" => Ok(record::PRINTLN_I64.into()),
        _ => {
            let fresh = text.strip_prefix("lab");
            number(fresh.or(text.strip_prefix('n')).unwrap_or(text))
        }
    }
}

fn record_bytes(text: &str) -> Read<[u8; record::SIZE]> {
    let bytes = hex::read(text)?;
    bytes
        .try_into()
        .map_err(|_| "a record has 24 bytes".to_string())
}

fn fst_or_snd(text: &str) -> Read<Number> {
    match text {
        "fst" => Ok(Number::Fst),
        "snd" => Ok(Number::Snd),
        _ => Err(format!("{text} is neither fst nor snd")),
    }
}

fn zero_or_one(text: &str) -> Read<bool> {
    match text {
        "0" => Ok(false),
        "1" => Ok(true),
        _ => Err(format!("{text} is neither 0 nor 1")),
    }
}

/// Nine words with commas between.
fn print_words(text: &str) -> Read<[u64; 9]> {
    let words = text.split(',').map(number).collect::<Read<Vec<_>>>()?;
    let words = words.try_into();
    words.map_err(|_| "a print leaves nine words".to_string())
}

/// An unsigned 64-bit decimal.
pub fn number(text: &str) -> Read<u64> {
    let digits = !text.is_empty() && text.bytes().all(|byte| byte.is_ascii_digit());
    let value = if digits { text.parse().ok() } else { None };
    value.ok_or_else(|| format!("no 64-bit number: {text}"))
}

/// A signed 64-bit decimal.
fn immediate(text: &str) -> Read<i64> {
    let digits = text.strip_prefix('-').unwrap_or(text);
    let decimal = digits.starts_with(|letter: char| letter.is_ascii_digit());
    let value = if decimal { text.parse().ok() } else { None };
    value.ok_or_else(|| format!("no signed 64-bit number: {text}"))
}
