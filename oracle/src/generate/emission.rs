//! The emission requests at the limits, in both frames: every mixture of operands, every length of
//! a context and every part of it, wide immediates, counters up to the last label, outputs too
//! short; in the second edition those that depend on blocks. Then some of each sort in editions and
//! frames that there are not.

use super::requests::{
    ARITHMETIC, CONDITIONS, LABELS, ZERO_CONDITIONS, fst_or_snd, in_shape, kinds, share_count,
    write_kinds,
};
use crate::answer::Answer;
use crate::random::Random;
use crate::record::{LAST_FRESH, SIZE};
use crate::shape::{Chosen, Edition, Frame, OTHER_EDITIONS, OTHER_FRAMES, SHAPES, Shape};
use crate::well_formed::{IMMEDIATES, instruction};
use crate::{hex, parse, rust_side};

/// The longest context that the lists have everywhere: one variable more than there is room for.
pub fn longest(frame: Frame) -> usize {
    frame.most_variables() + 1
}

/// The last counter with which the port writes a store and a load of n variables at once, without a
/// pass for its size: it goes by more labels than they can draw.
fn last_at_once(n: usize) -> [u64; 2] {
    [10 * n + 100, 2 * n + 42].map(|labels| LAST_FRESH - labels as u64)
}

/// The shortest output with which the port writes an operation at once. For a store it has room for
/// linked variables at the same places, for a load for as many as n can take, for the others for the
/// most of their kind.
fn at_once(shape: Shape, request: &str, n: usize) -> u64 {
    let edition = shape.edition;
    let others = edition.blocks_of(n).saturating_sub(1);
    let records = match request.split(' ').next() {
        Some("store") => {
            let kinds = request.trim_start_matches("store").replace('e', "l");
            return size(shape, &format!("store{kinds}")).map_or(0, |(bytes, _)| bytes);
        }
        Some("load") => 12 * edition.fields() + 15 + (12 * edition.fields() - 4) * others,
        Some("print_i64") => 21,
        Some("erase_block") => 12,
        Some("share_block_n") => 5,
        _ => 9,
    };
    (SIZE * records) as u64
}

/// The scope's worked numbers.
pub const WORKED: [&str; 27] = [
    "position 11",
    "position 12",
    "position 266",
    "position 267",
    "store - -",
    "store - e133",
    "store - e134",
    "load - -",
    "load - e133",
    "load - l134",
    "load - e4096",
    "store e e132",
    "store l l132",
    "store e e133",
    "store l l133",
    "erase_block r4",
    "erase_block s1",
    "store e -",
    "store e4 -",
    "load e -",
    "print_i64 0 r5 e",
    "print_i64 0 r5 e6",
    "print_i64 1 s1 e6",
    "routine 0",
    "routine 5",
    "routine 6",
    "share_block_n r4 1",
];

/// Every register that holds variables, and the spills at both ends.
const OPERANDS: [&str; 16] = [
    "r4", "r5", "r6", "r7", "r8", "r9", "r10", "r11", "r12", "r13", "r14", "r15", "s1", "s2",
    "s254", "s255",
];

/// Operations that take the counter.
const DRAWING: [&str; 14] = [
    "erase_block r4",
    "erase_block s1",
    "share_block_n r15 1",
    "share_block_n s255 2147483647",
    "store - -",
    "store - l133",
    "store e -",
    "store e4 -",
    "store le2 l9",
    "load - -",
    "load e -",
    "load lel l",
    "load l7 e5",
    "erase_block r4; share_block_n r4 1; store l e",
];

/// Operations to be given outputs of several lengths.
const ROOMS: [&str; 27] = [
    "label lab1",
    "jump r4",
    "jump s1",
    "jump_label lab1",
    "jump_label_fixed cleanup",
    "jump_label_if_less s1 s2 lab1",
    "jump_label_if_greater_zero s255 lab1",
    "load_immediate s1 -1",
    "load_label s1 lab1",
    "add_and_jump s1 5",
    "add s1 s2 s254",
    "sub r4 s1 r4",
    "mul s1 s1 s2",
    "div s1 s2 s254",
    "rem r12 r5 r13",
    "mov s1 s2",
    "compare s1 s2",
    "compare_immediate s1 7",
    "erase_block r4",
    "erase_block s255",
    "share_block_n r4 1",
    "share_block_n s1 2",
    "mov r4 r5; mov s1 s2; erase_block r4",
    "erase_block s1; store le e; load l -",
    "routine 0",
    "mov s1 s2; routine 5",
    "store lle e; routine 3",
];

/// The same of a frame: its last spills, and as many variables as it has room for.
fn adapted(frame: Frame, request: &str) -> String {
    let last = frame.spills() - 1;
    request
        .replace("s255", &format!("s{last}"))
        .replace("s254", &format!("s{}", last - 1))
        .replace("l133", &format!("l{}", frame.most_variables()))
}

pub fn limits(random: &mut Random, list: &mut Vec<String>) {
    list.extend(WORKED.map(str::to_string));
    list.extend(larger());
    list.extend(second());
    for shape in SHAPES {
        let mut requests = Vec::new();
        limits_of(shape, random, &mut requests);
        if shape.edition == Edition::Second {
            requests.retain(|request| takes_edition(request));
        }
        list.extend(in_shape(shape.chosen(), &requests));
    }
    other_shapes(list);
}

/// Whether the port is asked for it in an edition.
fn takes_edition(request: &str) -> bool {
    parse::line(request).is_ok_and(|line| line.request.takes_edition())
}

fn limits_of(shape: Shape, random: &mut Random, list: &mut Vec<String>) {
    let frame = shape.frame;
    let operands = OPERANDS.map(|operand| adapted(frame, operand));
    one_operand(&operands, random, list);
    two_operands(&operands, random, list);
    three_operands(&operands, list);
    labels(list);
    immediates(&operands, random, list);
    contexts(frame, random, list);
    parts(frame, random, list);
    prints(frame, &operands, random, list);
    counters(shape, list);
    counters_of_contexts(shape, random, list);
    rooms(shape, random, list);
    routines(random, list);
    queries(shape, random, list);
}

fn one_operand(operands: &[String], random: &mut Random, list: &mut Vec<String>) {
    for t in operands {
        list.push(format!("jump {t}"));
        list.push(format!("erase_block {t}"));
        list.push(format!("share_block_n {t} {}", share_count(random)));
        for condition in ZERO_CONDITIONS {
            let label = random.pick(&LABELS);
            list.push(format!("jump_label_if_{condition} {t} {label}"));
        }
        for label in LABELS {
            list.push(format!("load_label {t} {label}"));
        }
    }
}

fn two_operands(operands: &[String], random: &mut Random, list: &mut Vec<String>) {
    for fst in operands {
        for snd in operands {
            list.push(format!("mov {fst} {snd}"));
            list.push(format!("compare {fst} {snd}"));
            for condition in CONDITIONS {
                let label = random.pick(&LABELS);
                list.push(format!("jump_label_if_{condition} {fst} {snd} {label}"));
            }
        }
    }
}

fn three_operands(operands: &[String], list: &mut Vec<String>) {
    for operation in ARITHMETIC {
        for t in operands {
            for fst in operands {
                let with = |snd| format!("{operation} {t} {fst} {snd}");
                list.extend(operands.iter().map(with));
            }
        }
    }
}

fn labels(list: &mut Vec<String>) {
    for operation in ["label", "jump_label", "jump_label_fixed"] {
        list.extend(LABELS.map(|label| format!("{operation} {label}")));
    }
}

fn immediates(operands: &[String], random: &mut Random, list: &mut Vec<String>) {
    for operation in ["load_immediate", "add_and_jump", "compare_immediate"] {
        for t in operands {
            let wide = random.word() as i64;
            for immediate in IMMEDIATES.into_iter().chain([wide]) {
                list.push(format!("{operation} {t} {immediate}"));
            }
        }
    }
}

/// Every length up to one more than there is room for: all to store or load, none, one, and a
/// random part, of one kind and of mixed kinds.
fn contexts(frame: Frame, random: &mut Random, list: &mut Vec<String>) {
    for length in 0..=longest(frame) {
        for operation in ["store", "load"] {
            for kind in ['e', 'l'] {
                let whole = write_kinds(&vec![kind; length]);
                list.push(format!("{operation} {whole} -"));
            }
            for first in [length, 0, length.min(1), random.below(length + 1)] {
                let rest = kinds(length - first, random);
                list.push(format!("{operation} {} {rest}", kinds(first, random)));
            }
        }
        let n = random.below(length + 1);
        list.push(format!("store_last {} {n}", kinds(length, random)));
    }
}

/// Every part of every length to store and to load.
fn parts(frame: Frame, random: &mut Random, list: &mut Vec<String>) {
    for length in 0..=longest(frame) {
        for first in 0..=length {
            for operation in ["store", "load"] {
                let rest = kinds(length - first, random);
                list.push(format!("{operation} {} {rest}", kinds(first, random)));
            }
        }
    }
}

/// Every length with every source.
fn prints(frame: Frame, operands: &[String], random: &mut Random, list: &mut Vec<String>) {
    for length in (0..=longest(frame)).chain([4_095, 4_096]) {
        let position = format!("p{}", random.below(frame.positions()));
        for source in operands.iter().chain([&position]) {
            for newline in [0, 1] {
                let context = kinds(length, random);
                list.push(format!("print_i64 {newline} {source} {context}"));
            }
        }
    }
}

/// What the Rust writes for a request: the number of bytes and of labels, unless it panics.
fn size(shape: Shape, request: &str) -> Option<(u64, u64)> {
    match rust_side::answer(shape.chosen(), &parse::line(request).ok()?.request) {
        Answer::Records(records, counter) => Some(((records.len() * SIZE) as u64, counter)),
        _ => None,
    }
}

/// Every length with a counter in the middle, about the last with which the port writes at once, with
/// the last that leaves labels enough, and with the first that does not.
fn counters_of_contexts(shape: Shape, random: &mut Random, list: &mut Vec<String>) {
    for length in 0..=longest(shape.frame) {
        for operation in ["store", "load"] {
            let first = random.below(length + 1);
            let (some, rest) = (kinds(first, random), kinds(length - first, random));
            let request = format!("{operation} {some} {rest}");
            let labels = size(shape, &request).map_or(0, |(_, labels)| labels);
            let middle = random.below(1 << 31) as u64;
            let [stored, loaded] = last_at_once(first);
            let last = if operation == "store" { stored } else { loaded };
            for counter in [
                middle,
                last,
                last + 1,
                LAST_FRESH - labels,
                LAST_FRESH - labels + 1,
            ] {
                list.push(format!("@{counter} {request}"));
            }
        }
    }
}

/// Every operation, and every length of a context, with outputs of no byte, of about half the
/// bytes needed, of a byte less, of just the bytes needed and of a byte more, about the length from
/// which the port writes at once, and of the length that the header recommends.
fn rooms(shape: Shape, random: &mut Random, list: &mut Vec<String>) {
    let frame = shape.frame;
    let mut requests: Vec<(String, usize)> =
        ROOMS.map(|request| (adapted(frame, request), 0)).to_vec();
    for length in 0..=longest(frame) {
        let first = random.below(length + 1);
        for operation in ["store", "load"] {
            let (some, rest) = (kinds(first, random), kinds(length - first, random));
            requests.push((format!("{operation} {some} {rest}"), first));
        }
        let (position, context) = (random.below(frame.positions()), kinds(length, random));
        requests.push((format!("print_i64 1 p{position} {context}"), 0));
    }
    for (request, n) in requests {
        let Some((bytes, _)) = size(shape, &request) else {
            continue;
        };
        let at_once = at_once(shape, &request, n);
        for room in [
            0,
            bytes / 2,
            bytes.saturating_sub(1),
            bytes,
            bytes + 1,
            at_once.saturating_sub(1),
            at_once,
            shape.room_for_records() as u64,
        ] {
            list.push(format!("room {room} {request}"));
        }
    }
}

fn counters(shape: Shape, list: &mut Vec<String>) {
    for operation in DRAWING {
        let operation = adapted(shape.frame, operation);
        let labels = size(shape, &operation).map_or(0, |(_, labels)| labels);
        for counter in [
            0,
            1,
            1 << 30,
            LAST_FRESH - labels - 1,
            LAST_FRESH - labels,
            LAST_FRESH - labels + 1,
            LAST_FRESH,
            LAST_FRESH + 1,
            u64::from(u32::MAX),
            u64::from(u32::MAX) + 1,
            u64::MAX,
        ] {
            list.push(format!("@{counter} {operation}"));
        }
    }
    for counter in [0, 1, 1 << 30, LAST_FRESH] {
        list.push(format!("@{counter} nothing"));
        list.push(format!("@{counter} add r4 r5 s1"));
        list.push(format!("@{counter} routine 3"));
    }
}

/// Routines of every number of arguments around nothing, around each single record, around
/// operations with labels, and around the longest body.
fn routines(random: &mut Random, list: &mut Vec<String>) {
    for arguments in [0, 1, 2, 3, 4, 5, 6, 7, u64::MAX] {
        list.push(format!("routine {arguments}"));
        list.push(format!(
            "erase_block r4; store le e; jump_label cleanup; routine {arguments}"
        ));
    }
    for code in 1..=44 {
        let record = hex::write(&instruction(code, random).to_bytes());
        list.push(format!("raw {record}"));
        list.push(format!("rawn 3 {record}; routine {}", random.below(6)));
    }
    let record = hex::write(&instruction(20, random).to_bytes());
    list.push(format!("rawn 65506 {record}; routine 5"));
}

fn queries(shape: Shape, random: &mut Random, list: &mut Vec<String>) {
    let Shape { edition, frame } = shape;
    let (positions, spills) = (frame.positions() as u64, frame.spills());
    for position in (0..=positions + 33).chain([u64::from(u32::MAX), u64::MAX / 2, u64::MAX]) {
        list.push(format!("position {position}"));
    }
    for length in (0..=longest(frame) + 6).chain([4_096]) {
        for which in ["fst", "snd"] {
            list.push(format!("fresh_temporary {which} {length}"));
        }
    }
    for spill in 1..spills {
        list.push(format!("stack_offset {spill}"));
    }
    for field in 0..=edition.fields() {
        for which in ["fst", "snd"] {
            list.push(format!("field_offset {which} {field}"));
        }
    }
    for before in (0..=longest(frame) + 1).chain([4_093]) {
        let which = fst_or_snd(random);
        list.push(format!("variable_temporary {which} 5 1*{before},5"));
        list.push(format!("variable_temporary {which} 5 1*{before},5*2,1"));
        list.push(format!("variable_temporary {which} 5 1*{before}"));
    }
    list.push("variable_temporary fst 0 -".to_string());
    list.push("variable_temporary snd 4294967295 4294967295".to_string());
}

/// The worked numbers of the larger frame, and each operation with its last spills, positions and
/// variables.
pub fn larger() -> Vec<String> {
    let frame = Frame::Larger;
    let mut requests: Vec<String> = [
        "position 11",
        "position 12",
        "position 266",
        "position 267",
        "position 521",
        "position 522",
        "position 523",
        "position 524",
        "stack_offset 1",
        "stack_offset 256",
        "stack_offset 511",
        "fresh_temporary fst 261",
        "fresh_temporary snd 260",
        "fresh_temporary snd 261",
        "variable_temporary snd 5 1*260,5",
        "variable_temporary fst 5 1*261,5",
        "variable_temporary snd 5 1*261,5",
        "variable_temporary fst 5 1*262",
        "field_offset snd 2",
        "store - -",
        "store - e260",
        "store - e261",
        "store - e262",
        "store e e260",
        "store l l260",
        "store e e261",
        "store l l261",
        "store e262 -",
        "load - e261",
        "load - e4096",
        "load e e260",
        "load l l260",
        "load e e261",
        "load e261 -",
        "load l262 -",
        "load elel e257",
        "print_i64 0 s511 e261",
        "print_i64 1 p521 l133e128",
        "print_i64 0 p522 e4096",
        "print_i64 1 r5 e6",
        "add p521 p1 p519; sub s511 s511 s256; mul p522 p522 p0",
        "div p521 p519 p517; rem s511 s510 s509",
        "jump_label_if_equal s511 s510 lab1; jump_label_if_less_zero s511 cleanup",
        "jump s511",
        "load_label s511 asm_main",
        "add_and_jump s511 2147483647",
        "compare s511 r4; compare s1 s511; compare_immediate s511 -1",
        "load_immediate p521 -9223372036854775808; mov p521 p520; mov r4 s511",
        "@2147483644 erase_block s511",
        "@2147483645 erase_block s511",
        "share_block_n s511 2147483647",
        "@2147481957 store l261 -",
        "@2147481958 store l261 -",
        "@2147483384 load l261 -",
        "@2147483385 load l261 -",
        "routine 0",
        "load_immediate p521 5; routine 5",
        "routine 6",
    ]
    .map(str::to_string)
    .to_vec();
    requests.extend(ROOMS.map(|request| adapted(frame, request)));
    let shape = Shape::new(Edition::First, frame);
    in_shape(shape.chosen(), &requests).collect()
}

/// The second edition: objects of one block, of two, three and four, and of all variables, each block
/// full or not, after no variable and after some; counters, routines and fields.
pub fn second() -> Vec<String> {
    let mut requests = Vec::new();
    for operation in ["store", "load"] {
        for (n, after) in [
            (0, 5),
            (1, 132),
            (6, 3),
            (7, 20),
            (8, 2),
            (12, 40),
            (13, 1),
            (14, 7),
            (19, 4),
            (20, 100),
            (40, 93),
            (133, 1),
        ] {
            let kinds = mixed(n);
            requests.push(format!("{operation} {kinds} -"));
            requests.push(format!("{operation} {kinds} {}", mixed(after)));
        }
    }
    let others = [
        "@2147483622 store e -",
        "@2147483623 store e -",
        "@2147483597 store_last l8 8",
        "@2147483097 store l133 -",
        "@2147483098 store l133 -",
        "@2147483645 load e -",
        "@2147483646 load e -",
        "@7 erase_block r4; store lel2 e; share_block_n p2 3; load lel2 e",
        "routine 0",
        "store e7l2 l; routine 5",
        "routine 6",
        "field_offset fst 0",
        "field_offset snd 1",
        "field_offset fst 2",
        "field_offset snd 3",
        "field_offset fst 4",
        "field_offset snd 5",
        "field_offset fst 6",
        "field_offset snd 6",
    ];
    requests.extend(others.map(str::to_string));
    let larger = [
        "store - e261",
        "store l8 e253",
        "store e e261",
        "load e14 l247",
        "store l261 -",
        "load l261 -",
        "routine 0",
        "field_offset fst 6",
    ]
    .map(str::to_string);
    let [.., base, in_larger] = SHAPES;
    let requests = in_shape(base.chosen(), &requests);
    requests
        .chain(in_shape(in_larger.chosen(), &larger))
        .collect()
}

/// So many kinds, mixed.
fn mixed(length: usize) -> String {
    let kinds = ['e', 'l', 'l', 'e', 'l'];
    let kinds: Vec<char> = kinds.into_iter().cycle().take(length).collect();
    write_kinds(&kinds)
}

/// Some of each sort in frames that there are not, and of what takes an edition in editions that
/// there are not, which are refused before a frame.
fn other_shapes(list: &mut Vec<String>) {
    let mut requests: Vec<String> = WORKED.map(str::to_string).to_vec();
    requests.extend(ROOMS.map(str::to_string));
    let others = [
        "nothing",
        "raw a92407000000000000000000000000000000000000000000",
        "label 0",
        "mov r3 r4",
        "mov s512 s0",
        "mov p0 p600",
        "room 0 store l -",
        "room 0 routine 0",
        "@2147483647 erase_block r4",
        "@18446744073709551615 load e -",
        "share_block_n r4 2147483648",
        "store_last e4 4",
        "store l4096 -",
        "load - e4096",
        "print_i64 0 r4 e4096",
        "stack_offset 1",
        "stack_offset 600",
        "field_offset fst 2",
        "fresh_temporary fst 0",
        "fresh_temporary snd 4096",
        "variable_temporary fst 5 5",
        "variable_temporary fst 5 -",
    ];
    requests.extend(others.map(str::to_string));
    for frame in OTHER_FRAMES {
        let edition = Edition::First.number();
        list.extend(in_shape(Chosen { edition, frame }, &requests));
    }
    requests.retain(|request| takes_edition(request));
    for frame in OTHER_FRAMES {
        let edition = Edition::Second.number();
        list.extend(in_shape(Chosen { edition, frame }, &requests));
    }
    let begun = [
        "store l4097 -",
        "load e4097 -",
        "field_offset snd 7",
        "erase_block p267",
        "share_block_n s256 4294967296",
        "variable_temporary fst 4294967296 5",
        "variable_temporary snd 5 4294967296",
        "mov r4 r5; erase_block r4; store e -",
        "mov p267 r4; store e -",
        "room 24 mov s1 s2; load e -",
        "@2147483647 erase_block r4; routine 0",
        "raw a92407000000000000000000000000000000000000000000; routine 0",
    ];
    requests.extend(begun.map(str::to_string));
    for edition in OTHER_EDITIONS {
        for frame in [256, 300, 512] {
            list.extend(in_shape(Chosen { edition, frame }, &requests));
        }
    }
}
