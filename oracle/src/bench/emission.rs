//! Times emission: the port beside the published Rust, which writes comments and strings besides,
//! and beside a plain copy of the bytes that the port writes.

mod call;
mod cases;
mod report;

pub use report::Form;

use crate::orders::BINDING;
use crate::port::{self, Query};
use crate::record::SIZE;
use crate::rust_side::by_driver;
use crate::shape::Shape;
use call::{Call, Outputs};
use cases::Case;
use report::Row;
use std::hint::black_box;
use std::time::{Duration, Instant};

/// How many times each side is timed, in turns. The least time counts.
const TURNS: u64 = 1_000;

/// How many records a timed run writes at least, or how many calls are enough for it. More would
/// be too many lists of the Rust at once for its memory to be had again from run to run.
const LEAST_RECORDS: usize = 4_000;
const ENOUGH_CALLS: usize = 400;

/// Prints a row for each case that has this in its name. False if the port wrote other bytes than
/// it must, or if there is no such case.
pub fn emission(form: Form, name: &str) -> bool {
    let mut cases = cases::all();
    cases.retain(|case| case.name.contains(name));
    if cases.is_empty() {
        println!("no row has {name} in its name");
        return false;
    }
    println!("{}", form.header());
    let mut alike = true;
    for case in &cases {
        match time(case) {
            Some(row) => println!("{}", form.row(&row)),
            None => {
                println!("{}: the port and the Rust wrote different bytes", case.name);
                alike = false;
            }
        }
    }
    if name.is_empty() {
        println!(
            "\nthe table of positions, which a query takes: {:.1} ns",
            positions()
        );
    }
    alike
}

/// How long a query of a position takes, which is the making of the table.
fn positions() -> f64 {
    let queries = 1_000;
    let query = Query::Position(0);
    let time = |_| {
        timed(|| {
            for _ in 0..queries {
                black_box(port::query(Shape::BASE.chosen(), black_box(&query)));
            }
        })
    };
    let least = (0..TURNS).map(time).min().unwrap_or_default();
    nanoseconds(least, queries)
}

/// Times a case beside the Rust of its shape. None if the port writes other bytes than it must. On
/// the longer context an order has as many records, so that the contexts alone differ.
fn time(case: &Case) -> Option<Row> {
    let expected = case.expected(&case.call);
    let mut outputs = case.call.outputs(case.shape);
    if !agrees(case, &case.call, &expected, &mut outputs) {
        return None;
    }
    if let Some(longer) = &case.longer {
        let more = case.expected(longer);
        assert_eq!(more.records.len(), expected.records.len(), "{}", case.name);
        if !agrees(case, longer, &more, &mut outputs) {
            return None;
        }
    }
    by_driver!(case.shape, driver => {
        let sequence = driver::Sequence::of(&case.body, &case.operations);
        let Ok(sequence) = sequence else {
            unreachable!("the Rust performs the operations of {}", case.name);
        };
        Some(time_beside(case, &expected, &mut outputs, &sequence, driver::Sequence::emit))
    })
}

/// Whether a call of the port writes what it must.
fn agrees(case: &Case, call: &Call, expected: &Outputs, outputs: &mut Outputs) -> bool {
    let returned = call.perform(case.shape, outputs, 1);
    let Outputs { records, context } = expected;
    returned.number == 0
        && returned.value == (records.len() / SIZE) as u64
        && returned.bindings == (context.len() / BINDING) as u64
        && outputs.records.starts_with(records)
        && outputs.context.starts_with(context)
}

/// The least times of the two sides and of a copy of what is expected.
fn time_beside<Sequence: Clone, List>(
    case: &Case,
    expected: &Outputs,
    outputs: &mut Outputs,
    sequence: &Sequence,
    emit: impl Fn(&mut Sequence) -> List,
) -> Row {
    let records = expected.records.len() / SIZE;
    let calls = calls(records);
    let [mut port, mut rust, mut copy] = [Duration::MAX; 3];
    let mut copied = case.call.outputs(case.shape);
    for _ in 0..TURNS {
        port = port.min(by_port(case, &case.call, outputs, calls));
        rust = rust.min(by_rust(sequence, &emit, calls));
        copy = copy.min(by_copy(expected, &mut copied, calls));
    }
    let longer = case.longer.as_ref();
    Row {
        name: case.name.clone(),
        records,
        port: nanoseconds(port, calls),
        rust: nanoseconds(rust, calls),
        copy: nanoseconds(copy, calls),
        context: longer.map(|longer| of_context(case, longer, outputs)),
    }
}

/// What an order's call takes more on the longer context, in turns with that on the shorter.
fn of_context(case: &Case, longer: &Call, outputs: &mut Outputs) -> f64 {
    let [mut more, mut less] = [Duration::MAX; 2];
    for _ in 0..TURNS {
        less = less.min(by_port(case, &case.call, outputs, ENOUGH_CALLS));
        more = more.min(by_port(case, longer, outputs, ENOUGH_CALLS));
    }
    nanoseconds(more, ENOUGH_CALLS) - nanoseconds(less, ENOUGH_CALLS)
}

/// The nanoseconds of one of so many calls.
fn nanoseconds(time: Duration, calls: usize) -> f64 {
    time.as_nanos() as f64 / calls as f64
}

/// How many calls a timed run makes of one that writes so many records.
fn calls(records: usize) -> usize {
    LEAST_RECORDS.div_ceil(records.max(1)).min(ENOUGH_CALLS)
}

/// The outputs are not cleared between calls.
fn by_port(case: &Case, call: &Call, outputs: &mut Outputs, calls: usize) -> Duration {
    timed(|| {
        black_box(black_box(call).perform(case.shape, outputs, calls));
    })
}

/// What the Rust performs is cloned before the clock starts, and freed with the lists after.
fn by_rust<Sequence: Clone, List>(
    sequence: &Sequence,
    emit: impl Fn(&mut Sequence) -> List,
    calls: usize,
) -> Duration {
    let mut clones = vec![sequence.clone(); calls];
    let mut lists = Vec::with_capacity(calls);
    let time = timed(|| {
        lists.extend(clones.iter_mut().map(|clone| emit(black_box(clone))));
    });
    black_box((clones, lists));
    time
}

fn by_copy(expected: &Outputs, copied: &mut Outputs, calls: usize) -> Duration {
    timed(|| {
        for _ in 0..calls {
            let Outputs { records, context } = black_box(expected);
            let copied = black_box(&mut *copied);
            copied.records[..records.len()].copy_from_slice(records);
            copied.context[..context.len()].copy_from_slice(context);
        }
    })
}

fn timed(run: impl FnOnce()) -> Duration {
    let start = Instant::now();
    run();
    start.elapsed()
}
