//! Puts one list of requests to both sides and counts the answers that differ.

use crate::answer::Answer;
use crate::record;
use crate::request::{Emission, Line, Operation, Query, Request};
use crate::shape::Chosen;
use crate::{parse, port_side, rust_side};
use std::io::Result;

/// How many differences are shown, and how much of each line.
const SHOWN: u64 = 5;
const SHOWN_CHARS: usize = 100;

#[derive(Default)]
struct Tally {
    requests: u64,
    same: u64,
    matched: u64,
    port_alone: u64,
    different: u64,
}

/// How two answers to one request compare.
#[derive(Debug, PartialEq, Eq)]
enum Outcome {
    Same,
    /// Different answers that mean the same.
    Matched,
    /// The Rust cannot be asked this.
    PortAlone,
    Different,
}

/// True if no answers differ.
pub fn run(lines: impl Iterator<Item = Result<String>>) -> Result<bool> {
    let mut tally = Tally::default();
    for line in lines {
        tally.compare(&line?);
    }
    let Tally {
        requests,
        same,
        matched,
        port_alone,
        different,
    } = tally;
    println!(
        "{requests} requests: {same} answered alike, {matched} matched by a refusal, \
         {port_alone} for the port alone, {different} differ"
    );
    Ok(different == 0)
}

impl Tally {
    fn compare(&mut self, text: &str) {
        self.requests += 1;
        let Ok(line) = parse::line(text) else {
            // both sides answer `malformed` with the same reason
            self.same += 1;
            return;
        };
        let rust = by_rust(line.chosen, &line.request);
        let port = port_side::answer(&line, &mut None);
        match outcome(&line, &rust, &port) {
            Outcome::Same => self.same += 1,
            Outcome::Matched => self.matched += 1,
            Outcome::PortAlone => self.port_alone += 1,
            Outcome::Different => {
                self.different += 1;
                if self.different <= SHOWN {
                    show(self.requests, text, &rust, &port);
                }
            }
        }
    }
}

/// What the Rust answers, in a shape that there is not as in the nearest.
fn by_rust(chosen: Chosen, request: &Request) -> Answer {
    rust_side::answer(chosen.nearest().chosen(), request)
}

fn outcome(line: &Line, rust: &Answer, port: &Answer) -> Outcome {
    if *port == Answer::Damaged {
        return Outcome::Different;
    }
    if matches!(rust, Answer::Malformed(_)) && rust != port {
        return Outcome::PortAlone;
    }
    if let Some(begun) = before_edition(line) {
        let rust = by_rust(begun.chosen, &begun.request);
        if refused(&begun, &rust) {
            return outcome(&begun, &rust, port);
        }
        return must_be(23, port);
    }
    if let Some(number) = must_refuse(line) {
        return must_be(number, port);
    }
    match (&line.request, rust, port) {
        _ if rust == port => Outcome::Same,
        (_, Answer::Panic(cause), Answer::Refused(number, None)) if cause == number => {
            Outcome::Matched
        }
        (_, Answer::Exceeded(_), Answer::Refused(9, None)) => Outcome::Matched,
        (Request::Emission(emission), Answer::Records(..), Answer::Refused(10, bytes))
            if bytes.is_some() && *bytes == lacking(line.chosen, emission) =>
        {
            Outcome::Matched
        }
        _ => Outcome::Different,
    }
}

/// A refusal with a number and nothing else.
fn must_be(number: u64, port: &Answer) -> Outcome {
    match port {
        Answer::Refused(found, None) if *found == number => Outcome::Matched,
        _ => Outcome::Different,
    }
}

/// In an edition that there is not, the operations before the first that takes one: if none of them
/// refuses, that one does.
fn before_edition(line: &Line) -> Option<Line> {
    let Request::Emission(emission) = &line.request else {
        return None;
    };
    let mut operations = emission.operations.iter();
    let first = operations.position(Operation::takes_edition)?;
    line.chosen.edition().is_none().then(|| Line {
        chosen: line.chosen,
        request: begun(emission, first),
    })
}

/// So many operations of a list.
fn begun(emission: &Emission, count: usize) -> Request {
    Request::Emission(Emission {
        operations: emission.operations[..count].to_vec(),
        ..*emission
    })
}

/// Whether the port refuses a list, to which the Rust answers this.
fn refused(line: &Line, rust: &Answer) -> bool {
    let short = match &line.request {
        Request::Emission(emission) => lacking(line.chosen, emission).is_some(),
        _ => false,
    };
    short || must_refuse(line).is_some() || !matches!(rust, Answer::Records(..))
}

/// The number with which the port must refuse whatever the Rust answers, if there is one: 3 where
/// the frame is none that there is or a field is past a block's last, and to a query 23 before it
/// where the edition is none.
fn must_refuse(line: &Line) -> Option<u64> {
    let no_frame = line.chosen.frame().is_none().then_some(3);
    match &line.request {
        Request::Query(query) => match (line.chosen.edition(), query) {
            (None, _) => Some(23),
            (Some(edition), Query::FieldOffset(_, field)) => {
                (*field >= edition.fields() as u64).then_some(3)
            }
            _ => no_frame,
        },
        Request::Emission(emission) => {
            let given = |operation: &Operation| matches!(operation, Operation::Raw(..));
            no_frame.filter(|_| !emission.operations.iter().all(given))
        }
        _ => None,
    }
}

/// The bytes that the Rust's records need up to the first operation for which the request gives too
/// little room, if there is one.
fn lacking(chosen: Chosen, emission: &Emission) -> Option<u64> {
    let room = emission.room?;
    (1..=emission.operations.len()).find_map(|count| {
        match by_rust(chosen, &begun(emission, count)) {
            Answer::Records(records, _) => Some((records.len() * record::SIZE) as u64),
            _ => None,
        }
        .filter(|needed| room < *needed)
    })
}

/// Shows the request and the first line in which the answers differ.
fn show(number: u64, line: &str, rust: &Answer, port: &Answer) {
    let (rust, port) = (rust.to_string(), port.to_string());
    let (rust, port): (Vec<_>, Vec<_>) = (rust.lines().collect(), port.lines().collect());
    let mut places = 0..rust.len().max(port.len());
    let at = places
        .find(|at| rust.get(*at) != port.get(*at))
        .unwrap_or(0);
    let cut = |text: &str| text.chars().take(SHOWN_CHARS).collect::<String>();
    let line_of = |answer: &[&str]| cut(answer.get(at).unwrap_or(&"(ended)"));
    println!("answer {number}: {}", cut(line));
    println!("    Rust: {}", line_of(&rust));
    println!("    port: {}", line_of(&port));
}

#[cfg(test)]
mod tests {
    use super::*;

    fn outcome_of(line: &str, rust: Answer, port: Answer) -> Outcome {
        outcome(&parse::line(line).unwrap(), &rust, &port)
    }

    fn rust(line: &str) -> Answer {
        let line = parse::line(line).unwrap();
        by_rust(line.chosen, &line.request)
    }

    #[test]
    fn failures_of_the_rust_match_their_refusals_alone() {
        let panic = |line, number| outcome_of(line, rust(line), Answer::Refused(number, None));
        for (line, cause) in [
            ("variable_temporary fst 7 -", 4),
            ("routine 6", 6),
            ("position 267", 8),
            ("frame 512 position 523", 8),
        ] {
            for number in [3, 4, 6, 8] {
                let same = panic(line, number) == Outcome::Matched;
                assert_eq!(same, number == cause, "{line} refused with {number}");
            }
        }
        let exceeded = |number| {
            let refused = Answer::Refused(number, None);
            outcome_of("@2147483647 erase_block r4", Answer::Exceeded(3), refused)
        };
        assert_eq!(exceeded(9), Outcome::Matched);
        assert_eq!(exceeded(8), Outcome::Different);
    }

    #[test]
    fn records_match_a_refusal_for_want_of_room_alone() {
        let records = || rust("mov s1 s2");
        let refused = |number, bytes| Answer::Refused(number, Some(bytes));
        let short = "room 47 mov s1 s2";
        assert_eq!(
            outcome_of(short, records(), refused(10, 48)),
            Outcome::Matched
        );
        assert_eq!(
            outcome_of(short, records(), refused(10, 72)),
            Outcome::Different
        );
        assert_eq!(
            outcome_of(short, records(), refused(2, 48)),
            Outcome::Different
        );
        let enough = "room 48 mov s1 s2";
        assert_eq!(
            outcome_of(enough, records(), refused(10, 48)),
            Outcome::Different
        );
        assert_eq!(outcome_of(enough, records(), records()), Outcome::Same);
        let second = "room 47 mov r4 r5; mov s1 s2; mov s1 s2";
        assert_eq!(
            outcome_of(second, records(), refused(10, 72)),
            Outcome::Matched
        );
    }

    #[test]
    fn another_frame_matches_a_refusal_with_3_alone() {
        let refused = |line, number| outcome_of(line, rust(line), Answer::Refused(number, None));
        for line in [
            "frame 0 mov r4 r5",
            "frame 257 routine 6",
            "frame 511 @2147483647 erase_block r4",
            "frame 513 position 600",
            "frame 18446744073709551615 room 0 store e -",
            "frame 255 label lab1",
        ] {
            for number in [1, 3, 4, 6, 8, 9] {
                let same = refused(line, number) == Outcome::Matched;
                assert_eq!(same, number == 3, "{line} refused with {number}");
            }
            assert_eq!(outcome_of(line, rust(line), rust(line)), Outcome::Different);
        }
        let field = "frame 255 field_offset fst 0";
        assert_eq!(outcome_of(field, rust(field), rust(field)), Outcome::Same);
        assert_eq!(refused(field, 3), Outcome::Different);
    }

    #[test]
    fn another_edition_matches_a_refusal_with_23_alone() {
        let refused = |line, number| outcome_of(line, rust(line), Answer::Refused(number, None));
        let expected = |line, expected| {
            for number in [1, 3, 4, 6, 8, 9, 23] {
                let same = refused(line, number) == Outcome::Matched;
                assert_eq!(same, number == expected, "{line} refused with {number}");
            }
        };
        for line in [
            "edition 0 store e -",
            "edition 3 frame 300 room 0 load e -",
            "edition 3 @2147483647 store_last l 1",
            "edition 18446744073709551615 store - e600",
            "edition 4 routine 6",
            "edition 3 mov r4 r5; erase_block r4; store e -",
            "edition 3 frame 300 raw a92407000000000000000000000000000000000000000000; routine 0",
            "edition 3 frame 300 field_offset fst 0",
            "edition 3 field_offset snd 7",
            "edition 3 frame 300 @2147483647 erase_block p267",
            "edition 3 share_block_n s256 4294967296",
            "edition 3 @2147483647 erase_block r4; routine 0",
            "edition 3 frame 300 position 267",
            "edition 3 stack_offset 0",
            "edition 3 fresh_temporary snd 134",
            "edition 3 frame 300 variable_temporary fst 4294967296 4294967296",
        ] {
            expected(line, 23);
            assert_eq!(outcome_of(line, rust(line), rust(line)), Outcome::Different);
        }
        // what comes before and refuses
        expected("edition 3 frame 300 mov r4 r5; store e -", 3);
        expected("edition 3 mov p267 r5; store e -", 8);
        let short = "edition 3 room 24 mov r4 r5; mov s1 s2; store e -";
        let bytes = |bytes| Answer::Refused(10, Some(bytes));
        assert_eq!(outcome_of(short, rust(short), bytes(72)), Outcome::Matched);
        assert_eq!(
            outcome_of(short, rust(short), bytes(24)),
            Outcome::Different
        );
        assert_eq!(refused(short, 23), Outcome::Different);
        // what takes no edition
        let moved = "edition 3 mov r4 r5";
        assert_eq!(outcome_of(moved, rust(moved), rust(moved)), Outcome::Same);
        assert_eq!(refused(moved, 23), Outcome::Different);
    }

    #[test]
    fn a_field_past_the_last_matches_a_refusal_with_3_alone() {
        for (line, past) in [
            ("field_offset fst 2", false),
            ("field_offset fst 3", true),
            ("edition 2 field_offset snd 6", false),
            ("edition 2 field_offset snd 7", true),
        ] {
            let matched = outcome_of(line, rust(line), Answer::Refused(3, None));
            let same = outcome_of(line, rust(line), rust(line));
            assert_eq!(matched == Outcome::Matched, past, "{line}");
            assert_eq!(same == Outcome::Same, !past, "{line}");
        }
    }

    #[test]
    fn damage_is_a_difference_whatever_the_rust_says() {
        let cannot = Answer::Malformed("only the port answers this".to_string());
        assert_eq!(
            outcome_of("list -", cannot.clone(), Answer::Accepted),
            Outcome::PortAlone
        );
        assert_eq!(
            outcome_of("list -", cannot, Answer::Damaged),
            Outcome::Different
        );
    }
}
