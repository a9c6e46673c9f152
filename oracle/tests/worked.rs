//! The scope's worked numbers, as far as the Rust decides them: `compare rust` gives each.

mod side;

/// What the Rust answers to one request.
fn rust(request: &str) -> String {
    let answer = side::compare_rust(request);
    answer.strip_prefix("answer 1\n").unwrap().to_string()
}

/// The answer's number of records and the counter after them.
fn size(request: &str) -> (usize, u64) {
    let answer = rust(request);
    let counter = answer.lines().last().unwrap();
    let counter = counter.strip_prefix("counter ").unwrap().parse().unwrap();
    let records = answer.split_once(" records\n").unwrap().0;
    (records.parse().unwrap(), counter)
}

fn assert_panics(request: &str) {
    assert_eq!(rust(request), "panic\n", "{request}");
}

#[test]
fn positions() {
    assert_eq!(rust("position 11"), "register 15\n");
    assert_eq!(rust("position 12"), "spill 1 2032\n");
    assert_eq!(rust("position 266"), "spill 255 0\n");
    assert_panics("position 267");
}

/// "With 512, spill p is at 4096 − 8(p+1), positions run to 522."
#[test]
fn positions_of_the_larger_frame() {
    for (position, answer) in [
        (11, "register 15\n"),
        (12, "spill 1 4080\n"),
        (266, "spill 255 2048\n"),
        (267, "spill 256 2040\n"),
        (522, "spill 511 0\n"),
    ] {
        assert_eq!(rust(&format!("frame 512 position {position}")), answer);
    }
    assert_panics("frame 512 position 523");
    assert_eq!(rust("frame 256 position 266"), "spill 255 0\n");
    assert_panics("frame 256 position 267");
}

/// "A store or load of some variables needs at most 261 in all, and a store of none works after
/// 261."
#[test]
fn the_larger_frame_is_full_at_261() {
    let last_spill = "1 records\n1 MOVIM 0 0 0 0 0\ncounter 0\n";
    assert_eq!(rust("frame 512 store - e261"), last_spill);
    assert_panics("frame 512 store - e262");
    for kind in ["e", "l"] {
        for operation in ["store", "load"] {
            assert!(size(&format!("frame 512 {operation} {kind} e260")).0 > 0);
            assert_panics(&format!("frame 512 {operation} {kind} e261"));
        }
    }
    assert_eq!(size("frame 512 store l261 -"), (8_435, 1_690));
    assert_eq!(size("frame 512 load l261 -"), (4_144, 263));
    assert_eq!(size("store l133 -"), (4_275, 858));
    assert_eq!(size("frame 512 erase_block s511"), (12, 3));
    assert_eq!(size("frame 512 load - l4096"), (0, 0));
}

/// The setup and the cleanup of a routine move STACK by the frame.
#[test]
fn a_routine_has_its_frame() {
    for (request, bytes) in [("routine 0", 2_048), ("frame 512 routine 0", 4_096)] {
        let routine = rust(request);
        assert_eq!(size(request), (25, 0));
        for line in [
            format!("SUBI 0 0 0 0 {bytes}"),
            format!("ADDI 0 0 0 0 {bytes}"),
        ] {
            assert!(routine.contains(&line), "{line}");
        }
    }
}

/// "In the second edition a block is 128 bytes with 7 fields, its link in field 6. The last block of
/// an object holds 7 variables and the others 6; acquiring from the lazy list erases seven children":
/// 25 labels a block.
#[test]
fn store_and_load_in_the_second_edition() {
    for (n, stored, loaded) in [
        (1, (110, 25), (10, 2)),
        (7, (117, 25), (24, 2)),
        (8, (228, 50), (32, 2)),
        (13, (240, 50), (60, 2)),
        (14, (351, 75), (68, 2)),
    ] {
        assert_eq!(size(&format!("edition 2 store e{n} -")), stored);
        assert_eq!(size(&format!("edition 2 load e{n} -")), loaded);
    }
    assert_eq!(size("edition 2 store e4 -"), (113, 25));
    assert_eq!(size("edition 2 load l133 -"), (1_752, 135));
    assert_eq!(size("edition 2 frame 512 load l261 -"), (3_460, 263));
}

/// The largest stores, and with the tag that an order puts after them.
#[test]
fn the_largest_stores_of_the_second_edition() {
    for (shape, n, records, labels) in [
        ("edition 2", 133, 2_827, 550),
        ("edition 2 frame 512", 261, 5_651, 1_100),
    ] {
        let store = format!("{shape} store l{n} -");
        assert_eq!(size(&store), (records, labels));
        let order = format!("{store}; load_immediate p1 -1");
        assert_eq!(size(&order), (records + 1, labels));
        assert_panics(&format!("{shape} store e e{n}"));
        assert_panics(&format!("{shape} store - e{}", n + 1));
    }
}

#[test]
fn fields_of_both_editions() {
    for (field, offset) in (0..7).map(|field| (field, 16 + 16 * field)) {
        for (half, more) in [("fst", 0), ("snd", 8)] {
            let value = format!("value {}\n", offset + more);
            for edition in ["", "edition 2 "] {
                let answer = rust(&format!("{edition}field_offset {half} {field}"));
                assert_eq!(answer, value);
            }
        }
    }
    // the link to the last block, in the Fst of the other's last field
    assert!(rust("store e4 -").contains(" MOVS 6 2 0 48 0\n"));
    assert!(rust("edition 2 store e8 -").contains(" MOVS 6 2 0 112 0\n"));
}

/// FREE starts at the second block.
#[test]
fn a_routine_has_its_edition() {
    for (request, bytes) in [
        ("routine 0", 64),
        ("edition 1 frame 512 routine 0", 64),
        ("edition 2 routine 0", 128),
        ("edition 2 frame 512 routine 0", 128),
    ] {
        assert_eq!(size(request), (25, 0));
        let line = format!("16 ADDI 3 0 0 0 {bytes}\n");
        assert!(rust(request).contains(&line), "{line}");
    }
}

/// What the edition does not change.
#[test]
fn blocks_erased_and_shared_in_both_editions() {
    for request in [
        "erase_block r4",
        "erase_block s1",
        "share_block_n r4 1",
        "share_block_n s1 2",
        "store - -",
        "load - e133",
        "print_i64 0 r5 e6",
    ] {
        assert_eq!(rust(&format!("edition 2 {request}")), rust(request));
    }
    assert_eq!(rust("edition 1 store e4 -"), rust("store e4 -"));
}

#[test]
fn the_rust_has_two_editions_and_two_frames() {
    for shape in [
        "frame 0",
        "frame 255",
        "frame 257",
        "frame 511",
        "frame 513",
        "frame 18446744073709551615",
        "edition 0",
        "edition 3",
        "edition 7",
        "edition 18446744073709551615",
        "edition 2 frame 257",
        "edition 3 frame 512",
    ] {
        let answer = rust(&format!("{shape} position 0"));
        assert!(
            answer.starts_with("malformed the Rust has editions 1 and 2 and frames"),
            "{answer}"
        );
    }
    for line in [
        "frame 512 show",
        "edition 2 show",
        "frame",
        "edition",
        "frame -1 position 0",
        "edition -1 position 0",
        "position 0 frame 512",
        "frame 512 edition 2 position 0",
        "edition 2 edition 2 position 0",
    ] {
        assert!(rust(line).starts_with("malformed "), "{line}");
    }
}

#[test]
fn store_none() {
    let register = "1 records\n1 MOVI 4 0 0 0 0\ncounter 0\n";
    assert_eq!(rust("store - -"), register);
    let last_spill = "1 records\n1 MOVIM 0 0 0 0 0\ncounter 0\n";
    assert_eq!(rust("store - e133"), last_spill);
    assert_panics("store - e134");
}

#[test]
fn load_none_after_any_length() {
    for length in [0, 1, 6, 133, 134, 4_096] {
        let request = format!("load - l{length}");
        assert_eq!(size(&request), (0, 0), "{request}");
    }
}

#[test]
fn store_one_at_the_end() {
    for kind in ["e", "l"] {
        let (records, labels) = size(&format!("store {kind} e132"));
        assert!(records > 0 && labels == 13);
        assert_panics(&format!("store {kind} e133"));
    }
}

#[test]
fn erase() {
    for register in 4..16 {
        assert_eq!(size(&format!("erase_block r{register}")), (11, 3));
    }
    for spill in 1..256 {
        assert_eq!(size(&format!("erase_block s{spill}")), (12, 3));
    }
}

#[test]
fn store_and_load_after_none() {
    assert_eq!(size("store e -"), (58, 13));
    assert_eq!(size("store e4 -"), (118, 26));
    assert_eq!(size("load e -"), (10, 2));
}

#[test]
fn print() {
    assert_eq!(size("print_i64 0 r5 e"), (6, 0));
    assert_eq!(size("print_i64 0 r5 e6"), (12, 0));
}

#[test]
fn routine_of_no_body() {
    assert_eq!(size("routine 0"), (25, 0));
    assert_eq!(size("routine 5"), (30, 0));
    assert_panics("routine 6");
}

#[test]
fn the_listers_example() {
    let listing = "\
4 records
1 CMPI 4 0 0 0 0
2 JEL 0 0 1 0 0
3 ADDIM 4 0 0 0 1
4 LAB 0 0 1 0 0
counter 1
";
    assert_eq!(rust("share_block_n r4 1"), listing);
}

#[test]
fn labels_up_to_the_last() {
    assert_eq!(size("@2147483644 erase_block r4"), (11, 2_147_483_647));
    assert_eq!(rust("@2147483645 erase_block r4"), "exceeded 3\n");
}
