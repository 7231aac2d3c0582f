//! The readings of the paper's open points (03-open-points), by number, each with a small case: all sides that can be
//! asked agree, and give this answer.

use harness::{case::Case, compare::judge, outcome::Outcome};

/// The model's outcome of a line on which all sides agree.
fn agreed(line: &str) -> Outcome {
    let case = Case::parse(line).unwrap();
    let judged = judge(&case);
    assert_eq!(judged.difference(&case), None, "{line}\n{}", judged.show(&case));
    judged.model
}

fn answers(line: &str, answer: u8) -> Outcome {
    let outcome = agreed(line);
    assert_eq!(outcome.answer, answer, "{line}");
    outcome
}

const D: &str = "ba0144aa00000000";

#[test]
fn point_1_erase_count_at_its_limit() {
    for (fuse, kind, answer) in [("-", 3, 9), ("0", 3, 9), ("5", 3, 9), ("0", 0, 2)] {
        let line =
            format!("g=0/1/1/64x1 f={fuse} erase_full_finished_blocks n=- a={kind},4294967295,8,1 b=- i={D}.ff*56");
        let outcome = answers(&line, answer);
        let case = Case::parse(&line).unwrap();
        assert_eq!((outcome.image, outcome.fuse, outcome.array), (case.image, case.fuse, case.array));
    }
    // format_block with power would refuse: its answer, also without power
    let full = "g=0/1/1/64x1 f=0 erase_full_finished_blocks n=- a=3,4294967295,8,1 b=- i=ba0144aa.ff*60";
    answers(full, 2);
}

#[test]
fn point_2_a_writer_after_3_comes_back_as_it_went_in() {
    for array in ["142,1,255,0,13,0,1,17,0,0,0,0", "142,1,255,0,12,1,3,17,34,51,0,0"] {
        let outcome = answers(&format!("g=4/1/1/64x1 f=- writer_write n=- a={array} b=22 i=ff*64"), 3);
        let numbers: Vec<String> = outcome.array.iter().map(u32::to_string).collect();
        assert_eq!(numbers.join(","), array);
    }
}

#[test]
fn point_3_impossible_values() {
    answers("g=0/1/1/64x1 f=- writer_finalize n=- a=142,1,255,0,8,0,1,17,0,0,0,0 b=- i=ff*64", 4);
    answers("g=0/1/1/64x1 f=- reader_read n=- a=142,2,3,0,8,65537 b=00 i=ff*64", 4);
    answers("g=0/1/1/64x1 f=- metadata_next_object_location n=- a=143,2,3,0,8,0,0,0,65537 b=- i=ff*64", 4);
    answers("g=0/1/1/64x1 f=- metadata_next_object_location n=- a=143,2,255,0,8,0,0,0,65536 b=- i=ff*64", 0);
}

#[test]
fn point_5_aligning_passes_32_bits() {
    assert_eq!(answers("g=4/1/1/64x1 f=- align n=4294967295 a=- b=- i=-", 0).values, [4_294_967_296]);
}

#[test]
fn points_6_and_7_metadata() {
    let image = format!("{D}.8ff003.010203.ff*50");
    answers(&format!("g=0/1/1/64x1 f=- location_read_metadata n=0,8 a=- b=- i={image}"), 0);
    answers(&format!("g=0/1/1/64x1 f=- metadata_next_object_location n=- a=143,2,3,0,8,0,0,0,0 b=- i={image}"), 9);
    // one byte of a location left: the whole is read
    let next =
        answers(&format!("g=0/1/1/64x1 f=- metadata_next_object_location n=- a=143,2,7,0,8,0,0,0,0 b=- i={image}"), 0);
    assert_eq!((next.values, next.array[8]), (vec![1, 255, 255], 2));
}

#[test]
fn point_8_layout_byte() {
    for (g, layout) in [("0/1/1", 0x44), ("1/1/1", 0x45), ("4/3/2", 0xC9)] {
        let outcome = answers(&format!("g={g}/64x1 f=- block_header_write n=0,3,0 a=- b=- i=ff*64"), 0);
        assert_eq!(outcome.image[2], layout);
    }
}

#[test]
fn point_9_update_to_free() {
    answers("g=0/1/1/64x1 f=- update_state n=0 a=255,0,255,0,8 b=- i=ff*64", 9);
}

#[test]
fn point_10_large_sizes() {
    let outcome = answers("g=0/1/1/64x1 f=- set_payload_size n=259 a=255,0,255,0,8 b=- i=ff*64", 0);
    assert_eq!((outcome.image[10], outcome.array[2]), (3, 259));
    let unset = answers("g=0/1/1/64x1 f=- set_payload_size n=255 a=142,1,255,0,8 b=- i=ff*64", 0);
    assert_eq!((unset.image[10], unset.array[2]), (0xFF, 255));
}

#[test]
fn points_11_and_12_finish_and_delete() {
    let sized = answers("g=4/1/1/64x1 f=- writer_finalize n=- a=142,1,5,0,12,4,2,17,34,0,0,0 b=- i=ff*64", 4);
    assert_eq!(sized.image[32..36], [17, 34, 0xFF, 0xFF]);
    assert_eq!(sized.array, [142, 1, 5, 0, 12, 4, 2, 17, 34, 0, 0, 0]);
    let finished = answers("g=4/1/1/64x1 f=- writer_delete n=- a=142,2,5,0,12,4,2,17,34,0,0,0 b=- i=ff*64", 0);
    assert_eq!((finished.image[20], finished.image[32]), (0, 0xFF));
    for (kind, state) in [(255, 0), (142, 3)] {
        let line = format!("g=4/1/1/64x1 f=0 writer_delete n=- a={kind},{state},5,0,12,4,2,17,34,0,0,0 b=- i=ff*64");
        assert!(answers(&line, 0).image.iter().all(|&b| b == 0xFF));
    }
}

#[test]
fn point_13_copies_take_the_handed_in_header() {
    let image = format!("{D}.8ef0024142.ff*51");
    let named = answers(&format!("g=0/1/1/64x1 f=- copy_object n=0,20 a=141,1,9,0,8 b=- i={image}"), 0);
    assert_eq!(named.image[20..25], [0x8D, 0xF0, 2, 0x41, 0x42]);
    let deleted = answers(&format!("g=0/1/1/64x1 f=- move_object n=0,20 a=142,3,2,0,8 b=- i={image}"), 0);
    assert_eq!((deleted.image[9], deleted.image[21]), (0xF0, 0xF0));
}

#[test]
fn point_14_room_for_a_header_read() {
    answers("g=4/1/1/64x1 f=- header_read n=0,48 a=- b=- i=ff*64", 0);
    answers("g=4/1/1/64x1 f=- header_read n=0,51 a=- b=- i=ff*64", 0);
    answers("g=4/1/1/64x1 f=- header_read n=0,52 a=- b=- i=ff*64", 3);
    answers("g=4/1/1/64x1 f=- header_read n=0,52 a=- b=- i=ff*52.8c.ff*11", 2);
}

#[test]
fn point_15_empty_stores_are_tested() {
    answers("g=4/1/1/64x1 f=- writer_write n=- a=142,1,255,0,12,1,0,0,0,0,0,0 b=- i=ff*64", 3);
    answers("g=4/1/1/64x1 f=- writer_finalize n=- a=142,1,255,0,12,1,0,0,0,0,0,0 b=- i=ff*64", 0);
}

#[test]
fn point_16_listing_stops_on_free() {
    let outcome = answers(&format!("g=0/1/1/64x1 f=- iterator_next n=- a=0,8 b=- i={D}.ff*56"), 0);
    assert_eq!((outcome.values[0], outcome.array), (0, vec![0, 8]));
}

#[test]
fn point_17_space_of_a_spent_writer() {
    let spent = answers("g=0/1/1/64x1 f=- writer_space n=- a=142,1,255,0,8,0,0,0,0,0,0,1 b=- i=-", 0);
    assert_eq!(spent.values, [53]);
    for op in ["writer_write", "writer_finalize", "writer_delete"] {
        answers(&format!("g=0/1/1/64x1 f=- {op} n=- a=142,1,255,0,8,0,0,0,0,0,0,1 b=- i=ff*64"), 4);
    }
    let lost = answers("g=0/1/1/64x1 f=1 writer_write n=- a=142,1,255,0,8,0,0,0,0,0,0,0 b=4142 i=ff*64", 8);
    assert_eq!(lost.array, [142, 1, 255, 0, 8, 0, 0, 0, 0, 0, 0, 1]);
}

#[test]
fn points_18_and_19_order_of_the_first_tests() {
    answers("g=2/1/1/64x1 f=- record_is_empty n=- a=5,0,0,2 b=- i=-", 6);
    answers("g=0/1/1/64x1 f=- run n=- a=5,0,0,2 b=- i=ff*63", 7);
    answers("g=0/1/1/64x1 f=- run n=- a=5,0,0 b=- i=ff*64", 7);
    let late = answers("g=0/1/1/64x2 f=- run n=- a=3,0,12,0,3,0,8,2 b=- i=ba0144aa00000000.8e.ff*119", 4);
    assert_eq!(late.image[9..], [0xFF; 119]);
}

#[test]
fn point_20_deleted_before_finished() {
    answers("g=1/1/1/64x1 f=- run n=- a=3,0,12,0 b=- i=ba0145aa00000000.8e.ff*55", 2);
    let outcome = answers("g=1/1/1/64x1 f=- run n=- a=3,0,16,0 b=- i=ba0145aa00000000.8e00ff00.8e.ff*51", 0);
    let scan = Case {
        args: vec![0],
        image: outcome.image,
        ..Case::parse("g=1/1/1/64x1 f=- scan_block n=0 a=- b=- i=-").unwrap()
    };
    answers(&scan.line(), 2);
}

#[test]
fn point_22_sizes_are_joined() {
    let outcome = answers(&format!("g=0/1/1/64x1 f=- write_to n=0,8,142 a=- b=41424344 i={D}.8eff03.ff*53"), 0);
    assert_eq!((outcome.values, outcome.image[10]), (vec![7], 0));
}

#[test]
fn point_23_a_header_that_does_not_fit() {
    for (payload, answer) in [("8ef00141", 9), ("8ef000ff", 3)] {
        let line = format!("g=0/1/1/64x1 f=- copy_object n=0,62 a=142,2,1,0,8 b=- i={D}.{payload}.ff*52");
        assert_eq!(answers(&line, answer).image[62], 0x8E);
    }
}
