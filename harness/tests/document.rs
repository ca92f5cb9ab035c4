//! The frame's numbers, the sets buffer, and the cases that 01 itself lists.

mod common;

use common::{answers, automaton};
use harness::image::{table_writer, Draft, Row, NONE};

fn masks(draft: &Draft) -> Vec<u64> {
    let mut sets = [0; 512];
    assert_eq!(answers(&draft.bytes(), &mut sets), [(0, 0); 2]);
    let entries = sets.as_chunks::<8>().0.iter().take(draft.states.len());
    entries.map(|entry| u64::from_le_bytes(*entry)).collect()
}

fn refused(image: &[u8]) -> (u64, u64) {
    let [rust, library] = answers(image, &mut [0; 512]);
    assert_eq!(rust, library);
    rust
}

#[test]
fn table_writer_is_accepted() {
    assert_eq!(table_writer().bytes().len(), 282);
    assert_eq!(masks(&table_writer()), [0b10, 0b11, 0b11]);
}

#[test]
fn table_writer_cut_is_accepted() {
    let mut draft = table_writer();
    draft.rows.drain(23..28);
    draft.rows[23].c = NONE;
    draft.rows[24].b = 23;
    draft.states = vec![5, 24, 25];
    assert_eq!(draft.bytes().len(), 242);
    // Nothing leads to state 2 any more: it has all variables.
    assert_eq!(masks(&draft), [0b10, 0b11, 0b11]);
}

#[test]
fn communicate_then_an_open_case_is_12() {
    let rows = "2,1,0; 44,0,1,n; 49,2; 53,1; 54,3,4; 52,1,n; 1,0; 2,1,127; 27,7,8; \
                34,0,1; 53,1; 58,10,11,n; 56,9,12; 54,6,13";
    assert_eq!(refused(&automaton("5,14", rows).bytes()), (12, 1));
}

#[test]
fn dead_code_and_a_loop_that_resets() {
    let dead = automaton("5", "53,0; 1,5; 44,0,2,n; 49,3; 54,1,4");
    assert_eq!(masks(&dead), [0b010110]);
    let reset = automaton("4", "2,0,1; 46,1,n; 51,2; 59,1,3");
    assert_eq!(refused(&reset.bytes()), (11, 0));
}

#[test]
fn masks_are_the_largest_that_fit() {
    // State 0 sets i and jumps to 1 and 2, or jumps to 1; state 1 resets p.
    let rows = "53,1; 57,1,n; 2,1,1; 44,0,3,n; 49,4; 53,2; 54,5,6; 57,7,2; 55,8; \
                46,1,n; 51,10; 53,2; 54,11,12; 48; 48";
    let draft = automaton("9,13,14,15", rows);
    assert_eq!(masks(&draft), [0b010110, 0b010110, 0b010100, 0b111111]);
}

#[test]
fn lengths_mark_and_length_field() {
    let image = table_writer().bytes();
    assert_eq!(refused(&[]), (1, 0));
    assert_eq!(refused(&image[..37]), (1, 0));
    assert_eq!(refused(&[0; 16_817]), (1, 0));
    assert_eq!(refused(&image[..38]), (2, 0));
    for (at, byte) in [(280, 0x4F), (281, 0x55), (278, 0), (279, 2)] {
        let mut damaged = image.clone();
        damaged[at] = byte;
        assert_eq!(refused(&damaged), (2, 0), "byte {at}");
    }
}

#[test]
fn starts_sizes_and_counts() {
    let image = table_writer().bytes();
    // Fields of the trailer at 266: starts of types, variables, states, rows; gates.
    let cases = [(266, 2), (268, 2), (268, 14), (270, 10), (272, 12), (272, 22)];
    let others = [(272, 17), (272, 0xFFFF), (274, 0), (274, 65), (268, 5)];
    for (at, value) in cases.into_iter().chain(others) {
        let mut damaged = image.clone();
        damaged[at..at + 2].copy_from_slice(&u16::to_le_bytes(value));
        assert_eq!(refused(&damaged), (3, 0), "field at {at} {value}");
    }
}

#[test]
fn types_and_variables() {
    let change: [fn(&mut Draft); 8] = [
        |draft| draft.types[0] = 3,
        |draft| draft.types[1] = 1,
        |draft| draft.types[2] = 0,
        |draft| draft.types[2] = 4097,
        |draft| draft.variables[0].0 = 3,
        |draft| draft.variables[5].0 = 0xFFFF,
        |draft| draft.variables[0].1 = 2,
        |draft| draft.variables[5].1 = 0x100,
    ];
    for (i, change) in change.iter().enumerate() {
        let mut draft = automaton("1", "48");
        change(&mut draft);
        assert_eq!(refused(&draft.bytes()), (4, 0), "change {i}");
    }
    let mut draft = automaton("1", "48");
    draft.types[2] = 4096;
    assert_eq!(masks(&draft), [0b010110]);
}

#[test]
fn sets_buffer() {
    let draft = automaton("1,2,3", "48; 48; 48");
    for (length, expected) in
        [(0, (10, 0)), (23, (10, 0)), (24, (0, 0)), (31, (0, 0)), (45, (0, 0))]
    {
        let mut sets = vec![0xA5; length];
        assert_eq!(answers(&draft.bytes(), &mut sets), [expected; 2], "{length} bytes");
        let kept = if expected == (0, 0) { &sets[24..] } else { &sets[..] };
        assert!(kept.iter().all(|&byte| byte == 0xA5), "{length} bytes");
    }
    // 9 comes before 10, and 10 before 11 and 12.
    let bound = automaton("3", "46,0,n; 46,0,1; 51,2");
    assert_eq!(answers(&bound.bytes(), &mut []), [(9, 3); 2]);
    let spoken = automaton("1", "52,1,n");
    assert_eq!(answers(&spoken.bytes(), &mut []), [(10, 0); 2]);
}

#[test]
fn the_limits_themselves_are_accepted() {
    let mut draft = automaton("", "");
    draft.variables = (0..64).map(|v| (1, v & 1)).collect();
    draft.types.resize(16, 1);
    draft.gates = 64;
    for state in 0..64u16 {
        draft.rows.push(Row::new(53, (state + 1) % 64, 0, 0));
        draft.states.push(state + 1);
    }
    while draft.rows.len() < 2048 {
        draft.rows.push(Row::new(16, draft.condition, 0, 0));
        draft.condition = draft.rows.len() as u16 - 1;
    }
    assert_eq!(draft.bytes().len(), 16_816);
    assert_eq!(masks(&draft), [0xAAAA_AAAA_AAAA_AAAA; 64]);
    let smallest = Draft { types: vec![2, 0], variables: vec![], ..automaton("1", "48") };
    assert_eq!(smallest.bytes().len(), 38);
    assert_eq!(masks(&smallest), [0]);
}

/// "G; case 0 is ... end" over a type of `values` values: one arm `to 0` for each
/// of the given constants.
fn case_of(values: u16, constants: impl Iterator<Item = u16>) -> Draft {
    let mut rows = "52,1,n; 2,2,0".to_string();
    let (mut next, mut last) = ("n".to_string(), 2);
    for constant in constants {
        rows += &format!("; 34,2,{constant}; 53,0; 58,{},{},{next}", last + 1, last + 2);
        last += 3;
        next = last.to_string();
    }
    rows += &format!("; 56,2,{next}; 54,1,{}", last + 1);
    let mut draft = automaton(&(last + 2).to_string(), &rows);
    draft.types[2] = values;
    draft
}

#[test]
fn values_covered_by_arms() {
    let params = 0b010110;
    assert_eq!(masks(&case_of(1, 0..1)), [params]);
    assert_eq!(masks(&case_of(64, 0..64)), [params]);
    assert_eq!(masks(&case_of(64, (0..64).rev())), [params]);
    assert_eq!(masks(&case_of(3, (0..64).map(|k| k % 3))), [params]);
    assert_eq!(refused(&case_of(64, 0..63).bytes()), (12, 0));
    assert_eq!(refused(&case_of(64, (0..64).map(|k| k.max(1))).bytes()), (12, 0));
    assert_eq!(refused(&case_of(65, 0..64).bytes()), (12, 0));
    assert_eq!(refused(&case_of(4096, 0..64).bytes()), (12, 0));
    assert_eq!(refused(&case_of(4096, 4032..4096).bytes()), (12, 0));
    // A 65th arm is a list too long, at the case's own row.
    assert_eq!(refused(&case_of(65, 0..65).bytes()), (5, 198));
}
