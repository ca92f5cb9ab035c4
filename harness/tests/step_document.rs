//! The cases that 01 lists for start and step, their order, and the buffers.

mod common;

use common::{automaton, bytes, started, stepped, with_stack, words};
use harness::check::check;
use harness::image::{table_writer, Draft, Row, NONE};
use harness::step::{start, step};

const AMPLE: u32 = 1_000_000;

fn writer(state: u32, store: &str, budget: u32) -> String {
    stepped(&table_writer().bytes(), state, store, "", budget)
}

#[test]
fn table_writer_moves() {
    assert_eq!(writer(0, "_ 2", AMPLE), "to 1, 3u 0w, -1 0 / 0 2");
    assert_eq!(writer(0, "_ 2", 3), "to 1, 3u 0w, -1 0 / 0 2");
    assert_eq!(writer(0, "_ 2", 2), "25 at 4");
    assert_eq!(writer(0, "_ 2", 0), "25 at 5");
    assert_eq!(writer(1, "5 2", AMPLE), "to 1, 6u 0w, 1 2 5 2 / 6 2");
    assert_eq!(writer(1, "5 2", 6), "to 1, 6u 0w, 1 2 5 2 / 6 2");
    assert_eq!(writer(1, "5 2", 5), "25 at 19");
    assert_eq!(writer(1, "128 2", AMPLE), "to 2, 4u 0w, 2 0 / 128 2");
    assert_eq!(writer(1, "128 2", 3), "25 at 24");
    assert_eq!(writer(2, "128 2", AMPLE), "21 at 30");
    assert_eq!(writer(2, "_ _", AMPLE), "21 at 30");
    assert_eq!(writer(1, "_ 2", AMPLE), "22 at 29");
    assert_eq!(writer(1, "5 _", AMPLE), "22 at 13");
    assert_eq!(writer(1, "32767 _", AMPLE), "to 2, 4u 0w, 2 0 / 32767 _");
}

#[test]
fn table_writer_cut_blocks() {
    let mut draft = table_writer();
    draft.rows.drain(23..28);
    draft.rows[23].c = NONE;
    draft.rows[24].b = 23;
    draft.states = vec![5, 24, 25];
    let image = draft.bytes();
    assert_eq!(stepped(&image, 1, "128 2", "", AMPLE), "21 at 24");
    assert_eq!(stepped(&image, 1, "127 2", "", AMPLE), "to 1, 6u 0w, 1 2 127 2 / 128 2");
}

#[test]
fn table_writer_from_start_to_end() {
    let image = table_writer().bytes();
    let mut store = [0xEE; 8];
    assert_eq!(start(&image, &bytes(&[-9]), &mut store), 0);
    assert_eq!(store[..], bytes(&words("_ -9")));
    let (mut state, mut labels) = (0, Vec::new());
    loop {
        let mut label = [0xEE; 40];
        let answer = step(&image, state, &mut store, &[], 6, &mut label);
        if answer & 0xFF != 0 {
            assert_eq!((answer & 0xFF, answer >> 16), (21, 30), "the end");
            break;
        }
        state = (answer >> 8 & 0xFF) as u32;
        labels.push(label);
    }
    let write = |i: i32| bytes(&[1, 2, i, -9, 0, 0, 0, 0, 0, 0]);
    let first = bytes(&[-1, 0, 0, 0, 0, 0, 0, 0, 0, 0]);
    let last = bytes(&[2, 0, 0, 0, 0, 0, 0, 0, 0, 0]);
    assert_eq!((labels.len(), state), (130, 2));
    assert_eq!((&labels[0][..], &labels[129][..]), (&first[..], &last[..]));
    for (i, label) in labels[1..129].iter().enumerate() {
        assert_eq!(label[..], write(i as i32), "write {i}");
    }
    assert_eq!(store[..], bytes(&[128, -9]));
}

#[test]
fn communicate_then_an_open_case() {
    // Refused by check with 12; step runs it: 26 where the case is not exhaustive.
    let rows = "2,1,0; 44,0,1,n; 49,2; 53,1; 54,3,4; 52,1,n; 1,0; 2,1,127; 27,7,8; \
                34,0,1; 53,1; 58,10,11,n; 56,9,12; 54,6,13";
    let image = automaton("5,14", rows).bytes();
    assert_eq!(check(&image, &mut [0; 16]), 12 | 1 << 16);
    let moved = "to 1, 4u 0w, 1 0 / 127 2 1 0 4 _";
    assert_eq!(stepped(&image, 1, "127 2 1 0 4 _", "", AMPLE), moved);
    assert_eq!(stepped(&image, 1, "128 2 1 0 4 _", "", AMPLE), "26 at 13");
}

#[test]
fn dead_code_and_a_loop_that_resets() {
    let dead = automaton("5", "53,0; 1,5; 44,0,2,n; 49,3; 54,1,4").bytes();
    assert_eq!(stepped(&dead, 0, "_ 2 1 0 4 _", "", AMPLE), "to 0, 2u 0w, -1 0 / _ 2 1 0 4 _");
    let reset = automaton("4", "2,0,1; 46,1,n; 51,2; 59,1,3").bytes();
    // Odd units are the tests', even ones the body's.
    assert_eq!(stepped(&reset, 0, "1 2 1 0 4 _", "", AMPLE), "25 at 4");
    assert_eq!(stepped(&reset, 0, "1 2 1 0 4 _", "", 5), "25 at 3");
}

#[test]
fn starts() {
    let image = table_writer().bytes();
    assert_eq!(started(&image, "2", 2), "_ 2");
    assert_eq!(started(&image, "-32768", 2), "_ -32768");
    assert_eq!(started(&image, "32768", 2), "15 at 1");
    assert_eq!(started(&image, "65536", 2), "15 at 1");
    assert_eq!(started(&image, "", 2), "14 at 0");
    assert_eq!(started(&image, "1 2", 2), "14 at 0");
    assert_eq!(started(&image, "", 1), "13 at 0");
    assert_eq!(started(&image, "2", 3), "13 at 0");
    assert_eq!(started(&image[..281], "2", 2), "2 at 0");
    assert_eq!(started(&image[..37], "2", 2), "1 at 0");
}

#[test]
fn starts_with_a_condition() {
    // The condition is p <= r; parameters in variable order are p, b, r.
    let mut draft = automaton("5", "1,1; 1,4; 27,1,2; 48; 59,0,4");
    draft.condition = 3;
    let image = draft.bytes();
    assert_eq!(started(&image, "2 1 2", 6), "_ 2 1 _ 2 _");
    assert_eq!(started(&image, "3 1 2", 6), "16 at 0");
    assert_eq!(started(&image, "3 2 2", 6), "15 at 2");
    assert_eq!(started(&image, "3 -1 40000", 6), "15 at 2");
    assert_eq!(started(&image, "40000 2 0", 6), "15 at 1");
    assert_eq!(started(&image, "3 1 40000", 6), "15 at 4");
    assert_eq!(started(&image, "3 2", 6), "14 at 0");
    assert_eq!(started(&image, "3 2", 5), "13 at 0");
    draft.rows[3].code = 17;
    assert_eq!(started(&draft.bytes(), "3 2", 5), "8 at 3");
}

/// Everything wrong with a step, put right in the order of 01.
#[test]
fn the_order_of_refusals() {
    let image = table_writer().bytes();
    let call = |image: &[u8], state: u32, store: &[i32], label: usize, budget: u32| {
        let (mut store, mut label) = (bytes(store), vec![7; label]);
        let answer = step(image, state, &mut store, &[], budget, &mut label);
        (answer & 0xFF, answer >> 16)
    };
    let mut wrong = table_writer();
    wrong.rows[2].a = 1;
    wrong.rows[3] = Row::new(49, 2, 0, 1);
    assert_eq!(call(&wrong.bytes(), 3, &[40000], 39, AMPLE + 1), (5, 3));
    assert_eq!(call(&image, 3, &[40000], 39, AMPLE + 1), (17, 0));
    assert_eq!(call(&image, 65_536, &[40000], 39, AMPLE + 1), (17, 0));
    assert_eq!(call(&image, u32::MAX, &[40000], 39, AMPLE + 1), (17, 0));
    assert_eq!(call(&image, 2, &[40000], 39, AMPLE + 1), (13, 0));
    assert_eq!(call(&image, 2, &[40000, -40000], 39, AMPLE + 1), (18, 0));
    assert_eq!(call(&image, 2, &[65536, 65537], 39, AMPLE + 1), (18, 1));
    assert_eq!(call(&image, 2, &[65536, 1], 39, AMPLE + 1), (19, 0));
    assert_eq!(call(&image, 2, &[65536, 1], 40, AMPLE + 1), (20, 0));
    assert_eq!(call(&image, 2, &[65536, 1], 40, u32::MAX), (20, 0));
    assert_eq!(call(&image, 2, &[65536, 1], 40, AMPLE), (21, 30));
}

#[test]
fn slots_of_other_types() {
    let image = automaton("1", "53,0").bytes();
    let cases = [
        ("1 2 2 0 4 _", "18 at 2"),
        ("1 2 -1 0 4 _", "18 at 2"),
        ("1 2 1 3 4 _", "18 at 3"),
        ("1 2 1 -1 4 _", "18 at 3"),
        ("-32769 2 1 3 4 _", "18 at 0"),
        ("32768 2 1 0 4 _", "18 at 0"),
        ("1 2 1 2 4 65537", "18 at 5"),
        ("_ _ _ _ _ _", "to 0, 1u 0w, -1 0 / _ _ _ _ _ _"),
        ("-32768 32767 0 2 0 -1", "to 0, 1u 0w, -1 0 / -32768 32767 0 2 0 -1"),
        ("1 2 1 0 4", "13 at 0"),
        ("1 2 1 0 4 5 6", "13 at 0"),
    ];
    for (store, expected) in cases {
        assert_eq!(stepped(&image, 0, store, "", AMPLE), expected, "{store}");
    }
}

#[test]
fn the_last_of_64_states() {
    let mut draft = automaton("", "");
    for state in 0..64u16 {
        draft.rows.push(Row::new(53, 63 - state, 0, 0));
        draft.states.push(state + 1);
    }
    let image = draft.bytes();
    let moved = |to: u32| format!("to {to}, 1u 0w, -1 0 / _ _ _ _ _ _");
    assert_eq!(stepped(&image, 0, "_ _ _ _ _ _", "", AMPLE), moved(63));
    assert_eq!(stepped(&image, 63, "_ _ _ _ _ _", "", AMPLE), moved(0));
    assert_eq!(stepped(&image, 64, "_ _ _ _ _ _", "", AMPLE), "17 at 0");
}

/// A nest of `levels` around "to 0": rows that one level adds, given what it holds.
fn nest(levels: u16, level: fn(&mut Draft, u16) -> u16) -> Vec<u8> {
    let mut draft = automaton("", "53,0");
    let wrapped = (0..levels).fold(1, |inside, _| level(&mut draft, inside));
    draft.states.push(wrapped);
    draft.bytes()
}

fn push(draft: &mut Draft, code: u16, a: u16, b: u16, c: u16) -> u16 {
    draft.rows.push(Row::new(code, a, b, c));
    draft.rows.len() as u16 - 1
}

#[test]
fn the_deepest_nests() {
    with_stack(|| {
        let before = nest(1023, |draft, a| {
            let null = push(draft, 48, 0, 0, 0);
            push(draft, 54, null, a, 0)
        });
        let after = nest(1023, |draft, a| {
            let null = push(draft, 48, 0, 0, 0);
            push(draft, 54, a, null, 0)
        });
        let select = nest(1023, |draft, a| {
            let branch = push(draft, 57, a, NONE, 0);
            push(draft, 55, branch, 0, 0)
        });
        let whiles = nest(1023, |draft, a| {
            let truth = push(draft, 2, 0, 1, 0);
            push(draft, 59, truth, a, 0)
        });
        let s = "_ _ _ _ _ _";
        let moved = |units: u32, words: u32| format!("to 0, {units}u {words}w, -1 0 / {s}");
        assert_eq!(stepped(&before, 0, s, "", AMPLE), moved(2047, 0));
        assert_eq!(stepped(&after, 0, s, "", AMPLE), moved(1024, 0));
        assert_eq!(stepped(&select, 0, s, &"0 ".repeat(1023), AMPLE), moved(1024, 1023));
        // The innermost select is row 3, each further one two rows up: one lacks a word.
        assert_eq!(stepped(&select, 0, s, &"0 ".repeat(1022), AMPLE), "23 at 3");
        assert_eq!(stepped(&whiles, 0, s, "", AMPLE), moved(1024, 0));
        assert_eq!(stepped(&whiles, 0, s, "", 1023), "25 at 1");
    });
}

#[test]
fn the_deepest_expressions() {
    with_stack(|| {
        let mut draft = automaton("1", "53,0");
        while draft.rows.len() < 2048 {
            let inside = draft.condition;
            draft.condition = push(&mut draft, 16, inside, 0, 0);
        }
        // Row 0 is true, and 2,046 nots leave it so.
        assert_eq!(started(&draft.bytes(), "2 1 4", 6), "_ 2 1 _ 4 _");
        draft.rows.pop();
        draft.condition -= 1;
        assert_eq!(started(&draft.bytes(), "2 1 4", 6), "16 at 0");
    });
}
