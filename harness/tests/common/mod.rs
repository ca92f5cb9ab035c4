//! Images written by hand: rows as 01 writes them, `n` for none, zeros left out.

#![allow(dead_code, reason = "each test binary uses some of it")]

use harness::image::{numbers, rows, Draft};

/// Types bool, int and one of 3 values. Variables 0 i int, 1 p int parameter,
/// 2 b bool parameter, 3 e of type 2, 4 r int parameter, 5 j int. Three gates.
/// Row 0 is the condition, the constant true; the rows given begin at 1.
pub fn automaton(states: &str, others: &str) -> Draft {
    Draft {
        types: vec![2, 0, 3],
        variables: vec![(1, 0), (1, 1), (0, 1), (2, 0), (1, 1), (1, 0)],
        states: numbers(states),
        rows: rows(&format!("2,0,1;{others}")),
        gates: 3,
        condition: 0,
    }
}

/// The answer's number and place, by the Rust check and then by the library.
pub fn answers(image: &[u8], sets: &mut [u8]) -> [(u64, u64); 2] {
    let split = |answer: u64| (answer & 0xFF, answer >> 16);
    let mut copy = sets.to_vec();
    let rust = harness::check::check(image, sets);
    let library = harness::library::check(image, &mut copy);
    assert_eq!(sets, copy, "both leave the same sets");
    [split(rust), split(library)]
}

/// Words between blanks, `_` for undefined.
pub fn words(text: &str) -> Vec<i32> {
    let word = |word: &str| if word == "_" { 65_536 } else { word.parse().expect("a number") };
    text.split_whitespace().map(word).collect()
}

pub fn bytes(words: &[i32]) -> Vec<u8> {
    words.iter().flat_map(|word| word.to_le_bytes()).collect()
}

fn text(bytes: &[u8]) -> String {
    let word = |word: &[u8; 4]| match i32::from_le_bytes(*word) {
        65_536 => "_".to_string(),
        number => number.to_string(),
    };
    bytes.as_chunks().0.iter().map(word).collect::<Vec<_>>().join(" ")
}

/// The Rust step's answer in words: `21 at 30`, or what moved, label / store.
pub fn stepped(image: &[u8], state: u32, store: &str, script: &str, budget: u32) -> String {
    let old = [bytes(&words(store)), vec![0xA5; 3]].concat();
    let script = [bytes(&words(script)), vec![0; 2]].concat();
    let (mut store, mut label) = (old.clone(), [0x5A; 51]);
    let answer = harness::step::step(image, state, &mut store, &script, budget, &mut label);
    same_step((image, state, &old, &script, budget), (answer, &store, &label));
    if answer & 0xFF != 0 {
        assert!(store == old && label == [0x5A; 51], "a refusal changes nothing");
        return format!("{} at {}", answer & 0xFF, answer >> 16);
    }
    let (slots, part) = store.split_at(store.len() - 3);
    assert!(part == [0xA5; 3] && label[40..] == [0x5A; 11], "part and later words stay");
    let used = 8 + 4 * usize::from(label[4]);
    assert!(label[used..40].iter().all(|&byte| byte == 0), "zeros to the tenth");
    let (next, units, read) = (answer >> 8 & 0xFF, answer >> 16 & 0xFF_FFFF, answer >> 40);
    format!("to {next}, {units}u {read}w, {} / {}", text(&label[..used]), text(slots))
}

/// A step's input, and what the Rust step gave and left.
type Input<'a> = (&'a [u8], u32, &'a [u8], &'a [u8], u32);
type Outcome<'a> = (u64, &'a [u8], &'a [u8]);

/// With the feature `step` the library says and leaves the same.
#[cfg(feature = "step")]
fn same_step((image, state, store, script, budget): Input, rust: Outcome) {
    let (mut store, mut label) = (store.to_vec(), [0x5A; 51]);
    let step = harness::library::step;
    let answer = step(image, state, &mut store, script, budget, &mut label);
    assert_eq!((answer, &store[..], &label[..]), rust, "the library, then Rust");
}

#[cfg(not(feature = "step"))]
fn same_step(_: Input, _: Outcome) {}

#[cfg(feature = "step")]
fn same_start(image: &[u8], params: &[u8], old: &[u8], rust: (u64, &[u8])) {
    let mut store = old.to_vec();
    let answer = harness::library::start(image, params, &mut store);
    assert_eq!((answer, &store[..]), rust, "the library, then Rust");
}

#[cfg(not(feature = "step"))]
fn same_start(_: &[u8], _: &[u8], _: &[u8], _: (u64, &[u8])) {}

/// The Rust start's answer: number and place, or the store.
pub fn started(image: &[u8], params: &str, slots: usize) -> String {
    let params = [bytes(&words(params)), vec![0; 3]].concat();
    let old = vec![0xA5; 4 * slots + 2];
    let mut store = old.clone();
    let answer = harness::step::start(image, &params, &mut store);
    same_start(image, &params, &old, (answer, &store));
    if answer != 0 {
        assert!(store == old, "a refusal changes nothing");
        return format!("{} at {}", answer & 0xFF, answer >> 16);
    }
    assert_eq!(store[4 * slots..], [0xA5; 2], "a part word stays");
    text(&store)
}

/// Runs in a thread whose stack holds the deepest images' recursion, unoptimised too.
pub fn with_stack(run: impl FnOnce() + Send + 'static) {
    let thread = std::thread::Builder::new().stack_size(256 << 20).spawn(run);
    thread.expect("a thread").join().expect("the run passes");
}
