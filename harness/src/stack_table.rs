//! The stack that each call needs on the deepest images, as a table in markdown.

use crate::calls::{Calls, Start, Step, LIBRARY, RUST};
use crate::check;
use crate::library;
use crate::nests::{all, Nest};
use crate::stack::{depth_of, GAP};

const AMPLE: u32 = 1_000_000;
/// What a call of the library may take at most.
pub const LIMIT: usize = 256 << 10;

/// One call on a nest; it asserts that the call runs through.
type Call = Box<dyn Fn(&Nest) + Sync>;

/// A call's name, the library's where it is linked, and the Rust one.
struct Pair {
    name: &'static str,
    library: Option<Call>,
    rust: Call,
}

fn checks(nest: &Nest, call: fn(&[u8], &mut [u8]) -> u64) {
    assert_eq!(call(&nest.image, &mut vec![0; 512]), 0, "{} is accepted", nest.name);
}

fn starts(nest: &Nest, call: Start) {
    assert_eq!(call(&nest.image, &[], &mut vec![0; 256]), 0, "{} starts", nest.name);
}

fn steps(nest: &Nest, call: Step) {
    let (mut store, mut label) = (vec![0; 256], vec![0; 40]);
    let answer = call(&nest.image, 0, &mut store, &nest.script, AMPLE, &mut label);
    assert_eq!(answer & 0xFF, 0, "{} moves", nest.name);
}

fn pairs() -> [Pair; 3] {
    let start = |calls: Calls| boxed(move |nest| starts(nest, calls.start));
    let step = |calls: Calls| boxed(move |nest| steps(nest, calls.step));
    let check = |call| boxed(move |nest| checks(nest, call));
    let checked = Some(check(library::check));
    [
        Pair { name: "check", library: checked, rust: check(check::check) },
        Pair { name: "start", library: LIBRARY.map(start), rust: start(RUST) },
        Pair { name: "step", library: LIBRARY.map(step), rust: step(RUST) },
    ]
}

fn boxed(call: impl Fn(&Nest) + Sync + 'static) -> Call {
    Box::new(call)
}

/// Bytes in a cell of the table.
fn cell(bytes: Option<usize>) -> String {
    match bytes {
        None => "-".to_string(),
        Some(0) => format!("under {GAP}"),
        Some(bytes) => bytes.to_string(),
    }
}

/// Measures every call on every nest and prints the table: is the library within its limit?
pub fn run() -> bool {
    println!("| call | image | rows | depth | library bytes | Rust bytes |");
    println!("|---|---|---:|---:|---:|---:|");
    let nests = all();
    let mut within = true;
    for Pair { name, library, rust } in pairs() {
        let mut most = [None; 2];
        for nest in &nests {
            let found = [library.as_ref(), Some(&rust)];
            let found = found.map(|call| call.map(|call| depth_of(|| call(nest))));
            let Nest { name: image, rows, depth, .. } = nest;
            let [first, second] = found.map(cell);
            println!("| {name} | {image} | {rows} | {depth} | {first} | {second} |");
            most = [most[0].max(found[0]), most[1].max(found[1])];
        }
        let library_most = most[0];
        let [first, second] = most.map(cell);
        println!("| {name} | the most | | | {first} | {second} |");
        within &= library_most <= Some(LIMIT);
    }
    within
}
