//! The deepest images, run through by all calls, and the measure of the stack itself.

mod common;

use common::with_stack;
use harness::calls::{LIBRARY, RUST};
use harness::nests::all;
use harness::stack::{depth_of, GAP};
use harness::{check, library};
use std::hint::black_box;

#[test]
fn every_nest_is_accepted_and_moves() {
    with_stack(|| {
        // Units by hand: one for each action row that is entered.
        let units = [1, 2, 3, 3, 2, 3, 1024, 2047, 1024, 512, 1024, 1024, 16, 11];
        let nests = all();
        assert_eq!(nests.len(), units.len());
        for (nest, units) in nests.iter().zip(units) {
            let name = nest.name;
            assert_eq!(check::check(&nest.image, &mut [0; 8]), 0, "{name}");
            assert_eq!(library::check(&nest.image, &mut [0; 8]), 0, "{name} by the library");
            for side in [RUST, LIBRARY.unwrap_or(RUST)] {
                let mut store = [0; 256];
                assert_eq!((side.start)(&nest.image, &[], &mut store), 0, "{name} starts");
                let label = &mut [0; 40];
                let answer = (side.step)(&nest.image, 0, &mut store, &nest.script, units, label);
                let words = (nest.script.len() / 4) as u64;
                assert_eq!(answer, u64::from(units) << 16 | words << 40, "{name} moves");
            }
        }
    });
}

/// A kibibyte of stack for each level.
#[inline(never)]
fn deep(levels: usize) -> u8 {
    let room = black_box([levels as u8; 1024]);
    match levels {
        0 => room[0],
        _ => deep(levels - 1).wrapping_add(black_box(&room)[levels % 1024]),
    }
}

#[test]
fn the_stack_of_a_known_recursion() {
    let found =
        [100, 200, 400].map(|levels| depth_of(|| drop(black_box(deep(levels)).to_string())));
    for (bytes, levels) in found.into_iter().zip([100, 200, 400]) {
        assert!(bytes > levels << 10, "{levels} levels took {bytes} bytes");
        assert!(bytes < (levels << 12) + GAP + 8192, "{levels} levels took {bytes} bytes");
    }
    // Twice as many levels more are twice as many bytes more, but for what is on top.
    let [first, second, third] = found;
    assert_eq!((third - second) / 1024, 2 * (second - first) / 1024);
    assert_eq!(depth_of(|| ()), 0, "nothing is nothing");
}
