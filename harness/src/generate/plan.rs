//! What an automaton to be made looks like, and where it slips.

use crate::image::limits;
use crate::random::Random;

/// Which rows an automaton has more of.
#[derive(Clone, Copy, Debug, PartialEq, Eq)]
pub enum Lean {
    Even,
    Sequences,
    Jumps,
    Expressions,
}

macro_rules! slips {
    ($($name:ident),*) => {
        /// A rule of 01 that is broken on purpose, once or a few times.
        #[derive(Clone, Copy, Debug, PartialEq, Eq)]
        pub enum Slip { $($name),* }

        impl Slip {
            pub const ALL: &[Slip] = &[$(Slip::$name),*];
        }
    };
}

slips! {
    LongVector, LongBranches, UpperLiteral, ConstantOutside, ExpressionType, GuardType,
    ItemType, ArmType, RangeType, TauOffers, ItemTwice, OfferTwice, OfferBackward,
    ForTouched, ConditionVariable, UnsetRead, LoopReset, JumpUnset, ReadAfterReset,
    SpokenCommunicates, SpokenSelect, SpokenCase, SpokenGuard, SpokenAny, SpokenWhile,
    SpokenEnd, LoopEndsSpoken
}

impl Slip {
    /// Where the slips of initialisation and speech begin.
    const LATE: usize = 15;

    /// One slip or two; those that are judged last are met least, so more of them.
    pub fn random(random: &mut Random) -> [Option<Slip>; 2] {
        let mut one = || match random.one_in(2) {
            true => random.pick(Slip::ALL),
            false => random.pick(&Slip::ALL[Slip::LATE..]),
        };
        let (first, second) = (one(), one());
        [Some(first), random.one_in(2).then_some(second)]
    }
}

/// Sizes of the tables, the rows aimed at, and the slips if there are some.
#[derive(Clone, Copy, Debug)]
pub struct Plan {
    pub rows: usize,
    pub types: usize,
    pub variables: usize,
    pub states: usize,
    pub gates: usize,
    pub lean: Lean,
    pub slips: [Option<Slip>; 2],
}

impl Plan {
    /// Mostly small tables, and now and then each limit.
    pub fn random(random: &mut Random) -> Plan {
        let rows = match random.below(1000) {
            0..=699 => random.within(4, 50),
            700..=949 => random.within(50, 150),
            950..=996 => random.within(150, 400),
            _ => random.within(400, 1900),
        };
        let mut few = |low: usize, usual: usize, limit: usize| match random.below(20) {
            0 => limit,
            1 => random.within(low, limit),
            _ => random.within(low, usual),
        };
        let states = few(1, 5, *limits::STATES.end()).min(rows / 4 + 1);
        Plan {
            rows,
            types: few(2, 4, *limits::TYPES.end()),
            variables: few(0, 8, *limits::VARIABLES.end()),
            states,
            gates: few(1, 4, *limits::GATES.end()),
            lean: Lean::Even,
            slips: [None; 2],
        }
    }
}
