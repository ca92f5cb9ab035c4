//! Expressions, patterns and offers of the types and variables asked for.

use super::maker::Maker;
use super::plan::{Lean, Slip};
use crate::image::{limits, Row};

impl Maker {
    /// An expression of about `budget` rows that reads only `set`.
    pub fn expression(&mut self, kind: u16, budget: usize, set: u64) -> u16 {
        let wrong = self.slip(Slip::ExpressionType);
        let kind = if wrong { self.other_type(kind) } else { kind };
        match kind {
            0 if budget > 1 => self.truth(budget, set),
            1 if budget > 1 => self.integer(budget, set),
            _ => self.leaf_expression(kind, set),
        }
    }

    /// A size for an expression inside an action.
    pub fn small(&mut self) -> usize {
        match self.plan.lean {
            Lean::Expressions => self.random.within(8, 40),
            _ if self.random.one_in(8) => self.random.within(3, 12),
            _ => self.random.within(1, 3),
        }
    }

    fn truth(&mut self, budget: usize, set: u64) -> u16 {
        match self.random.below(6) {
            0 => self.unary(16, 0, budget, set),
            1 => self.binary(17, 0, budget, set),
            2 => self.binary(18, 0, budget, set),
            3 => {
                let kind = self.any_type();
                self.binary(25, kind, budget, set)
            }
            4 => self.binary(26, 1, budget, set),
            _ => self.binary(27, 1, budget, set),
        }
    }

    fn integer(&mut self, budget: usize, set: u64) -> u16 {
        match self.random.within(19, 24) as u16 {
            19 => self.unary(19, 1, budget, set),
            code => self.binary(code, 1, budget, set),
        }
    }

    fn unary(&mut self, code: u16, kind: u16, budget: usize, set: u64) -> u16 {
        let a = self.expression(kind, budget - 1, set);
        self.push(code, a, 0, 0)
    }

    fn binary(&mut self, code: u16, kind: u16, budget: usize, set: u64) -> u16 {
        let left = self.random.below(budget);
        let a = self.expression(kind, left, set);
        let b = self.expression(kind, (budget - 1).saturating_sub(left), set);
        self.push(code, a, b, 0)
    }

    fn leaf_expression(&mut self, kind: u16, set: u64) -> u16 {
        let mine = self.of_type[usize::from(kind)];
        let unset = mine & !set;
        let from = match unset != 0 && self.slip(Slip::UnsetRead) {
            true => unset,
            false if self.random.one_in(3) => 0,
            false => mine & set,
        };
        match self.random.bit(from) {
            Some(v) => {
                self.used |= 1 << v;
                self.push(1, v, 0, 0)
            }
            None => {
                let value = self.value(kind);
                self.push(2, kind, value, 0)
            }
        }
    }

    /// A value of the type.
    pub fn value(&mut self, kind: u16) -> u16 {
        let values = self.draft.types[usize::from(kind)];
        if kind == 1 {
            let edge = self.random.pick(&[0, 1, 0x7FFF, 0x8000, 0xFFFF]);
            return if self.random.one_in(2) { edge } else { self.random.below(200) as u16 };
        }
        match self.slip(Slip::ConstantOutside) {
            true => self.random.pick(&[values, values + 1, 0xFFFF]),
            false => self.random.below(values.into()) as u16,
        }
    }

    /// A pattern that reads only `set` and defines only `free`; and what it defines.
    pub fn pattern(&mut self, kind: u16, set: u64, free: u64) -> (u16, u64) {
        let (mut row, defined) = match self.random.below(3) {
            0 => {
                let value = self.value(kind);
                (self.push(34, kind, value, 0), 0)
            }
            _ => self.open_pattern(kind, free),
        };
        while self.random.one_in(4) {
            row = self.guard(row, set | defined);
        }
        (row, defined)
    }

    /// An any or a variable, which matches every value.
    pub fn open_pattern(&mut self, kind: u16, free: u64) -> (u16, u64) {
        let mine = free & self.of_type[usize::from(kind)];
        match self.random.bit(mine) {
            Some(v) if !self.random.one_in(3) => (self.push(33, v, 0, 0), 1 << v),
            _ => (self.push(32, kind, 0, 0), 0),
        }
    }

    pub fn guard(&mut self, pattern: u16, set: u64) -> u16 {
        let kind = u16::from(self.slip(Slip::GuardType));
        let size = self.random.within(1, 4);
        let condition = self.expression(kind, size, set);
        self.push(35, pattern, condition, 0)
    }

    /// A communication; and what it defines.
    pub fn communication(&mut self, set: u64) -> (u16, u64) {
        let mut gate = self.random.below(self.plan.gates) as u16;
        let mut count = match self.random.below(16) {
            0 => usize::from(limits::VECTOR),
            _ => self.random.below(4),
        };
        if self.slip(Slip::LongVector) {
            count = usize::from(limits::VECTOR) + 1;
        }
        if gate == 0 {
            count = 0;
        }
        if self.slip(Slip::TauOffers) {
            (gate, count) = (0, 1);
        }
        let (first, defined) = self.offers(count, set);
        (self.push(52, gate, first, 0), defined)
    }

    /// Offers that run left to right: a later one defines nothing an earlier one has.
    fn offers(&mut self, count: usize, set: u64) -> (u16, u64) {
        let base = self.lists.len();
        let mut defined = 0;
        self.used = 0;
        for _ in 0..count {
            let offer = match self.random.one_in(2) {
                true => {
                    let kind = self.any_type();
                    [40, self.expression(kind, 2, set | defined), 0]
                }
                false => {
                    let (kind, free) = self.receivable(defined);
                    let (row, more) = self.pattern(kind, set | defined, free);
                    defined |= more;
                    [41, row, 0]
                }
            };
            self.lists.push(offer);
        }
        (self.link(base, |[code, row, _], next| Row::new(code, row, next, 0)), defined)
    }

    /// A type to receive, and the variables that may take it here.
    fn receivable(&mut self, defined: u64) -> (u16, u64) {
        let backward = self.used != 0 && self.slip(Slip::OfferBackward);
        let twice = defined != 0 && self.slip(Slip::OfferTwice);
        let wrong = if backward { self.used } else { defined };
        match self.random.bit(wrong) {
            Some(v) if backward || twice => (self.draft.variables[usize::from(v)].0, 1 << v),
            _ => (self.any_type(), self.all & !self.used & !defined & !self.fors),
        }
    }
}
