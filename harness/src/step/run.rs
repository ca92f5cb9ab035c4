//! The run of a state's action (report, Figure 2; 01, "The step").

use super::expression::value;
use super::values::{literal, Store};
use super::words::Words;
use crate::image::{Image, Row};
use crate::reading::Reading;
use crate::valid::{Refusal, Rows};
use std::marker::PhantomData;

/// The label's words: gate, number of values, values, zeros to the tenth.
pub type Label = [i32; 10];
/// The label before any communication.
const QUIET: Label = [-1, 0, 0, 0, 0, 0, 0, 0, 0, 0];

/// What ends an action before its end.
pub enum Stop {
    Jump(u16),
    Refused(Refusal),
}

/// An action's end without a jump is `Ok`.
pub type Course<T = ()> = Result<T, Stop>;

/// The first thing met decides: number and place.
#[cold]
pub fn refused<T>(number: u8, row: u16) -> Course<T> {
    Err(Stop::Refused(Refusal { number, place: row }))
}

/// A step under way, on copies of what is lent.
pub struct Run<'a, W, R> {
    pub image: &'a Image<'a>,
    pub judged: &'a Rows,
    pub store: Store,
    pub label: Label,
    pub words: W,
    pub read: u32,
    pub units: u32,
    pub budget: u32,
    /// The slot that the pattern tried last has overwritten, and what it held.
    pub overwritten: Option<(u16, i32)>,
    pub reading: PhantomData<R>,
}

impl<'a, W: Words, R: Reading> Run<'a, W, R> {
    pub fn new(
        image: &'a Image<'a>,
        judged: &'a Rows,
        store: Store,
        words: W,
        budget: u32,
    ) -> Run<'a, W, R> {
        let (label, overwritten, reading) = (QUIET, None, PhantomData);
        Run { image, judged, store, label, words, read: 0, units: 0, budget, overwritten, reading }
    }

    /// One micro-step that ends in a jump: the state it leads to.
    pub fn state(&mut self, state: usize) -> Result<u16, Refusal> {
        let row = self.image.action(state);
        let ended = match self.act(row) {
            Ok(()) => self.blocked(row),
            Err(stop) => Err(stop),
        };
        match ended {
            Ok(()) => unreachable!("blocked is a refusal"),
            Err(Stop::Jump(target)) => Ok(target),
            Err(Stop::Refused(refusal)) => Err(refusal),
        }
    }

    pub fn row(&self, row: u16) -> Row {
        self.image.row(usize::from(row))
    }

    pub fn spoken(&self) -> bool {
        self.label[0] != QUIET[0]
    }

    /// Blocked is 21, after a communication 26, at the row that blocks.
    #[cold]
    pub fn blocked<T>(&self, row: u16) -> Course<T> {
        refused(if self.spoken() { 26 } else { 21 }, row)
    }

    /// One unit, or 25 at the row that wants it.
    fn charge(&mut self, row: u16) -> Course {
        if self.units == self.budget {
            return refused(25, row);
        }
        self.units += 1;
        Ok(())
    }

    /// An expression's value, or 22 at the action it stands in.
    pub fn value(&self, expression: u16, row: u16) -> Course<i32> {
        match value::<R>(self.image.rows, &self.store, expression) {
            Some(value) => Ok(value),
            None => refused(22, row),
        }
    }

    /// An action row; what it ends with is a further turn, not a deeper call.
    pub fn act(&mut self, mut row: u16) -> Course {
        loop {
            // The unit comes before anything of the row.
            self.charge(row)?;
            let Row { code, a, b, .. } = self.row(row);
            match code {
                48 => return Ok(()),
                49 => return self.assign(row, a),
                50 => return self.any(row, a, b),
                51 => {
                    self.reset(a);
                    return Ok(());
                }
                52 => return self.communicate(row, a, b),
                53 => return Err(Stop::Jump(a)),
                54 => {
                    self.act(a)?;
                    row = b;
                }
                55 => row = self.select(row, a)?,
                56 => row = self.case(row, a, b)?,
                59 => return self.while_loop(row, a, b),
                _ => return self.for_loop(row, a, b),
            }
        }
    }

    fn while_loop(&mut self, row: u16, condition: u16, body: u16) -> Course {
        while self.value(condition, row)? != 0 {
            self.act(body)?;
            // One unit for each further test, before the test.
            if !R::LOOP_CHARGES_ONCE {
                self.charge(row)?;
            }
        }
        Ok(())
    }

    /// `V := lo; while V <= hi do A; V := V + 1`, its assignments free of charge.
    fn for_loop(&mut self, row: u16, range: u16, body: u16) -> Course {
        let Row { a, b, c, .. } = self.row(range);
        let slot = usize::from(a & 63);
        let high = literal(c);
        self.store[slot] = literal(b);
        // The body may not touch the variable (01, "Binding"), so it stays defined.
        while self.store[slot] <= high {
            self.act(body)?;
            self.store[slot] += 1;
            if !R::LOOP_CHARGES_ONCE {
                self.charge(row)?;
            }
        }
        if R::FOR_LEAVES_ITS_LAST_VALUE && literal(b) <= high {
            self.store[slot] = high;
        }
        Ok(())
    }
}
