//! Actions that take words, values or patterns (report, Figure 2 and B.2).

use super::run::{refused, Course, Run};
use super::values::{literal, range, UNDEFINED};
use super::words::Words;
use crate::image::{limits, Image, Row, NONE};
use crate::reading::Reading;

impl<W: Words, R: Reading> Run<'_, W, R> {
    /// The next word of the script, or 23 at the action.
    fn word(&mut self, row: u16, bounds: impl FnOnce() -> (i32, i32)) -> Course<i32> {
        match self.words.next(bounds) {
            Some(word) => {
                self.read += 1;
                Ok(word)
            }
            None => refused(23, row),
        }
    }

    /// A word of the type, judged as it is read, or 24 at the action.
    fn word_of(&mut self, kind: u16, row: u16) -> Course<i32> {
        let (low, high) = range(self.image, kind);
        let word = self.word(row, || (low, high))?;
        match (low..=high).contains(&word) {
            true => Ok(word),
            false => refused(24, row),
        }
    }

    fn put(&mut self, variable: u16, value: i32) {
        self.store[usize::from(variable & 63)] = value;
    }

    /// All values are found in the store at entry: `x, y := y, x` exchanges.
    pub fn assign(&mut self, row: u16, items: u16) -> Course {
        let mut found = [(0, 0); limits::VECTOR as usize];
        let mut count = 0;
        let mut next = items;
        while next != NONE {
            let Row { a, b, c, .. } = self.row(next);
            let value = self.value(b, row)?;
            if R::ASSIGNS_ITEM_BY_ITEM {
                self.put(a, value);
            }
            found[count] = (a, value);
            count += 1;
            next = c;
        }
        for &(variable, value) in &found[..count] {
            self.put(variable, value);
        }
        Ok(())
    }

    /// All words are read before the condition is tried.
    pub fn any(&mut self, row: u16, items: u16, condition: u16) -> Course {
        let mut next = items;
        while next != NONE {
            let Row { a, b, c, .. } = self.row(next);
            let word = self.word_of(b, row)?;
            self.put(a, word);
            next = c;
        }
        if condition != NONE && self.value(condition, row)? == 0 {
            return self.blocked(row);
        }
        Ok(())
    }

    pub fn reset(&mut self, items: u16) {
        let mut next = items;
        while next != NONE {
            let Row { a, b, .. } = self.row(next);
            self.put(a, UNDEFINED);
            next = b;
        }
    }

    /// Offers run left to right; 27 comes before any of them.
    pub fn communicate(&mut self, row: u16, gate: u16, offers: u16) -> Course {
        if self.spoken() && !R::OFFERS_BEFORE_27 {
            return refused(27, row);
        }
        let mut values = [0; limits::VECTOR as usize];
        let mut count = 0;
        let mut next = offers;
        while next != NONE {
            let Row { code, a, b, .. } = self.row(next);
            let value = match code {
                40 => self.value(a, row)?,
                _ => self.receive(row, a)?,
            };
            values[count] = value;
            count += 1;
            next = b;
        }
        if self.spoken() {
            return refused(27, row);
        }
        self.label[0] = i32::from(gate);
        self.label[1] = count as i32;
        self.label[2..].copy_from_slice(&values);
        Ok(())
    }

    /// A word of the pattern's type; not matched, the communication hasn't happened: 21.
    fn receive(&mut self, row: u16, pattern: u16) -> Course<i32> {
        let word = self.word_of(self.judged.type_of(pattern), row)?;
        match self.matches(pattern, word, row)? {
            true => Ok(word),
            false if R::UNMATCHED_IS_26 => refused(26, row),
            false => refused(21, row),
        }
    }

    /// B.2's match: a guard is tried only if its pattern matched, the inner one first.
    fn matches(&mut self, pattern: u16, value: i32, row: u16) -> Course<bool> {
        let Row { code, a, b, .. } = self.row(pattern);
        match code {
            32 => Ok(true),
            33 => {
                self.overwritten = Some((a, self.store[usize::from(a & 63)]));
                self.put(a, value);
                Ok(true)
            }
            34 => Ok(value == literal(b)),
            _ if !self.matches(a, value, row)? => Ok(false),
            // An undefined variable fails in the report; here it is 22.
            _ if R::UNDEFINED_GUARD_FAILS => Ok(self.value(b, row).is_ok_and(|truth| truth != 0)),
            _ => Ok(self.value(b, row)? != 0),
        }
    }

    /// The action of the branch that the word names.
    pub fn select(&mut self, row: u16, branches: u16) -> Course<u16> {
        if branches == NONE {
            return self.blocked(row);
        }
        let first = self.row(branches);
        if R::ONE_BRANCH_WANTS_NO_WORD && first.b == NONE {
            return Ok(first.a);
        }
        let image = self.image;
        let word = self.word(row, || (0, branch_count(image, branches) - 1))?;
        match branch(image, branches, word) {
            Some(action) => Ok(action),
            None => refused(24, row),
        }
    }

    /// The action of the first arm that matches, each tried on the store at entry.
    pub fn case(&mut self, row: u16, subject: u16, arms: u16) -> Course<u16> {
        if R::NO_ARMS_NO_SUBJECT && arms == NONE {
            return self.blocked(row);
        }
        let value = self.value(subject, row)?;
        let mut next = arms;
        while next != NONE {
            let Row { a, b, c, .. } = self.row(next);
            self.overwritten = None;
            if self.matches(a, value, row)? {
                return Ok(b);
            }
            self.restore();
            next = c;
        }
        self.blocked(row)
    }

    /// A failed match leaves the store (01, "Tempting and wrong" 1).
    fn restore(&mut self) {
        if let Some((variable, old)) = self.overwritten.take() {
            if !R::FAILED_MATCH_IS_KEPT {
                self.put(variable, old);
            }
        }
    }
}

/// The action of branch number `word`, 0 for the first, if there is one.
fn branch(image: &Image, first: u16, word: i32) -> Option<u16> {
    let mut next = first;
    let mut left = word;
    while next != NONE && left >= 0 {
        let Row { a, b, .. } = image.row(usize::from(next));
        if left == 0 {
            return Some(a);
        }
        next = b;
        left -= 1;
    }
    None
}

fn branch_count(image: &Image, first: u16) -> i32 {
    let (mut next, mut count) = (first, 0);
    while next != NONE {
        next = image.row(usize::from(next)).b;
        count += 1;
    }
    count
}
