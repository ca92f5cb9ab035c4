//! Refusals 1–9, which check, start and step give alike (01, "Numbers given instead").

mod binding;
mod form;
mod frame;
mod typing;

pub use binding::Facts;

use crate::image::{Image, Row};
use crate::reading::Reading;
use std::cell::RefCell;

/// A number of 01's table and its place.
#[derive(Clone, Copy, Debug, PartialEq, Eq)]
pub struct Refusal {
    pub number: u8,
    pub place: u16,
}

impl Refusal {
    pub fn new(number: u8, place: usize) -> Refusal {
        let place = place as u16;
        Refusal { number, place }
    }

    /// The export's answer (READINGS, "Calls and exports").
    pub fn word(self) -> u64 {
        u64::from(self.number) | u64::from(self.place) << 16
    }
}

/// What else a call wants to know of the rows, told in the one pass over them.
pub trait Watch {
    fn begin(&mut self, _rows: usize) {}
    fn row(&mut self, _image: &Image, _facts: &[Facts], _r: usize, _row: Row) {}
}

/// Start and step want 1–9 alone.
impl Watch for () {}

/// Room for what is known of each row.
#[derive(Default)]
pub struct Rows {
    forms: form::Forms,
    types: typing::Types,
    bindings: binding::Bindings,
}

thread_local! {
    /// Kept from one call to the next: large lists would go back to the system.
    static ROWS: RefCell<Rows> = RefCell::default();
}

/// Runs `then` with the room for rows.
pub fn with_rows<T>(then: impl FnOnce(&mut Rows) -> T) -> T {
    ROWS.with_borrow_mut(then)
}

impl Rows {
    /// The image's tables, or the first of 1–9.
    pub fn judge<'a, R: Reading>(
        &mut self,
        bytes: &'a [u8],
        watch: &mut impl Watch,
    ) -> Result<Image<'a>, Refusal> {
        let image = frame::read(bytes)?;
        self.read::<R>(&image, watch)?;
        self.forms.judge(&image)?;
        self.types.judge()?;
        self.bindings.judge()?;
        Ok(image)
    }

    /// All that a row's children tell of it, in one pass from the lowest row on.
    fn read<R: Reading>(&mut self, image: &Image, watch: &mut impl Watch) -> Result<(), Refusal> {
        let rows = image.rows.len();
        self.forms.clear(rows);
        self.types.clear(rows);
        self.bindings.clear(rows);
        watch.begin(rows);
        for r in 0..rows {
            let row = image.row(r);
            if !self.forms.add::<R>(image, row) {
                return Err(Refusal::new(5, r));
            }
            self.types.add(image, row);
            self.bindings.add::<R>(image, row);
            watch.row(image, &self.bindings.facts, r, row);
        }
        Ok(())
    }

    /// The masks of the rows judged last.
    pub fn facts(&self) -> &[Facts] {
        &self.bindings.facts
    }

    /// The type of an expression or pattern of the rows judged last.
    pub fn type_of(&self, row: u16) -> u16 {
        self.types.of(row)
    }
}
