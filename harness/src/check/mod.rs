//! `check` of 01, written from the documents: linear passes over the rows.

mod initialisation;
mod speech;

pub use crate::reading::{Document01, Reading};

use crate::image::{Image, Row};
use crate::valid::{with_rows, Facts, Refusal, Rows, Watch};
use std::cell::RefCell;
use std::marker::PhantomData;

/// The masks of an accepted image; only the first `states` of them count.
pub struct Sets {
    pub masks: [u64; 64],
    pub states: usize,
}

/// The lowest code of an action; none but branches and arms lie between actions.
const FIRST_ACTION: u16 = 48;

/// Room for what only check asks.
#[derive(Default)]
struct Room {
    ends: initialisation::Ends,
    voices: speech::Voices,
    walk: initialisation::Walk,
}

thread_local! {
    /// Kept from one check to the next: large lists would go back to the system.
    static ROOM: RefCell<Room> = RefCell::default();
}

/// 01's check with the export's meaning: 0, or number and place of a refusal.
pub fn check(image: &[u8], sets: &mut [u8]) -> u64 {
    check_by::<Document01>(image, sets)
}

/// `check` under a reading of the rules.
pub fn check_by<R: Reading>(image: &[u8], sets: &mut [u8]) -> u64 {
    let entries = sets.as_chunks_mut::<8>().0;
    let judge =
        |rows: &mut Rows| ROOM.with_borrow_mut(|room| room.judge::<R>(rows, image, entries.len()));
    match with_rows(judge) {
        Err(refusal) => refusal.word(),
        Ok(found) => {
            for (entry, mask) in entries.iter_mut().zip(&found.masks[..found.states]) {
                *entry = mask.to_le_bytes();
            }
            0
        }
    }
}

impl Room {
    /// The numbers in the order of 01, "Check: 1–12".
    fn judge<R: Reading>(
        &mut self,
        rows: &mut Rows,
        bytes: &[u8],
        entries: usize,
    ) -> Result<Sets, Refusal> {
        let reading = PhantomData::<R>;
        let mut last = Last { ends: &mut self.ends, voices: &mut self.voices, reading };
        let image = rows.judge::<R>(bytes, &mut last)?;
        if entries < image.states.len() {
            return Err(Refusal::new(10, 0));
        }
        let speech = self.voices.judge::<R>(&image);
        if R::SPEECH_BEFORE_INITIALISATION {
            speech?;
        }
        let sets = self.walk.judge::<R>(&image, rows.facts(), &self.ends)?;
        speech.map(|()| sets)
    }
}

/// How actions, branches and arms end: the other rows don't.
struct Last<'a, R> {
    ends: &'a mut initialisation::Ends,
    voices: &'a mut speech::Voices,
    reading: PhantomData<R>,
}

impl<R: Reading> Watch for Last<'_, R> {
    fn begin(&mut self, rows: usize) {
        self.ends.make_room(rows);
        self.voices.make_room(rows);
    }

    fn row(&mut self, image: &Image, facts: &[Facts], r: usize, row: Row) {
        if row.code >= FIRST_ACTION {
            self.ends.put::<R>(image, facts, r, row);
            self.voices.put::<R>(image, r, row);
        }
    }
}

/// The first failing state as a refusal, if any state fails.
fn first_state<R: Reading>(
    image: &Image,
    number: u8,
    fails: impl Fn(usize) -> bool,
) -> Result<(), Refusal> {
    let mut states = 0..image.states.len();
    let found =
        if R::HIGHEST_STATE { states.rfind(|&s| fails(s)) } else { states.find(|&s| fails(s)) };
    found.map_or(Ok(()), |state| Err(Refusal::new(number, state)))
}
