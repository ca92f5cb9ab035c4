//! Refusal 12: speech (report, Figures 9 and 10; 01, "Speech").

use super::{first_state, Reading};
use crate::image::{Image, Row, NONE};
use crate::valid::Refusal;

/// What an action does, entered quiet and entered spoken.
#[derive(Clone, Copy, Default)]
struct Voice {
    quiet: Course,
    spoken: Course,
}

/// How an action can end, and whether something in it is wrong: one bit each.
#[derive(Clone, Copy, Default)]
struct Course(u8);

const NOWHERE: Course = Course(0);
const QUIET: Course = Course(1);
const SPOKEN: Course = Course(2);
const WRONG: Course = Course(4);

impl Course {
    fn or(self, other: Course) -> Course {
        Course(self.0 | other.0)
    }

    fn has(self, other: Course) -> bool {
        self.0 & other.0 != 0
    }

    fn only_if(self, entered: bool) -> Course {
        Course(self.0 * u8::from(entered))
    }

    /// Only what can be entered is judged.
    fn then(self, later: Voice) -> Course {
        let quiet = later.quiet.only_if(self.has(QUIET));
        let spoken = later.spoken.only_if(self.has(SPOKEN));
        Course(self.0 & WRONG.0).or(quiet).or(spoken)
    }

    fn wrong_if(self, wrong: bool) -> Course {
        self.or(WRONG.only_if(wrong))
    }
}

impl Voice {
    const PLAIN: Voice = Voice { quiet: QUIET, spoken: SPOKEN };
    const NOWHERE: Voice = Voice { quiet: NOWHERE, spoken: NOWHERE };

    fn or(self, other: Voice) -> Voice {
        let quiet = self.quiet.or(other.quiet);
        let spoken = self.spoken.or(other.spoken);
        Voice { quiet, spoken }
    }

    fn wrong_spoken_if(self, wrong: bool) -> Voice {
        Voice { spoken: self.spoken.wrong_if(wrong), ..self }
    }
}

/// What the actions, branches and arms so far do; other rows' entries are unused.
#[derive(Default)]
pub struct Voices(Vec<Voice>);

impl Voices {
    pub fn make_room(&mut self, rows: usize) {
        self.0.resize(rows.max(self.0.len()), Voice::PLAIN);
    }

    pub fn put<R: Reading>(&mut self, image: &Image, r: usize, row: Row) {
        self.0[r] = voice_of::<R>(image, &self.0, row);
    }

    /// The lowest state whose action breaks a rule of speech, reached or not.
    pub fn judge<R: Reading>(&self, image: &Image) -> Result<(), Refusal> {
        first_state::<R>(image, 12, |state| {
            let action = self.0[usize::from(image.action(state))].quiet;
            action.has(WRONG.or(SPOKEN))
        })
    }
}

fn voice_of<R: Reading>(image: &Image, voices: &[Voice], row: Row) -> Voice {
    let Row { code, a, b, c } = row;
    let at = |row: u16| match row {
        NONE => Voice::NOWHERE,
        _ => voices[usize::from(row)],
    };
    match code {
        50 => Voice::PLAIN.wrong_spoken_if(b != NONE && !is_true(image, b)),
        52 if R::TAU_IS_QUIET && a == 0 => Voice::PLAIN,
        52 => Voice { quiet: SPOKEN, spoken: WRONG },
        53 => Voice::NOWHERE,
        54 => Voice { quiet: at(a).quiet.then(at(b)), spoken: at(a).spoken.then(at(b)) },
        55 => at(a).wrong_spoken_if(a == NONE),
        56 => at(b).wrong_spoken_if(!is_exhaustive::<R>(image, b)),
        57 => at(a).or(at(b)),
        58 => at(b).or(at(c)),
        59 => Voice { quiet: repeated(at(b)), spoken: WRONG },
        60 => {
            let body = at(b).spoken;
            let after = if R::FOR_ENDS_QUIET { QUIET } else { SPOKEN };
            Voice { quiet: repeated(at(b)), spoken: after.wrong_if(body.has(WRONG)) }
        }
        _ => Voice::PLAIN,
    }
}

/// A loop entered quiet: its body may not end spoken, and after it one is quiet.
fn repeated(body: Voice) -> Course {
    QUIET.wrong_if(body.quiet.has(WRONG.or(SPOKEN)))
}

/// The constant true is the row 2,0,1 (READINGS, "Speech").
fn is_true(image: &Image, row: u16) -> bool {
    image.row(usize::from(row)) == Row::new(2, 0, 1, 0)
}

/// An unguarded any or variable, or each value of a non-int type by itself.
fn is_exhaustive<R: Reading>(image: &Image, arms: u16) -> bool {
    let mut seen = 0u64;
    let mut next = arms;
    while next != NONE {
        let arm = image.row(usize::from(next));
        let mut pattern = image.row(usize::from(arm.a));
        while R::GUARDED_ARM_COVERS && pattern.code == 35 {
            pattern = image.row(usize::from(pattern.a));
        }
        match pattern.code {
            32 | 33 => return true,
            // At most 64 arms: a type of more values is never covered by them.
            34 if pattern.a != 1 && pattern.b < 64 => {
                seen |= 1 << pattern.b;
                let values = image.values(pattern.a);
                if values <= 64 && seen == u64::MAX >> (64 - values) {
                    return true;
                }
            }
            _ => {}
        }
        next = arm.c;
    }
    false
}
