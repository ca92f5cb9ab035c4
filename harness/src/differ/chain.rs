//! Chains: start, then steps of an accepted image, with what its acceptance promises.

use super::buffers::Buffers;
use super::report::split;
use super::table::{count, RunTally};
use crate::calls::Calls;
use crate::image::Image;
use crate::random::Random;
use crate::step::UNDEFINED;

/// Moves of one chain at most.
const MOVES: u64 = 50;
/// Scripts tried where a state doesn't move.
const TRIES: usize = 4;
/// Answers that an accepted image, started, never gives (01, "Initialisation", "Speech").
const NEVER: [u64; 6] = [22, 26, 27, 17, 13, 18];

/// An accepted image with the masks that check listed.
pub struct Accepted<'a> {
    pub bytes: &'a [u8],
    pub image: Image<'a>,
    pub sets: &'a [u8],
}

impl Buffers {
    /// Starts and moves on until nothing moves or there were 50 moves.
    pub fn chain(
        &mut self,
        accepted: &Accepted,
        sides: [Calls; 2],
        random: &mut Random,
        tally: &mut RunTally,
    ) -> Result<(), String> {
        let mut started = 16;
        for _ in 0..TRIES {
            self.draw_params(Some(&accepted.image), random, true);
            self.draw_old_store(Some(&accepted.image), random, true);
            started = self.start(accepted.bytes, sides)?;
            count(&mut tally.start, started);
            if started == 0 {
                break;
            }
        }
        if started != 0 {
            return Ok(());
        }
        self.take_store();
        self.state = 0;
        self.move_on(accepted, sides, random, tally)
    }

    fn move_on(
        &mut self,
        accepted: &Accepted,
        sides: [Calls; 2],
        random: &mut Random,
        tally: &mut RunTally,
    ) -> Result<(), String> {
        let (mut moves, mut tries) = (0, 0);
        while moves < MOVES && tries < TRIES {
            self.defined(accepted)?;
            let learned = self.learn(Some(&accepted.image), random, 200);
            self.bend_script(random);
            self.draw_budget(learned, random, true);
            self.draw_label(random, true);
            let answer = self.step(accepted.bytes, sides)?;
            count(&mut tally.step, answer);
            tries += 1;
            if NEVER.contains(&(answer & 0xFF)) {
                let told = self.told("step", [answer; 2]);
                return Err(format!("an accepted image gave this in a chain: {told}"));
            }
            if answer & 0xFF == 0 {
                self.take_store();
                self.state = split(answer).0;
                (moves, tries) = (moves + 1, 0);
            }
        }
        tally.chains += 1;
        tally.moves += moves;
        tally.longest = tally.longest.max(moves);
        Ok(())
    }

    /// The variables that check lists for the state are defined here.
    fn defined(&self, accepted: &Accepted) -> Result<(), String> {
        let entries = accepted.sets.as_chunks::<8>().0;
        let mask = u64::from_le_bytes(entries[self.state as usize]);
        let slots = self.store.as_chunks().0.iter().enumerate();
        let undefined = slots.filter(|(_, slot)| i32::from_le_bytes(**slot) == UNDEFINED);
        let gone = undefined.fold(0, |gone, (v, _)| gone | 1u64 << v);
        match mask & gone {
            0 => Ok(()),
            lost => {
                let told = self.told("the step before", [0; 2]);
                Err(format!("state {} listed {lost:#x}, not defined; {told}", self.state))
            }
        }
    }
}
