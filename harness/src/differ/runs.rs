//! Start and step of two sides on the cases of a seed.

use super::buffers::Buffers;
use super::chain::Accepted;
use super::report::save;
use super::table::{count, RunTally};
use crate::calls::Calls;
use crate::check::check;
use crate::generate::Generator;
use crate::image::Image;
use crate::random::Random;
use crate::reading::Document01;

/// Images of which one is followed through a chain of steps.
const CHAINED: usize = 6;
/// Steps of each image outside chains.
const STEPS: usize = 2;

/// A case that went wrong.
pub struct Trouble {
    pub case: u64,
    pub text: String,
    pub image: Vec<u8>,
}

impl Trouble {
    pub fn report(&self, seed: u64) -> String {
        let path = save(&self.image, seed, self.case);
        let length = self.image.len();
        format!(
            "DIFFERENCE at seed {seed}, case {}: {}\nimage ({length} bytes): {path}",
            self.case, self.text
        )
    }
}

/// Runs the cases `first..first + cases` of a seed; stops at the first trouble.
pub fn compare_runs(
    seed: u64,
    first: u64,
    cases: u64,
    sides: [Calls; 2],
) -> Result<RunTally, Box<Trouble>> {
    let mut generator = Generator::default();
    let mut tally = RunTally::default();
    let mut buffers = Buffers::default();
    let (mut image, mut kept) = (Vec::new(), Vec::new());
    for case in first..first + cases {
        let mut random = Random::new(seed, case);
        generator.image(&mut random, &mut image);
        kept.clone_from(&image);
        let mut done = buffers.case(&image, sides, &mut random, &mut tally);
        if done.is_ok() && image != kept {
            done = Err("the image changed".to_string());
        }
        if let Err(text) = done {
            return Err(Box::new(Trouble { case, text, image: kept }));
        }
        tally.cases += 1;
    }
    Ok(tally)
}

impl Buffers {
    /// A start, some steps, and now and then a chain, all on one image.
    fn case(
        &mut self,
        bytes: &[u8],
        sides: [Calls; 2],
        random: &mut Random,
        tally: &mut RunTally,
    ) -> Result<(), String> {
        let image = self.judged.judge::<Document01>(bytes, &mut ()).ok();
        self.draw_params(image.as_ref(), random, false);
        self.draw_old_store(image.as_ref(), random, false);
        let answer = self.start(bytes, sides)?;
        count(&mut tally.start, answer);
        for _ in 0..STEPS {
            let answer = self.single(bytes, image.as_ref(), sides, random)?;
            count(&mut tally.step, answer);
        }
        let sets = &mut [0; 512];
        match image {
            Some(image) if random.one_in(CHAINED) && check(bytes, sets) == 0 => {
                self.chain(&Accepted { bytes, image, sets }, sides, random, tally)
            }
            _ => Ok(()),
        }
    }

    /// One step on any store, also where check would refuse the image.
    fn single(
        &mut self,
        bytes: &[u8],
        image: Option<&Image>,
        sides: [Calls; 2],
        random: &mut Random,
    ) -> Result<u64, String> {
        self.draw_store(image, random);
        self.draw_state(image, random);
        let learned = self.learn(image, random, 30);
        self.bend_script(random);
        self.draw_budget(learned, random, false);
        self.draw_label(random, false);
        self.step(bytes, sides)
    }
}
