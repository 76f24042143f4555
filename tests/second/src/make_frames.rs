//! Makes a corpus of plans.

use crate::damage::{self, Damage};
use crate::deadlines::{fit, Fit, FITS};
use crate::dice::Dice;
use crate::frames;
use crate::plan;
use crate::sets::{self, Recipe, CHEAP, DEAR};

/// What a plan is made from.
#[derive(Clone, Copy)]
pub enum Job {
    Set(Recipe, Fit),
    Damage(Damage),
}

/// A corpus of `count` plans. The first ones go through every recipe with every
/// fit and every damage, so that no answer is left to chance.
pub fn make(count: usize, seed: u64) -> Vec<u8> {
    let mut dice = Dice::new(seed);
    let roster = roster();
    let mut out = Vec::new();
    for k in 0..count {
        let job = roster.get(k).copied().unwrap_or_else(|| any(&mut dice));
        frames::push(&mut out, &plan_for(job, &mut dice));
    }
    out
}

fn roster() -> Vec<Job> {
    let fits = |r: &Recipe| FITS.map(|f| Job::Set(*r, f));
    let sets = CHEAP.iter().flat_map(fits);
    let damages = damage::ALL.iter().map(|d| Job::Damage(*d));
    let dear = DEAR.iter().map(|r| Job::Set(*r, Fit::Loose));
    sets.chain(damages).chain(dear).collect()
}

/// Shares in a thousand. The dear ones are few because a corpus runs often.
fn any(dice: &mut Dice) -> Job {
    let recipe = match dice.pick(1, 1_000) {
        1..=350 => return Job::Damage(dice.one_of(&damage::ALL)),
        351..=352 => dice.one_of(&DEAR),
        353..=362 => Recipe::WideStep,
        363..=365 => Recipe::Empty,
        366..=369 => Recipe::Tangle,
        370..=385 => Recipe::Knot,
        386..=400 => Recipe::Ring,
        401..=425 => Recipe::Overload,
        426..=435 => Recipe::LongBound,
        436..=455 => Recipe::FarJitter,
        456..=475 => Recipe::LateDrop,
        476..=510 => Recipe::LateBound,
        511..=545 => Recipe::Wide,
        546..=590 => Recipe::Back,
        591..=635 => Recipe::Loose,
        636..=690 => Recipe::Jittery,
        691..=760 => Recipe::LateStep,
        761..=815 => Recipe::Dense,
        816..=895 => Recipe::Crowd,
        _ => Recipe::Small,
    };
    Job::Set(recipe, dice.one_of(&FITS))
}

pub fn plan_for(job: Job, dice: &mut Dice) -> Vec<u8> {
    match job {
        Job::Damage(damage) => damage::make(damage, dice),
        Job::Set(recipe, deadlines) => {
            let mut set = sets::make(recipe, dice);
            fit(&mut set, deadlines, dice);
            plan::write(&set)
        }
    }
}
