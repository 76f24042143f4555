//! Of all instants those are enough at which some count steps up: tried alone
//! they give the program's figures, and the program tries every tick. Which
//! steps are meant is easily misread; some sets tell.

mod formula;
mod steps;

use formula::{agree, figures, set, tells_apart, Reading};
use second::dice::Dice;
use second::set::Set;
use second::sets::{self, Recipe};
use second::verdict::{busy_lengths, judge_set, settle_within};
use steps::bounds;

/// The steps on every prefix, and those on the prefixes that a starting time
/// goes back to.
const ENOUGH: [Reading; 2] = [Reading::EveryPrefix, Reading::NamedPrefixes];

fn steps_are_enough(recipe: Recipe, seed: u64, times: usize) {
    for reading in ENOUGH {
        agree(recipe, reading, seed, times);
    }
}

#[test]
fn small_sets() {
    steps_are_enough(Recipe::Small, 11, 400);
}

#[test]
fn loose_sets() {
    steps_are_enough(Recipe::Loose, 12, 300);
}

#[test]
fn jittery_sets() {
    steps_are_enough(Recipe::Jittery, 13, 200);
}

#[test]
fn rings() {
    steps_are_enough(Recipe::Ring, 14, 60);
}

#[test]
fn knots() {
    steps_are_enough(Recipe::Knot, 15, 40);
}

#[test]
fn ways_back() {
    steps_are_enough(Recipe::Back, 16, 60);
}

#[test]
fn bounds_at_the_horizon() {
    steps_are_enough(Recipe::LateBound, 17, 200);
    steps_are_enough(Recipe::LateDrop, 18, 200);
    steps_are_enough(Recipe::FarJitter, 19, 200);
}

#[test]
fn late_steps() {
    steps_are_enough(Recipe::LateStep, 20, 60);
}

/// A set and the program's bounds for it.
type Judged = (Set, Vec<i64>);

/// Those of the recipe's sets that have figures.
fn judged(recipe: Recipe, seed: u64, times: usize) -> Vec<Judged> {
    let mut dice = Dice::new(seed);
    let sets = (0..times).map(|_| sets::make(recipe, &mut dice));
    sets.filter_map(|set| {
        let figures = judge_set(&set).ok()?;
        Some((set, figures.iter().map(|f| f.bound).collect()))
    })
    .collect()
}

fn steps_are_enough_for(judged: &[Judged]) {
    for (set, given) in judged {
        for reading in ENOUGH {
            let found = bounds(set, reading);
            assert_eq!(found.as_ref(), Some(given), "{reading:?}: {set:?}");
        }
    }
}

/// The recipes are for telling misread instants, and not by a rare set alone: at
/// least so many of the sets get other bounds.
fn tell(judged: &[Judged], least: [(Reading, usize); 5]) {
    for (reading, least) in least {
        let differs = |(set, given): &&Judged| bounds(set, reading).is_some_and(|b| b != *given);
        let told = judged.iter().filter(differs).count();
        assert!(told >= least, "{reading:?}: {told} of {}", judged.len());
    }
}

#[test]
fn late_steps_tell() {
    let judged = judged(Recipe::LateStep, 21, 1_000);
    steps_are_enough_for(&judged);
    tell(
        &judged,
        [
            (Reading::DirectlyNamed, 200),
            (Reading::ThisPrefix, 250),
            (Reading::OwnSteps, 500),
            (Reading::NoFirstStep, 250),
            (Reading::LateSteps, 500),
        ],
    );
}

#[test]
fn wide_steps_tell() {
    let judged = judged(Recipe::WideStep, 22, 100);
    steps_are_enough_for(&judged);
    tell(
        &judged,
        [
            (Reading::DirectlyNamed, 8),
            (Reading::ThisPrefix, 15),
            (Reading::OwnSteps, 50),
            (Reading::NoFirstStep, 25),
            (Reading::LateSteps, 50),
        ],
    );
}

/// Not for those of many rounds: they may take many more if misread.
#[test]
fn dense_sets_tell() {
    let mut judged = judged(Recipe::Dense, 26, 120);
    judged.retain(|(set, _)| soon(set));
    steps_are_enough_for(&judged);
    tell(
        &judged,
        [
            (Reading::DirectlyNamed, 3),
            (Reading::ThisPrefix, 4),
            (Reading::OwnSteps, 25),
            (Reading::NoFirstStep, 4),
            (Reading::LateSteps, 20),
        ],
    );
}

fn soon(set: &Set) -> bool {
    let busy = busy_lengths(set).expect("a set with figures");
    settle_within(set, &busy, 30).is_some()
}

/// Most of these are too long for the slow formula.
#[test]
fn long_sets() {
    steps_are_enough_for(&judged(Recipe::Crowd, 23, 200));
    steps_are_enough_for(&judged(Recipe::Wide, 24, 200));
    steps_are_enough_for(&judged(Recipe::LongBusy, 25, 4));
}

/// The sets of tests/cases that tell the instants to be tried from others.
#[test]
fn near_readings() {
    // Flow 1 reaches its bound at t = 10. There flow 4's count steps up on the
    // prefix of node 1 alone. The sum at 3 names the start at 2, and only the
    // sum at 2 that at 1: at 3, flow 2 is last met at 3.
    let a = set(
        0,
        0,
        &[
            (1, 1, 5, 1, &[1, 2, 3], &[1, 1, 1]),
            (2, 2, 5, 0, &[1, 3], &[2, 1]),
            (3, 2, 9, 0, &[2], &[2]),
            (4, 1, 6, 0, &[3, 2, 1], &[1, 1, 1]),
        ],
    );
    tells_apart(
        &a,
        [(20, 17, 35), (3, 0, 2), (2, 0, 2), (23, 20, 35)],
        &[
            (Reading::DirectlyNamed, [18, 3, 2, 23]),
            (Reading::ThisPrefix, [18, 3, 2, 21]),
            (Reading::OwnSteps, [18, 3, 2, 21]),
        ],
    );
    let b = set(
        2,
        2,
        &[
            (1, 1, 10, 2, &[1, 2], &[2, 1]),
            (2, 2, 4, 0, &[1], &[2]),
            (3, 1, 10, 0, &[2, 1], &[1, 2]),
        ],
    );
    tells_apart(
        &b,
        [(14, 9, 8), (3, 1, 2), (16, 11, 8)],
        &[
            (Reading::ThisPrefix, [13, 3, 16]),
            (Reading::OwnSteps, [13, 3, 15]),
            (Reading::NoFirstStep, [13, 3, 15]),
            (Reading::LateSteps, [13, 3, 15]),
        ],
    );
    let c = set(
        0,
        0,
        &[(1, 1, 7, 0, &[1, 2], &[1, 2]), (2, 1, 5, 1, &[2], &[1])],
    );
    tells_apart(
        &c,
        [(4, 1, 3), (3, 2, 3)],
        &[
            (Reading::OwnSteps, [4, 2]),
            (Reading::NoFirstStep, [4, 2]),
            (Reading::LateSteps, [4, 2]),
        ],
    );
    for near in [a, b, c] {
        let given = judge_set(&near).expect("a set with figures");
        for reading in ENOUGH {
            let found = figures(&near, reading);
            assert_eq!(found.as_ref(), Some(&Ok(given.clone())), "{reading:?}");
        }
    }
}
