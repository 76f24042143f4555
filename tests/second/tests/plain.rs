//! The formula a second time, in formula/: it agrees with the program on small
//! sets, and some of these tell a misreading of it from the rules.

mod formula;

use formula::{agree, set, tells_apart, Reading};
use second::sets::Recipe;

#[test]
fn small_sets() {
    agree(Recipe::Small, Reading::Right, 1, 200);
}

#[test]
fn loose_sets() {
    agree(Recipe::Loose, Reading::Right, 2, 150);
}

#[test]
fn jittery_sets() {
    agree(Recipe::Jittery, Reading::Right, 3, 100);
}

#[test]
fn rings() {
    agree(Recipe::Ring, Reading::Right, 4, 30);
}

#[test]
fn knots() {
    agree(Recipe::Knot, Reading::Right, 5, 20);
}

#[test]
fn ways_back() {
    agree(Recipe::Back, Reading::Right, 6, 30);
}

#[test]
fn late_steps() {
    agree(Recipe::LateStep, Reading::Right, 10, 30);
}

#[test]
fn bounds_at_the_horizon() {
    agree(Recipe::LateBound, Reading::Right, 7, 150);
    agree(Recipe::LateDrop, Reading::Right, 8, 150);
    agree(Recipe::FarJitter, Reading::Right, 9, 100);
}

/// The sets of tests/cases that tell the rules from a reading near to them.
#[test]
fn near_readings() {
    let a = set(
        1,
        1,
        &[
            (1, 0, 9, 0, &[1, 2, 4, 3], &[1, 2, 2, 3]),
            (2, 1, 12, 0, &[3, 2, 1], &[1, 2, 1]),
            (3, 1, 10, 0, &[3, 4], &[2, 2]),
        ],
    );
    tells_apart(
        &a,
        [(21, 10, 7), (12, 6, 4), (9, 4, 3)],
        &[(Reading::LastOfTheOther, [15, 12, 9])],
    );
    let b = set(
        1,
        2,
        &[
            (1, 0, 10, 0, &[4, 2, 1, 3], &[3, 3, 3, 2]),
            (2, 1, 20, 0, &[2, 1], &[1, 1]),
            (3, 0, 17, 0, &[1, 3], &[1, 2]),
        ],
    );
    tells_apart(
        &b,
        [(20, 6, 6), (8, 5, 1), (11, 7, 6)],
        &[(Reading::NoLeastArrival, [20, 8, 14])],
    );
    let c = set(
        1,
        2,
        &[
            (1, 1, 8, 0, &[2, 4, 3, 1], &[3, 1, 3, 2]),
            (2, 0, 11, 0, &[1, 4, 3, 2], &[1, 1, 3, 1]),
            (3, 0, 12, 0, &[3, 2, 4, 1], &[1, 2, 3, 3]),
        ],
    );
    tells_apart(
        &c,
        [(22, 10, 3), (75, 66, 21), (72, 60, 21)],
        &[
            (Reading::OwnWholeCost, [22, 79, 78]),
            (Reading::OwnWholeNode, [22, 79, 78]),
        ],
    );
    let d = set(
        1,
        1,
        &[
            (1, 0, 18, 0, &[2, 1, 3, 4], &[3, 2, 3, 2]),
            (2, 1, 12, 0, &[2], &[3]),
            (3, 1, 16, 0, &[2, 3, 1, 4], &[2, 2, 2, 3]),
        ],
    );
    tells_apart(
        &d,
        [(20, 7, 9), (7, 4, 5), (22, 10, 6)],
        &[(Reading::StartJustBefore, [23, 7, 22])],
    );
    let e = set(
        1,
        2,
        &[
            (1, 1, 16, 0, &[1], &[3]),
            (2, 1, 16, 0, &[1, 4, 3, 2], &[2, 1, 3, 3]),
            (3, 1, 12, 0, &[3, 4], &[1, 2]),
        ],
    );
    tells_apart(
        &e,
        [(5, 2, 5), (23, 11, 8), (11, 7, 5)],
        &[(Reading::AlongWholePath, [5, 23, 10])],
    );
    let f = set(
        1,
        2,
        &[
            (1, 0, 18, 0, &[2, 1, 4], &[3, 3, 1]),
            (2, 1, 20, 0, &[2, 4, 1, 3], &[2, 1, 2, 2]),
            (3, 0, 19, 0, &[4, 1], &[1, 3]),
        ],
    );
    tells_apart(
        &f,
        [(17, 8, 8), (17, 7, 2), (12, 7, 8)],
        &[(Reading::OwnProgress, [16, 17, 12])],
    );
}
