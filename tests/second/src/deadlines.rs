//! Deadlines fitted to the true bounds.

use crate::dice::Dice;
use crate::flow::HORIZON;
use crate::set::Set;
use crate::verdict::judge_set;

#[derive(Clone, Copy, Debug, PartialEq, Eq)]
pub enum Fit {
    /// As they are: no bound exceeds them.
    Loose,
    /// Every deadline is its flow's bound.
    Exact,
    /// The same, but one deadline is a tick short.
    OneShort,
    /// Every deadline is within a few ticks of its flow's bound.
    Near,
}

pub const FITS: [Fit; 4] = [Fit::Loose, Fit::Exact, Fit::OneShort, Fit::Near];

/// Fits the deadlines of a set that has bounds; those of another stay.
pub fn fit(set: &mut Set, fit: Fit, dice: &mut Dice) {
    if fit == Fit::Loose || set.flows.is_empty() {
        return;
    }
    let Ok(figures) = judge_set(set) else {
        return;
    };
    let short = dice.index(set.flows.len());
    for (k, flow) in set.flows.iter_mut().enumerate() {
        let room = match fit {
            Fit::OneShort if k == short => -1,
            Fit::Near => dice.pick(-1, 6),
            _ => 0,
        };
        flow.deadline = (figures[k].bound + room).clamp(1, HORIZON);
    }
}
