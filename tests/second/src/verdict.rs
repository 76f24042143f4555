//! Refusals 7 to 10 over a whole set of flows, or its figures.

use crate::busy::busy;
use crate::fronts::{fronts, Front};
use crate::paths::stays;
use crate::refusal::Refusal;
use crate::responses::{responses, Arrivals};
use crate::set::Set;

/// What is told of a flow that was accepted. RULES, tables.
#[derive(Clone, Copy, Debug, PartialEq, Eq)]
pub struct Figures {
    pub number: i64,
    pub bound: i64,
    pub jitter: i64,
    pub busy: i64,
}

/// The figures of all flows, in rising number, or the lowest of refusals 7 to
/// 10 that applies.
pub fn judge_set(set: &Set) -> Result<Vec<Figures>, Refusal> {
    check_crossing(set)?;
    let busy = busy_lengths(set)?;
    let bounds = settle(set, &busy).bounds.ok_or(Refusal::plain(9))?;
    check_deadlines(set, &bounds)?;
    Ok((0..set.flows.len())
        .map(|i| Figures {
            number: set.flows[i].number,
            bound: bounds[i],
            jitter: set.jitter(i, bounds[i]),
            busy: busy[i],
        })
        .collect())
}

/// Refusal 7 names i, whose path is left and met again. Two equal flows are
/// met in both orders.
fn check_crossing(set: &Set) -> Result<(), Refusal> {
    for i in &set.flows {
        if set
            .flows
            .iter()
            .any(|j| j.priority >= i.priority && !stays(j, i))
        {
            return Err(Refusal::of_flow(7, i.number));
        }
    }
    Ok(())
}

pub fn busy_lengths(set: &Set) -> Result<Vec<i64>, Refusal> {
    (0..set.flows.len())
        .map(|i| busy(set, i).ok_or(Refusal::of_flow(8, set.flows[i].number)))
        .collect()
}

fn check_deadlines(set: &Set, bounds: &[i64]) -> Result<(), Refusal> {
    for (i, flow) in set.flows.iter().enumerate() {
        if bounds[i] > flow.deadline {
            return Err(Refusal::of_flow(10, flow.number));
        }
    }
    Ok(())
}

/// How the arrival bounds came to rest.
pub struct Rest {
    /// The bounds under the least settled arrival bounds; None if there are none.
    pub bounds: Option<Vec<i64>>,
    pub rounds: usize,
}

/// Looks for the least settled arrival bounds. Nothing but rest or a response
/// bound past the horizon ends the rounds, however many they are.
///
/// Every sum of the formula rises with the arrival bounds, so rounds from zero
/// stay below every settled set: they come to rest at the least one, or a
/// response bound passes the horizon and then it does so in every candidate.
pub fn settle(set: &Set, busy: &[i64]) -> Rest {
    settle_within(set, busy, usize::MAX).expect("no more rounds than that")
}

/// The same for making sets; None: that takes more rounds than `most`.
pub fn settle_within(set: &Set, busy: &[i64], most: usize) -> Option<Rest> {
    let fronts: Vec<Vec<Front>> = (0..set.flows.len()).map(|i| fronts(set, i)).collect();
    let mut arrivals: Arrivals = set.flows.iter().map(|f| vec![0; f.path.len()]).collect();
    for rounds in 1..=most {
        let Some(bounds) = round(set, &fronts, busy, &arrivals) else {
            return Some(Rest {
                bounds: None,
                rounds,
            });
        };
        let next: Arrivals = bounds.iter().map(|b| arrivals_after(set, b)).collect();
        if next == arrivals {
            let last = bounds.iter().map(|b| b[b.len() - 1]).collect();
            return Some(Rest {
                bounds: Some(last),
                rounds,
            });
        }
        arrivals = next;
    }
    None
}

/// Response bounds of all flows at all nodes, from the same arrival bounds.
fn round(
    set: &Set,
    fronts: &[Vec<Front>],
    busy: &[i64],
    arrivals: &Arrivals,
) -> Option<Vec<Vec<i64>>> {
    (0..set.flows.len())
        .map(|i| responses(i, &set.flows[i], &fronts[i], busy[i], arrivals))
        .collect()
}

/// S: at once at the first node; at each other, the longest link after what was
/// the bound one node earlier. RULES, arrival bounds.
fn arrivals_after(set: &Set, bounds: &[i64]) -> Vec<i64> {
    let later = bounds[..bounds.len() - 1]
        .iter()
        .map(|r| r + set.links.most);
    std::iter::once(0).chain(later).collect()
}
