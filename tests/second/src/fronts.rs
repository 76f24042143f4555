//! What the trajectory formula asks at a node, apart from the arrival bounds:
//! worked out once for a set of flows.

use crate::paths::{first_on, last_on, runs_along, slowest_cost, slowest_place};
use crate::set::Set;

/// Terms 1 to 6 at one node h of i's path.
pub struct Front {
    /// Term 1.
    pub higher: Vec<Meeting>,
    /// Term 2.
    pub equal: Vec<Meeting>,
    /// Term 3: i's slowest cost on the prefix.
    pub slowest: i64,
    /// Terms 4, 5 and 6 together.
    pub fixed: i64,
}

/// A flow j that crosses the prefix.
pub struct Meeting {
    pub flow: usize,
    /// Place on j's path of f, where i first comes upon that path.
    pub first: usize,
    /// Place on i's path of l (j higher) or of g (j equal).
    pub node: usize,
    /// J of j − M(i,f) − Smin(j,l), or − Smin(j,g).
    pub shift: i64,
    pub period: i64,
    /// j's slowest cost on the prefix.
    pub slowest: i64,
}

/// The fronts of a flow, by place on its path.
pub fn fronts(set: &Set, i: usize) -> Vec<Front> {
    (0..set.flows[i].path.len())
        .map(|place| front(set, i, place))
        .collect()
}

fn front(set: &Set, i: usize, place: usize) -> Front {
    let own = &set.flows[i];
    let prefix = &own.path[..=place];
    Front {
        higher: set
            .higher(i)
            .filter_map(|j| higher_meeting(set, i, j, prefix))
            .collect(),
        equal: set
            .equal(i)
            .filter_map(|j| equal_meeting(set, i, j, prefix))
            .collect(),
        slowest: slowest_cost(own, prefix),
        fixed: passing(set, i, prefix) + blocking(set, i, prefix) + place as i64 * set.links.most
            - own.costs[place],
    }
}

/// Term 1: l is the node of the prefix where i is last on j's path. RULES,
/// starting time.
fn higher_meeting(set: &Set, i: usize, j: usize, prefix: &[i64]) -> Option<Meeting> {
    let last = last_on(prefix, &set.flows[j].path)?;
    meeting(set, i, j, prefix, last)
}

/// Term 2: g is the node by which j comes upon the prefix. RULES, starting
/// time.
fn equal_meeting(set: &Set, i: usize, j: usize, prefix: &[i64]) -> Option<Meeting> {
    let first = first_on(&set.flows[j].path, prefix)?;
    meeting(set, i, j, prefix, first)
}

/// The node is l or g; None if j does not cross the prefix.
fn meeting(set: &Set, i: usize, j: usize, prefix: &[i64], node: i64) -> Option<Meeting> {
    let (own, other) = (&set.flows[i], &set.flows[j]);
    let first = first_on(prefix, &other.path)?;
    let progress = least_progress(set, i, own.place(first)?);
    let earliest = set.least_arrival(j, other.place(node)?);
    Some(Meeting {
        flow: j,
        first: other.place(first)?,
        node: own.place(node)?,
        shift: other.jitter - progress - earliest,
        period: other.period,
        slowest: slowest_cost(other, prefix),
    })
}

/// What a packet of i, or of one that is at least as urgent and runs along i on
/// the prefix, costs at a node.
fn costs_along<'a>(
    set: &'a Set,
    i: usize,
    prefix: &'a [i64],
    node: i64,
) -> impl Iterator<Item = i64> + 'a {
    set.urgent(i)
        .filter(move |j| *j == i || runs_along(&set.flows[*j], prefix))
        .filter_map(move |j| set.flows[j].cost_at(node))
}

/// M(i,h): at each node before h the shortest link and the cheapest such packet,
/// the prefix being the whole path. RULES, times and counts.
fn least_progress(set: &Set, i: usize, place: usize) -> i64 {
    let path = &set.flows[i].path;
    let least = |k: i64| costs_along(set, i, path, k).min().unwrap_or(0);
    path[..place]
        .iter()
        .map(|k| set.links.least + least(*k))
        .sum()
}

/// Term 4: the dearest such packet at each node, apart from i's slowest node,
/// which term 3 has counted. RULES, starting time.
fn passing(set: &Set, i: usize, prefix: &[i64]) -> i64 {
    let slowest = slowest_place(&set.flows[i], prefix.len());
    let greatest = |node: i64| costs_along(set, i, prefix, node).max().unwrap_or(0);
    (0..prefix.len())
        .filter(|p| *p != slowest)
        .map(|p| greatest(prefix[p]))
        .sum()
}

/// Term 5: at each node, a packet of a lower flow that began a tick earlier, the
/// longest there is. RULES, starting time.
fn blocking(set: &Set, i: usize, prefix: &[i64]) -> i64 {
    let greatest = |node: i64| {
        set.lower(i)
            .filter_map(|j| set.flows[j].cost_at(node))
            .max()
    };
    prefix
        .iter()
        .map(|node| greatest(*node).map_or(0, |cost| cost - 1))
        .sum()
}
