//! A set of flows in a network, and who is higher, equal and lower in it.

use crate::flow::{Flow, Links};

/// Link delays and flows in rising number. The default, without flows and with
/// Lmin = Lmax = 0, goes with a refused reading. RULES, reading.
#[derive(Clone, Debug, Default, PartialEq, Eq)]
pub struct Set {
    pub links: Links,
    pub flows: Vec<Flow>,
}

/// The greater priority is the more urgent (RULES, ranges), and no flow is its
/// own equal. Flows are meant by their place in the set.
impl Set {
    pub fn higher(&self, i: usize) -> impl Iterator<Item = usize> + '_ {
        let own = self.flows[i].priority;
        (0..self.flows.len()).filter(move |j| self.flows[*j].priority > own)
    }

    pub fn equal(&self, i: usize) -> impl Iterator<Item = usize> + '_ {
        let own = self.flows[i].priority;
        (0..self.flows.len()).filter(move |j| *j != i && self.flows[*j].priority == own)
    }

    pub fn lower(&self, i: usize) -> impl Iterator<Item = usize> + '_ {
        let own = self.flows[i].priority;
        (0..self.flows.len()).filter(move |j| self.flows[*j].priority < own)
    }

    /// i and all that are at least as urgent.
    pub fn urgent(&self, i: usize) -> impl Iterator<Item = usize> + '_ {
        std::iter::once(i)
            .chain(self.higher(i))
            .chain(self.equal(i))
    }

    /// Smin(j,h): how long j takes to h if it never waits and every link is at
    /// its shortest. RULES, times and counts. The node is given by its place on
    /// j's path.
    pub fn least_arrival(&self, j: usize, place: usize) -> i64 {
        self.flows[j].costs[..place]
            .iter()
            .map(|c| c + self.links.least)
            .sum()
    }

    /// What the bound has over the shortest way through the whole path. RULES,
    /// response bounds.
    pub fn jitter(&self, i: usize, bound: i64) -> i64 {
        let flow = &self.flows[i];
        let hops = flow.path.len() as i64 - 1;
        bound - flow.costs.iter().sum::<i64>() - hops * self.links.least
    }
}
