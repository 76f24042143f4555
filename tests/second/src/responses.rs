//! Starting times and response bounds, for given arrival bounds.

use crate::arith::count;
use crate::flow::{Flow, HORIZON};
use crate::fronts::{Front, Meeting};

/// S(j,h), by flow and by place on its path.
pub type Arrivals = Vec<Vec<i64>>;

/// A summand count(base + x, T) × cost.
struct Load {
    base: i64,
    period: i64,
    cost: i64,
}

impl Load {
    fn at(&self, x: i64) -> i64 {
        count(self.base + x, self.period) * self.cost
    }
}

/// A front with the arrival bounds put in.
struct Node {
    /// Place on i's path.
    place: usize,
    /// C of i here.
    cost: i64,
    /// Term 1: the place of l and, apart from V, the summand.
    higher: Vec<(usize, Load)>,
    /// Terms 2 and 3: the summands apart from t.
    equal: Vec<Load>,
    /// Terms 4 to 6.
    fixed: i64,
}

impl Node {
    fn new(i: usize, own: &Flow, place: usize, front: &Front, arrivals: &Arrivals) -> Node {
        // S(j,f) is what A(i,j) has beside J and M. RULES, times and counts.
        let load = |m: &Meeting, more: i64| Load {
            base: m.shift + arrivals[m.flow][m.first] + more,
            period: m.period,
            cost: m.slowest,
        };
        let itself = Load {
            base: own.jitter,
            period: own.period,
            cost: front.slowest,
        };
        let equal = front.equal.iter().map(|m| load(m, arrivals[i][m.node]));
        Node {
            place,
            cost: own.costs[place],
            higher: front.higher.iter().map(|m| (m.node, load(m, 0))).collect(),
            equal: equal.chain(std::iter::once(itself)).collect(),
            fixed: front.fixed,
        }
    }

    /// W(i,h,t), the least number that its own sum gives back. RULES, starting
    /// time. `starts[k]` is W(i,k,t) for earlier nodes k; `starts[place]` is a
    /// number at most the answer, from which the iteration rises. None: W + C −
    /// t passes the horizon.
    fn start(&self, t: i64, starts: &[i64]) -> Option<i64> {
        let steady = self.equal.iter().map(|e| e.at(t)).sum::<i64>() + self.fixed;
        let mut w = starts[self.place];
        loop {
            // V: the start at l, whether that is here or was earlier.
            let v = |l: usize| if l == self.place { w } else { starts[l] };
            let urgent = self
                .higher
                .iter()
                .map(|(l, load)| load.at(v(*l)))
                .sum::<i64>();
            let next = urgent + steady;
            if next + self.cost - t > HORIZON {
                return None;
            }
            if next == w {
                return Some(w);
            }
            w = next;
        }
    }
}

/// Response bounds of i at its nodes; None if one of them passes the horizon.
///
/// The instants −J ≤ t < −J + B decide: over a busy length W grows by no more
/// than B, so that no later instant gives more than an earlier one. RULES,
/// response bounds.
pub fn responses(
    i: usize,
    own: &Flow,
    fronts: &[Front],
    busy: i64,
    arrivals: &Arrivals,
) -> Option<Vec<i64>> {
    let node = |(place, front)| Node::new(i, own, place, front, arrivals);
    let nodes: Vec<Node> = fronts.iter().enumerate().map(node).collect();
    // W rises with t: the starts of one instant are below those of the next.
    let mut starts = vec![0; nodes.len()];
    let mut bounds = vec![0; nodes.len()];
    for t in -own.jitter..-own.jitter + busy {
        for node in &nodes {
            let w = node.start(t, &starts)?;
            starts[node.place] = w;
            bounds[node.place] = (w + node.cost - t).max(bounds[node.place]);
        }
    }
    Some(bounds)
}
