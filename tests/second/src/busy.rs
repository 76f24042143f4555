//! Busy lengths.

use crate::arith::ceil;
use crate::flow::HORIZON;
use crate::paths::{crosses, slowest_cost};
use crate::set::Set;

/// The shortest span, up to the horizon, that is filled by what i and the
/// flows on its path that are at least as urgent can send in it, each at its
/// slowest cost on i's path. RULES, busy length. What they send rises with the
/// span, so that the iteration from 1 meets the shortest.
pub fn busy(set: &Set, i: usize) -> Option<i64> {
    let path = &set.flows[i].path;
    let loads: Vec<(i64, i64)> = set
        .urgent(i)
        .map(|j| &set.flows[j])
        .filter(|j| crosses(j, path))
        .map(|j| (j.period, slowest_cost(j, path)))
        .collect();
    let mut busy = 1;
    while busy <= HORIZON {
        let next = loads
            .iter()
            .map(|(period, cost)| ceil(busy, *period) * cost)
            .sum();
        if next == busy {
            return Some(busy);
        }
        busy = next;
    }
    None
}

#[cfg(test)]
mod tests {
    use super::*;
    use crate::flow::{Flow, Links};

    fn pair(period: i64, rare: i64) -> Set {
        let flow = |number, period, cost| Flow {
            number,
            priority: 1,
            period,
            jitter: 0,
            deadline: HORIZON,
            path: vec![1],
            costs: vec![cost],
        };
        let flows = vec![flow(1, period, period - 1), flow(2, HORIZON, rare)];
        Set {
            links: Links::default(),
            flows,
        }
    }

    /// With T = C + 1 for one flow and cost c for a rare one, B = c × T.
    #[test]
    fn the_horizon_is_a_busy_length_and_the_next_is_not() {
        assert_eq!(busy(&pair(257, 255), 0), Some(65_535));
        assert_eq!(busy(&pair(217, 302), 1), Some(65_534));
        assert_eq!(busy(&pair(256, 256), 0), None);
    }

    #[test]
    fn a_flow_that_fills_its_node_alone() {
        let mut set = pair(1, 1);
        set.flows[0].costs = vec![1];
        assert_eq!(busy(&set, 0), None);
        set.flows.pop();
        assert_eq!(busy(&set, 0), Some(1));
    }
}
