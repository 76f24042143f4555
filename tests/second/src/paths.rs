//! Who meets whom, and where. A prefix is a slice of i's path from its start;
//! the whole path is its own longest prefix.

use crate::flow::Flow;

/// The first node, in the walker's order, that lies on the ground.
pub fn first_on(walker: &[i64], ground: &[i64]) -> Option<i64> {
    walker.iter().copied().find(|n| ground.contains(n))
}

/// The last node, in the walker's order, that lies on the ground.
pub fn last_on(walker: &[i64], ground: &[i64]) -> Option<i64> {
    walker.iter().rev().copied().find(|n| ground.contains(n))
}

/// j and the prefix have a node in common. RULES, paths.
pub fn crosses(j: &Flow, prefix: &[i64]) -> bool {
    first_on(&j.path, prefix).is_some()
}

/// i and j come upon their common nodes of the prefix at the same one. RULES,
/// paths.
pub fn runs_along(j: &Flow, prefix: &[i64]) -> bool {
    crosses(j, prefix) && first_on(&j.path, prefix) == first_on(prefix, &j.path)
}

/// The most that j costs at any node of the prefix (RULES, paths);
/// zero if j does not cross it.
pub fn slowest_cost(j: &Flow, prefix: &[i64]) -> i64 {
    prefix
        .iter()
        .filter_map(|n| j.cost_at(*n))
        .max()
        .unwrap_or(0)
}

/// Where i first has its slowest cost on the prefix of the given length. RULES,
/// paths.
pub fn slowest_place(i: &Flow, length: usize) -> usize {
    let greatest = slowest_cost(i, &i.path[..length]);
    i.costs.iter().position(|c| *c == greatest).unwrap_or(0)
}

/// j never leaves i's path and comes back to it. RULES, crossing.
pub fn stays(j: &Flow, i: &Flow) -> bool {
    let met: Vec<usize> = (0..j.path.len())
        .filter(|p| i.path.contains(&j.path[*p]))
        .collect();
    match (met.first(), met.last()) {
        (Some(from), Some(to)) => to - from + 1 == met.len(),
        _ => true,
    }
}

#[cfg(test)]
mod tests {
    use super::*;

    fn flow(path: &[i64], costs: &[i64]) -> Flow {
        Flow {
            number: 1,
            priority: 0,
            period: 10,
            jitter: 0,
            deadline: 60,
            path: path.to_vec(),
            costs: costs.to_vec(),
        }
    }

    #[test]
    fn firsts_and_lasts_follow_the_walker() {
        assert_eq!(first_on(&[5, 3, 2, 1], &[1, 2, 3]), Some(3));
        assert_eq!(first_on(&[1, 2, 3], &[5, 3, 2, 1]), Some(1));
        assert_eq!(last_on(&[1, 2, 3], &[5, 3, 2]), Some(3));
        assert_eq!(last_on(&[1, 2], &[5, 3, 2]), Some(2));
        assert_eq!(first_on(&[4], &[1, 2]), None);
    }

    #[test]
    fn running_along_depends_on_the_prefix() {
        let j = flow(&[3, 2], &[1, 1]);
        assert!(!runs_along(&j, &[1, 2, 3]));
        assert!(runs_along(&j, &[1, 2]));
        assert!(!runs_along(&j, &[1]));
        assert!(runs_along(&flow(&[7, 2, 3], &[1, 1, 1]), &[1, 2, 3]));
    }

    #[test]
    fn the_earliest_slowest_node_is_taken() {
        let i = flow(&[1, 2, 3, 4], &[2, 5, 3, 5]);
        assert_eq!(slowest_place(&i, 1), 0);
        assert_eq!(slowest_place(&i, 2), 1);
        assert_eq!(slowest_place(&i, 4), 1);
        assert_eq!(slowest_cost(&i, &[9, 3]), 3);
        assert_eq!(slowest_cost(&i, &[9]), 0);
    }

    #[test]
    fn leaving_and_meeting_again() {
        let long = flow(&[1, 2, 3], &[1, 1, 1]);
        let short = flow(&[1, 3], &[1, 1]);
        assert!(stays(&short, &long));
        assert!(!stays(&long, &short));
        assert!(stays(&flow(&[3, 2, 1], &[1, 1, 1]), &long));
        assert!(stays(&flow(&[9, 2, 8], &[1, 1, 1]), &long));
        assert!(stays(&flow(&[9], &[1]), &long));
    }
}
