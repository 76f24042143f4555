//! Sets with many packets of one priority in a busy length, and how many there
//! are in a set.

use crate::arith::ceil;
use crate::busy::busy;
use crate::dice::Dice;
use crate::flow::{Flow, HORIZON};
use crate::found::{self, Found};
use crate::paths::crosses;
use crate::set::Set;
use crate::sets::{links, price};
use crate::steps::{one_or_two, piece, stretch};
use crate::verdict::{busy_lengths, settle_within};
use std::ops::RangeInclusive;

/// A set is dense if more packets than this fall into a flow's busy length: there
/// the library works in another way.
const FEW: i64 = 64;

/// The longest busy length before times are stretched.
const LONG: i64 = 1_500;

/// The most work that judging may be: that of a round, times the rounds.
const WORK: i64 = 60_000_000;

/// As in steps.rs, a bound is reached at a step on the prefix of an early node
/// that counts only by way of a node between; but among many steps.
const BY_WAY_OF: [Found; 6] = [
    Found {
        links: (0, 1),
        rows: &[
            (1, 4, 0, &[1, 2, 3, 4, 5], &[1, 1, 1, 1, 1]),
            (1, 12, 0, &[5, 4, 3, 2, 1], &[2, 2, 2, 1, 2]),
            (2, 28, 0, &[5, 2], &[7, 7]),
            (2, 18, 0, &[3], &[6]),
        ],
    },
    Found {
        links: (1, 1),
        rows: &[
            (1, 6, 0, &[1, 2, 3], &[1, 1, 1]),
            (1, 11, 0, &[3, 2, 1], &[1, 1, 1]),
            (1, 13, 0, &[1, 2], &[1, 1]),
            (3, 60, 0, &[1], &[12]),
            (3, 35, 0, &[2, 3], &[7, 8]),
            (2, 50, 0, &[1, 3], &[11, 11]),
        ],
    },
    Found {
        links: (0, 0),
        rows: &[
            (1, 18, 0, &[1, 2, 3], &[1, 2, 2]),
            (1, 10, 0, &[3, 2, 1], &[1, 1, 1]),
            (3, 26, 0, &[1, 3], &[12, 11]),
            (3, 39, 0, &[3, 2], &[9, 9]),
            (2, 43, 0, &[2], &[4]),
        ],
    },
    Found {
        links: (0, 2),
        rows: &[
            (1, 6, 1, &[1, 2, 3, 4, 5], &[1, 1, 1, 1, 1]),
            (1, 14, 0, &[5, 4, 3, 2, 1], &[1, 1, 1, 1, 1]),
            (3, 30, 7, &[5, 2], &[12, 12]),
            (3, 42, 1, &[5, 4], &[9, 9]),
            (2, 66, 1, &[3, 5], &[9, 9]),
        ],
    },
    Found {
        links: (0, 1),
        rows: &[
            (1, 12, 0, &[1, 2, 3, 4, 5], &[1, 1, 1, 1, 1]),
            (1, 13, 0, &[5, 4, 3, 2, 1], &[1, 1, 1, 1, 1]),
            (1, 11, 0, &[5, 4, 3, 2, 1], &[2, 2, 2, 2, 2]),
            (3, 41, 0, &[1, 3], &[4, 4]),
            (2, 13, 0, &[2, 4], &[4, 3]),
            (3, 29, 0, &[3], &[7]),
        ],
    },
    Found {
        links: (0, 0),
        rows: &[
            (1, 20, 0, &[1, 2, 3], &[2, 2, 2]),
            (1, 6, 0, &[3, 2, 1], &[1, 1, 1]),
            (1, 11, 0, &[1, 2, 3], &[2, 1, 2]),
            (1, 11, 0, &[3, 2, 1], &[1, 1, 1]),
            (3, 16, 0, &[2, 3], &[2, 1]),
            (3, 9, 0, &[1, 3], &[3, 3]),
        ],
    },
];

/// The packets of i and of its equals on its path that fall into its busy
/// length; none if it has no busy length.
fn packets(set: &Set, i: usize) -> i64 {
    let Some(busy) = busy(set, i) else {
        return 0;
    };
    std::iter::once(i)
        .chain(set.equal(i))
        .map(|j| &set.flows[j])
        .filter(|j| crosses(j, &set.flows[i].path))
        .map(|j| ceil(busy, j.period))
        .sum()
}

fn most_packets(set: &Set) -> i64 {
    let all = (0..set.flows.len()).map(|i| packets(set, i));
    all.max().unwrap_or(0)
}

pub fn dense(set: &Set) -> bool {
    most_packets(set) > FEW
}

/// Mostly a dense set; at times one that just is or just is not, or one with a
/// little more load than a node can carry.
pub fn make(dice: &mut Dice) -> Set {
    let (many, next) = (FEW + 1..=HORIZON, FEW - 3..=FEW + 4);
    let count = dice.pick(2, 8) as usize;
    match dice.pick(1, 24) {
        1..=2 => first(many, dice, |dice| found::make(&BY_WAY_OF, dice)),
        3..=6 => first(many, dice, |dice| against(count.max(4), dice)),
        7..=9 => first(next, dice, |dice| often(count, dice)),
        10..=11 => overload(first(many, dice, |dice| often(count, dice)), dice),
        _ => first(many, dice, |dice| often(count, dice)),
    }
}

/// The first set drawn that has as many packets in a busy length as are wanted
/// and is soon judged.
fn first(wanted: RangeInclusive<i64>, dice: &mut Dice, draw: impl Fn(&mut Dice) -> Set) -> Set {
    loop {
        let mut set = draw(dice);
        lighten(&mut set, dice);
        if dice.once_in(4) {
            spread(&mut set, dice);
        }
        if wanted.contains(&most_packets(&set)) && quick(&set) {
            return set;
        }
    }
}

/// At a load near 1 the rounds may be many.
fn quick(set: &Set) -> bool {
    let Ok(busy) = busy_lengths(set) else {
        return false;
    };
    let rounds = WORK / price(set);
    settle_within(set, &busy, rounds as usize).is_some()
}

/// A third of the sets have jitters, some of more than a period.
fn numbered(mut flows: Vec<Flow>, dice: &mut Dice) -> Set {
    let jitters = dice.once_in(3);
    for (number, flow) in (1..).zip(&mut flows) {
        flow.number = number;
        if jitters {
            let far = 3 * flow.period + 1;
            flow.jitter = dice.one_of(&[0, 0, 1, 2, flow.period, far]);
        }
    }
    Set {
        links: links(dice, 3),
        flows,
    }
}

/// Flows along a line in both directions, and above them others that carry steps
/// from earlier nodes on to later ones.
fn against(count: usize, dice: &mut Dice) -> Set {
    let line: Vec<i64> = (1..=dice.pick(2, 5)).collect();
    let back = line.iter().rev().copied().collect();
    let mut flows = vec![flow(1, line.clone(), dice), flow(1, back, dice)];
    while flows.len() < count {
        let next = if dice.once_in(3) {
            flow(1, piece(&line, dice), dice)
        } else {
            let (cost, times) = (dice.pick(1, 12), dice.pick(2, 8));
            let above = flow(dice.pick(2, 3), one_or_two(&line, dice), dice);
            costing(above, cost, times, dice)
        };
        flows.push(next);
    }
    numbered(flows, dice)
}

/// Mostly of one priority. A great cost makes a busy length long, also that of
/// few flows.
fn often(count: usize, dice: &mut Dice) -> Set {
    let several = dice.once_in(3);
    let mut flows: Vec<Flow> = paths(count, dice)
        .into_iter()
        .map(|path| {
            let level = if several { dice.pick(1, 3) } else { 2 };
            flow(level, path, dice)
        })
        .collect();
    if count <= 4 || dice.once_in(4) {
        let most = 200 / count as i64;
        let (cost, times) = (dice.pick(most / 4, most), dice.pick(3, 12));
        let k = dice.index(count);
        flows[k] = costing(flows[k].clone(), cost, times, dice);
    }
    numbered(flows, dice)
}

fn paths(count: usize, dice: &mut Dice) -> Vec<Vec<i64>> {
    match dice.pick(1, 12) {
        1 => vec![vec![1]; count],
        2..=3 => orders(dice.pick(2, 7), count, dice),
        4..=9 => apart(dice.pick(4, 7), count, dice),
        10 => runs(dice.pick(2, 7), 0, count, dice),
        _ => runs(dice.pick(1, 4), 2, count, dice),
    }
}

/// Each over the same nodes, some in an order of their own, some over one alone.
fn orders(nodes: i64, count: usize, dice: &mut Dice) -> Vec<Vec<i64>> {
    let common: Vec<i64> = (1..=nodes).collect();
    let turns = dice.one_of(&[1, 2, 4]);
    let order = |_| {
        let mut path = common.clone();
        if dice.once_in(turns) {
            dice.shuffle(&mut path);
        }
        if dice.once_in(8) {
            path.truncate(1);
        }
        path
    };
    (0..count).map(order).collect()
}

/// Each over the same nodes, and at last over those where others begin: they feed
/// one another, at a load near 1 often without end.
fn apart(nodes: i64, count: usize, dice: &mut Dice) -> Vec<Vec<i64>> {
    let begun = dice.pick(2, nodes);
    let order = |k| {
        let own = k % begun + 1;
        let mut between: Vec<i64> = (begun + 1..=nodes).collect();
        let mut last: Vec<i64> = (1..=begun).filter(|n| *n != own).collect();
        dice.shuffle(&mut between);
        dice.shuffle(&mut last);
        [vec![own], between, last].concat()
    };
    (0..count as i64).map(order).collect()
}

/// Each a run of the line, in either direction, between up to so many nodes of
/// its own at both ends.
fn runs(line: i64, ends: i64, count: usize, dice: &mut Dice) -> Vec<Vec<i64>> {
    let turns = dice.one_of(&[2, 4, 8]);
    let mut others = line + 1..;
    let run = |_| {
        let length = dice.pick(1, line);
        let from = dice.pick(1, line + 1 - length);
        let mut run: Vec<i64> = (from..from + length).collect();
        if dice.once_in(turns) {
            run.reverse();
        }
        let mut own = || others.by_ref().take(dice.pick(0, ends) as usize).collect();
        [own(), run, own()].concat()
    };
    (0..count).map(run).collect()
}

/// A flow, not yet numbered, that is often sent and costs little.
fn flow(priority: i64, path: Vec<i64>, dice: &mut Dice) -> Flow {
    let cost = dice.one_of(&[1, 1, 1, 1, 2, 3]);
    let longest = dice.one_of(&[13, 13, 13, 13, 40]);
    Flow {
        number: 0,
        priority,
        period: dice.pick(cost + 1, longest),
        jitter: 0,
        deadline: HORIZON,
        costs: path
            .iter()
            .map(|_| (cost - i64::from(dice.once_in(4))).max(1))
            .collect(),
        path,
    }
}

/// The flow with up to this cost, and a period of so many times as much.
fn costing(flow: Flow, cost: i64, times: i64, dice: &mut Dice) -> Flow {
    let least = (cost + 1) / 2;
    let costs = flow.costs.iter().map(|_| dice.pick(least, cost)).collect();
    Flow {
        period: cost * times,
        costs,
        ..flow
    }
}

/// Makes periods longer until every flow has a busy length and none is long. As
/// they do not get longer than it takes, the load is close to 1.
fn lighten(set: &mut Set, dice: &mut Dice) {
    let long = |all: Vec<i64>| all.iter().any(|b| *b > LONG);
    while busy_lengths(set).map_or(true, long) {
        let k = dice.index(set.flows.len());
        let period = &mut set.flows[k].period;
        *period += 1 + *period / 16;
    }
}

/// Steps several ticks apart, at times with a jitter between.
fn spread(set: &mut Set, dice: &mut Dice) {
    let times = dice.pick(2, 7);
    stretch(set, times);
    if dice.once_in(3) {
        let k = dice.index(set.flows.len());
        let jitter = set.flows[k].jitter + dice.pick(1, times - 1);
        set.flows[k].jitter = jitter.min(HORIZON);
    }
}

/// Makes periods shorter until a flow has no busy length: any flow's, or that of
/// a new flow below the others, which keep their busy lengths.
fn overload(mut set: Set, dice: &mut Dice) -> Set {
    let below = dice.once_in(2);
    if below {
        set.flows.push(Flow {
            number: set.flows.len() as i64 + 1,
            priority: 0,
            period: LONG,
            ..set.flows[dice.index(set.flows.len())].clone()
        });
    }
    let last = set.flows.len() - 1;
    while busy_lengths(&set).is_ok() {
        let k = if below { last } else { dice.index(last + 1) };
        let period = &mut set.flows[k].period;
        *period = (*period - 1 - *period / 16).max(1);
    }
    set
}

#[cfg(test)]
mod tests {
    use super::*;
    use crate::plan;
    use crate::verdict::judge_set;

    /// B of the first is 4, in which it sends twice and the second once; the
    /// third is higher, the fourth elsewhere.
    #[test]
    fn packets_are_those_of_equals_on_the_path() {
        let flow = |priority, period, node| Flow {
            number: 0,
            priority,
            period,
            jitter: 0,
            deadline: HORIZON,
            path: vec![node],
            costs: vec![1],
        };
        let mut set = Set {
            flows: vec![flow(1, 2, 1), flow(1, 4, 1), flow(2, 8, 1), flow(1, 2, 2)],
            ..Set::default()
        };
        let all = |set: &Set| (0..4).map(|i| packets(set, i)).collect::<Vec<i64>>();
        assert_eq!(all(&set), [3, 3, 1, 1]);
        set.flows[1].period = 1;
        assert_eq!(all(&set), [0, 0, 1, 1]);
    }

    /// Half of the sets are dense and have bounds; some are dense and refused by
    /// 8, some by 9. All are in range.
    #[test]
    fn many_sets_are_dense() {
        let mut dice = Dice::new(5);
        let mut answers = Vec::new();
        for _ in 0..100 {
            let set = make(&mut dice);
            assert_eq!(plan::read(&plan::write(&set)).as_ref(), Ok(&set));
            if dense(&set) {
                answers.push(judge_set(&set).map_or_else(|r| r.number, |_| 0));
            }
        }
        for (number, least) in [(0, 50), (8, 1), (9, 5)] {
            let count = answers.iter().filter(|a| **a == number).count();
            assert!(count >= least, "{number}: {count}");
        }
    }
}
