//! Sets whose bounds are reached late, at a step of some count that is not the
//! flow's own.

use crate::dice::Dice;
use crate::flow::{Flow, HORIZON, SMALL};
use crate::found::{self, Found};
use crate::set::Set;
use crate::sets::{cheapen, links};
use crate::verdict::judge_set;

/// In each of these a flow's bound is reached at a step on the prefix of an early
/// node, whose starting time enters the sum at a later one only by way of that at
/// a node between. The first is in tests/cases too.
const BY_WAY_OF: [Found; 8] = [
    Found {
        links: (0, 0),
        rows: &[
            (1, 5, 1, &[1, 2, 3], &[1, 1, 1]),
            (2, 5, 0, &[1, 3], &[2, 1]),
            (2, 9, 0, &[2], &[2]),
            (1, 6, 0, &[3, 2, 1], &[1, 1, 1]),
        ],
    },
    Found {
        links: (0, 0),
        rows: &[
            (3, 17, 0, &[2], &[2]),
            (1, 8, 1, &[1, 2, 3], &[2, 2, 2]),
            (1, 8, 0, &[3, 2, 1], &[1, 1, 1]),
            (3, 8, 0, &[3, 1], &[3, 3]),
        ],
    },
    Found {
        links: (0, 0),
        rows: &[
            (0, 40, 0, &[3, 2, 1], &[3, 3, 3]),
            (3, 22, 2, &[2], &[5]),
            (1, 13, 0, &[1, 2, 3], &[1, 1, 1]),
            (2, 13, 0, &[1, 2], &[2, 2]),
            (2, 9, 1, &[1, 3], &[2, 2]),
            (1, 13, 0, &[3, 2, 1], &[2, 2, 2]),
        ],
    },
    Found {
        links: (2, 2),
        rows: &[
            (1, 9, 0, &[3, 2, 1], &[1, 1, 1]),
            (1, 9, 1, &[1, 2, 3], &[1, 1, 1]),
            (2, 9, 2, &[3, 1], &[3, 1]),
            (3, 9, 7, &[2], &[1]),
            (2, 18, 1, &[3, 2], &[2, 2]),
        ],
    },
    Found {
        links: (0, 0),
        rows: &[
            (1, 18, 0, &[1, 2, 3, 4], &[3, 1, 2, 3]),
            (1, 12, 0, &[4, 3, 2, 1], &[2, 1, 3, 3]),
            (3, 12, 1, &[2, 1], &[2, 1]),
            (3, 24, 2, &[2, 4], &[4, 4]),
            (3, 24, 0, &[3], &[2]),
        ],
    },
    Found {
        links: (0, 0),
        rows: &[
            (1, 32, 0, &[4, 3, 2, 1], &[2, 1, 3, 3]),
            (1, 10, 0, &[1, 2, 3, 4], &[1, 1, 1, 1]),
            (2, 7, 7, &[2], &[2]),
            (0, 10, 0, &[1, 2, 3, 4], &[1, 1, 1, 1]),
            (3, 7, 0, &[1, 3], &[2, 2]),
            (1, 10, 7, &[4, 3, 2], &[1, 1, 1]),
        ],
    },
    Found {
        links: (0, 0),
        rows: &[
            (3, 15, 0, &[4], &[4]),
            (3, 11, 1, &[4, 2], &[1, 1]),
            (1, 5, 7, &[5, 4, 3, 2, 1], &[1, 1, 1, 1, 1]),
            (1, 11, 0, &[1, 2, 3, 4, 5], &[1, 1, 1, 1, 1]),
            (3, 15, 0, &[3], &[4]),
        ],
    },
    Found {
        links: (0, 0),
        rows: &[
            (0, 26, 1, &[5, 4, 3], &[4, 4, 4]),
            (3, 13, 2, &[4, 1], &[2, 2]),
            (1, 8, 0, &[1, 2, 3, 4, 5], &[2, 2, 2, 2, 2]),
            (3, 13, 1, &[2], &[2]),
            (3, 26, 0, &[2], &[4]),
            (1, 26, 0, &[5, 4, 3, 2, 1], &[4, 4, 4, 1, 4]),
        ],
    },
];

/// One of those, or a line.
pub fn late(dice: &mut Dice) -> Set {
    if dice.once_in(2) {
        found::make(&BY_WAY_OF, dice)
    } else {
        line(dice)
    }
}

/// Equal flows go against one another along a line, so that on every prefix they
/// meet at another node and step at other instants. Higher flows on one node of
/// the line or two carry steps from earlier nodes on to later ones.
fn line(dice: &mut Dice) -> Set {
    let line: Vec<i64> = (1..=dice.pick(2, 5)).collect();
    let back = line.iter().rev().copied().collect();
    let mut ways = vec![(1, line.clone()), (1, back)];
    if dice.once_in(3) {
        ways.push((1, piece(&line, dice)));
    }
    for _ in 0..dice.pick(1, 4) {
        ways.push((dice.pick(2, 3), one_or_two(&line, dice)));
    }
    // A share is what a flow takes of a node's time; all leave little of it.
    let shares: Vec<i64> = ways.iter().map(|_| dice.pick(1, 3)).collect();
    let all = shares.iter().sum::<i64>() * 100 / dice.pick(75, 98);
    let mut flows: Vec<Flow> = ways
        .into_iter()
        .zip(shares)
        .map(|((priority, path), share)| busy_flow(priority, path, (share, all), dice))
        .collect();
    if dice.once_in(4) {
        let path = piece(&line, dice);
        flows.push(busy_flow(0, path, (1, 20), dice));
    }
    dice.shuffle(&mut flows);
    for (number, flow) in (1..).zip(&mut flows) {
        flow.number = number;
    }
    let mut set = Set {
        links: links(dice, 2),
        flows,
    };
    cheapen(&mut set);
    set
}

/// A piece of the line, of two nodes or more, mostly backwards.
pub fn piece(line: &[i64], dice: &mut Dice) -> Vec<i64> {
    let length = dice.pick(2, line.len() as i64) as usize;
    let from = dice.index(line.len() + 1 - length);
    let mut path = line[from..from + length].to_vec();
    if !dice.once_in(5) {
        path.reverse();
    }
    path
}

/// Nothing lies between the two: such a flow leaves no path and comes back.
pub fn one_or_two(line: &[i64], dice: &mut Dice) -> Vec<i64> {
    let mut path = line.to_vec();
    dice.shuffle(&mut path);
    path.truncate(dice.pick(1, 2) as usize);
    path
}

/// A flow, not yet numbered, of a share (the first number) of all (the second).
fn busy_flow(priority: i64, path: Vec<i64>, share: (i64, i64), dice: &mut Dice) -> Flow {
    let cost = dice.pick(2, 5);
    Flow {
        number: 0,
        priority,
        period: cost * share.1 / share.0,
        jitter: dice.one_of(&[0, 0, 0, 1, 2, 7]),
        deadline: HORIZON,
        costs: path
            .iter()
            .map(|_| cost - i64::from(dice.once_in(4)))
            .collect(),
        path,
    }
}

/// A late set whose times are stretched, and then each changed by a little.
pub fn wide(dice: &mut Dice) -> Set {
    let mut set = late(dice);
    let longest = match judge_set(&set) {
        Ok(figures) => figures.iter().map(|f| f.bound).max().unwrap_or(1),
        Err(_) => 100,
    };
    let times = (dice.pick(8_000, 50_000) / longest).max(1);
    stretch(&mut set, times);
    let little = dice.one_of(&[0, 3, times / 10]);
    for flow in &mut set.flows {
        flow.period = (flow.period + dice.pick(0, little)).min(HORIZON);
        flow.jitter += dice.pick(0, little);
        for cost in &mut flow.costs {
            *cost = (*cost - dice.pick(0, little)).max(1);
        }
    }
    set
}

/// All times so many times as long, as far as the ranges go.
pub fn stretch(set: &mut Set, times: i64) {
    let longer = |time: &mut i64, most: i64| *time = (*time * times).min(most);
    longer(&mut set.links.least, SMALL);
    longer(&mut set.links.most, SMALL);
    for flow in &mut set.flows {
        longer(&mut flow.period, HORIZON);
        longer(&mut flow.jitter, HORIZON);
        for cost in &mut flow.costs {
            longer(cost, SMALL);
        }
    }
}
