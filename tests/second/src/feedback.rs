//! Sets whose flows feed one another, or meet in ways that only some prefixes
//! see.

use crate::dice::Dice;
use crate::flow::{Flow, HORIZON};
use crate::set::Set;
use crate::sets::{cheapen, links};

/// Flow a on the nodes a and a + 1 of a ring, with costs alike, a period that
/// is a small multiple of them, and one tick of jitter for the first alone.
pub fn ring(dice: &mut Dice) -> Set {
    let nodes = if dice.once_in(2) { 2 } else { dice.pick(3, 16) };
    let cost = dice.one_of(&[1, 2, 3, 5, 9, 20, 50]);
    let period = cost * dice.pick(2, 4) + dice.one_of(&[0, 0, 0, 1]);
    let flows = (1..=nodes)
        .map(|a| Flow {
            number: a,
            priority: 1,
            period,
            jitter: i64::from(a == 1),
            deadline: HORIZON,
            path: vec![a, a % nodes + 1],
            costs: vec![cost, cost],
        })
        .collect();
    Set {
        links: links(dice, 2),
        flows,
    }
}

/// Each flow visits all nodes, so that none leaves another's path.
pub fn knot(dice: &mut Dice) -> Set {
    let count = dice.pick(2, 4);
    let cost = dice.pick(1, 4);
    let mut order: Vec<i64> = (1..=dice.pick(3, 5)).collect();
    let flows = (1..=count)
        .map(|number| {
            dice.shuffle(&mut order);
            Flow {
                number,
                priority: i64::from(!dice.once_in(8)),
                period: count * cost + dice.pick(0, 4),
                jitter: dice.pick(0, 9),
                deadline: HORIZON,
                path: order.clone(),
                costs: order
                    .iter()
                    .map(|_| (cost - dice.pick(0, 1)).max(1))
                    .collect(),
            }
        })
        .collect();
    Set {
        links: links(dice, 3),
        flows,
    }
}

/// The short flows have one node or two, so that nothing of them lies between.
/// The second flow goes back along the long path and so runs along it on a
/// prefix alone; the third, often sent, is on a node between its two.
pub fn back(dice: &mut Dice) -> Set {
    let nodes = dice.pick(3, 6);
    let long: Vec<i64> = (1..=nodes).collect();
    let to = dice.pick(1, nodes - 2);
    let from = dice.pick(to + 2, nodes);
    let between = dice.pick(to + 1, from - 1);
    let mut flows = vec![
        plain_flow(1, 0, 60, &long, 9, dice),
        plain_flow(2, 2, 60, &[from, to], 2, dice),
        plain_flow(3, dice.pick(1, 3), dice.pick(3, 8), &[between], 2, dice),
    ];
    for number in 4..4 + dice.pick(0, 3) {
        let mut path = long.clone();
        dice.shuffle(&mut path);
        path.truncate(dice.pick(1, 2) as usize);
        flows.push(plain_flow(number, dice.pick(1, 3), 30, &path, 3, dice));
    }
    let mut set = Set {
        links: links(dice, 3),
        flows,
    };
    cheapen(&mut set);
    set
}

fn plain_flow(
    number: i64,
    priority: i64,
    period: i64,
    path: &[i64],
    cost: i64,
    dice: &mut Dice,
) -> Flow {
    Flow {
        number,
        priority,
        period,
        jitter: dice.one_of(&[0, 0, 0, 5]),
        deadline: HORIZON,
        path: path.to_vec(),
        costs: path.iter().map(|_| dice.pick(1, cost)).collect(),
    }
}
