//! Sets with bounds or busy lengths at the horizon or next to it.

use crate::dice::Dice;
use crate::flow::{Flow, Links, FLOWS, HORIZON, SMALL};
use crate::set::Set;
use crate::sets::{links, small};
use crate::verdict::judge_set;

/// Periods and jitters up to the horizon, small costs.
pub fn far_jitter(dice: &mut Dice) -> Set {
    let mut set = small(dice);
    for flow in &mut set.flows {
        flow.period = dice.pick(1_000, HORIZON);
        flow.jitter = dice.one_of(&[0, 1_000, 20_000, HORIZON]);
        flow.jitter = dice.pick(0, flow.jitter);
    }
    set
}

/// A flow below all others: its jitter moves its bound and nothing else, and is
/// chosen so that the bound falls at the horizon or next to it.
pub fn late_bound(dice: &mut Dice) -> Set {
    let mut set = small(dice);
    for flow in &mut set.flows {
        flow.priority = flow.priority.max(1);
    }
    let victim = dice.index(set.flows.len());
    set.flows[victim].priority = 0;
    set.flows[victim].jitter = 0;
    if let Ok(figures) = judge_set(&set) {
        let aim = HORIZON + dice.pick(-2, 2);
        set.flows[victim].jitter = (aim - figures[victim].bound).clamp(0, HORIZON);
    }
    set
}

/// A higher flow holds the first node for long and is gone at the second, so
/// that the response bound falls from the first node to the second. Jitter puts
/// the two on either side of the horizon, or next to it.
pub fn late_drop(dice: &mut Dice) -> Set {
    let links = links(dice, 4);
    let fall = dice.pick(1, 9);
    let (below, above) = ([dice.pick(3, 6), dice.pick(1, 3)], dice.pick(1, 3));
    let first = below[1].max(above) + links.most + fall;
    let flow = |number, costs: Vec<i64>| Flow {
        number,
        priority: number,
        period: 90,
        jitter: 0,
        deadline: HORIZON,
        path: vec![1, 2],
        costs,
    };
    let mut set = Set {
        links,
        flows: vec![flow(1, below.to_vec()), flow(2, vec![first, above])],
    };
    if let Ok(figures) = judge_set(&set) {
        set.flows[0].jitter = HORIZON - figures[0].bound - dice.pick(-1, fall + 1);
    }
    set
}

/// Long paths, great costs and great delays: 8 × 4,095 + 7 × 4,095 = 61,425.
/// Jitter brings the first flow's bound to the horizon or next to it.
pub fn long_bound(dice: &mut Dice) -> Set {
    let delay = dice.pick(3_000, SMALL);
    let count = dice.pick(1, 3);
    let flows = (1..=count).map(|number| long_flow(number, dice)).collect();
    let mut set = Set {
        links: Links {
            least: delay - dice.pick(0, 9),
            most: delay,
        },
        flows,
    };
    if let Ok(figures) = judge_set(&set) {
        let aim = HORIZON + dice.pick(-3, 3);
        set.flows[0].jitter = (aim - figures[0].bound).clamp(0, HORIZON);
    }
    set
}

fn long_flow(number: i64, dice: &mut Dice) -> Flow {
    let path: Vec<i64> = if number == 1 {
        (1..=8).collect()
    } else {
        vec![dice.pick(1, 8)]
    };
    Flow {
        number,
        priority: i64::from(dice.once_in(2)),
        period: HORIZON,
        jitter: 0,
        deadline: HORIZON,
        costs: path.iter().map(|_| dice.pick(1, 4) * 1_000).collect(),
        path,
    }
}

/// With T = C + 1 for one flow and cost c for a rare one, the busy length is
/// close to c × T, and c × T itself for the pairs below.
pub fn long_busy(dice: &mut Dice) -> Set {
    let period = dice.pick(40, 1_000);
    let near = (period, dice.pick(60_000, 66_000) / period);
    // 65,535 twice, 65,534 and 65,536.
    let exact = dice.one_of(&[(257, 255), (51, 1_285), (217, 302), (256, 256)]);
    let (period, rare) = if dice.once_in(2) { near } else { exact };
    let path: Vec<i64> = if dice.once_in(4) { vec![1, 2] } else { vec![1] };
    let flow = |number: i64, period: i64, cost: i64, dice: &mut Dice| Flow {
        number,
        priority: dice.pick(0, 1),
        period,
        jitter: dice.one_of(&[0, 1, 300]),
        deadline: HORIZON,
        path: path.clone(),
        costs: vec![cost; path.len()],
    };
    let flows = vec![
        flow(1, period, period - 1, dice),
        flow(2, HORIZON, rare, dice),
    ];
    Set {
        links: links(dice, 3),
        flows,
    }
}

/// Sixteen times 4,095 is 65,520. On a second node the bounds pass the horizon.
pub fn full_busy(dice: &mut Dice) -> Set {
    let levels = dice.pick(1, 8);
    let nodes = if dice.once_in(4) { dice.pick(2, 8) } else { 1 };
    let flows = (1..=FLOWS as i64)
        .map(|number| Flow {
            number,
            priority: dice.pick(1, levels),
            period: HORIZON - dice.pick(0, 9),
            jitter: dice.one_of(&[0, 0, 2]),
            deadline: HORIZON,
            path: (1..=nodes).collect(),
            costs: (0..nodes)
                .map(|_| SMALL - i64::from(dice.once_in(4)))
                .collect(),
        })
        .collect();
    Set {
        links: links(dice, 3),
        flows,
    }
}
