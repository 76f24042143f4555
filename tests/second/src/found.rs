//! Sets found by search, made again with a change or two.

use crate::dice::Dice;
use crate::flow::{Flow, Links, HORIZON};
use crate::set::Set;

/// Priority, T, J, path, costs.
pub type Row = (i64, i64, i64, &'static [i64], &'static [i64]);

/// A set: Lmin and Lmax, and the flows from number 1 on.
pub struct Found {
    pub links: (i64, i64),
    pub rows: &'static [Row],
}

/// One of the sets, as found or with a change or two.
pub fn make(list: &[Found], dice: &mut Dice) -> Set {
    let found = &list[dice.index(list.len())];
    let mut set = Set {
        links: Links {
            least: found.links.0,
            most: found.links.1,
        },
        flows: (1..)
            .zip(found.rows)
            .map(|(number, row)| flow(number, row))
            .collect(),
    };
    for _ in 0..dice.pick(0, 2) {
        change(&mut set, dice);
    }
    set
}

fn flow(number: i64, row: &Row) -> Flow {
    Flow {
        number,
        priority: row.0,
        period: row.1,
        jitter: row.2,
        deadline: HORIZON,
        path: row.3.to_vec(),
        costs: row.4.to_vec(),
    }
}

fn change(set: &mut Set, dice: &mut Dice) {
    let k = dice.index(set.flows.len());
    match dice.pick(0, 3) {
        0 => set.flows[k].jitter = (set.flows[k].jitter + dice.pick(-2, 2)).max(0),
        1 => set.flows[k].period += 1,
        2 => set.links.least = dice.pick(0, set.links.most),
        _ => set.flows[k].priority = dice.pick(1, 2),
    }
}
