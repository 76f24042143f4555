//! The fixed plans, and generated ones that are the same in every run.
use crate::plain::{self, Counts, Walk};

struct Flow {
    number: u8,
    priority: u8,
    period: u16,
    jitter: u16,
    path: Vec<(u8, u16)>,
}

/// Plans that are told of together: one, or the generated ones.
pub struct Group {
    pub name: &'static str,
    pub plans: Vec<Vec<u8>>,
    /// The other walks that are counted: those that take no minutes.
    pub beside: &'static [Walk],
    /// Whether a library with full scans alone ends in minutes.
    pub before: bool,
}

fn bytes(lmin: u16, lmax: u16, flows: &[Flow]) -> Vec<u8> {
    let mut out = vec![1];
    out.extend(lmin.to_be_bytes());
    out.extend(lmax.to_be_bytes());
    for f in flows {
        out.extend([2, f.number, f.priority]);
        out.extend(f.period.to_be_bytes());
        out.extend(f.jitter.to_be_bytes());
        out.extend(65535u16.to_be_bytes());
        out.push(f.path.len() as u8);
        for k in 0..8 {
            out.push(f.path.get(k).map_or(0, |h| h.0));
        }
        for k in 0..8 {
            out.extend(f.path.get(k).map_or(0, |h| h.1).to_be_bytes());
        }
    }
    out.push(0x7f);
    out
}

/// Sixteen flows over the same eight nodes, busy for 58,400 ticks.
fn hall(priorities: u8, reversed: bool) -> Vec<u8> {
    let flows: Vec<Flow> = (0..16u8)
        .map(|a| {
            let (period, cost) = if a % 2 == 0 {
                (20000, 1300)
            } else {
                (30000, 1700)
            };
            let back = reversed && a % 2 == 1;
            let path = (1..=8)
                .map(|h| (if back { 9 - h } else { h }, cost))
                .collect();
            Flow {
                number: a + 1,
                priority: a % priorities,
                period,
                jitter: 0,
                path,
            }
        })
        .collect();
    bytes(1, 2, &flows)
}

/// The hall with sixteen different paths: each flow comes to the eight nodes over up to three nodes of its own, and leaves them for as many.
fn branches(priorities: u8) -> Vec<u8> {
    let flow = |a: u8| {
        let (period, cost) = if a % 2 == 0 {
            (20000, 1100)
        } else {
            (30000, 1400)
        };
        let (before, behind) = (a % 4, a / 4);
        let node = |h: u8| {
            if h <= before || h > 8 - behind {
                10 + 8 * a + h
            } else {
                h
            }
        };
        Flow {
            number: a + 1,
            priority: a % priorities,
            period,
            jitter: 0,
            path: (1..=8).map(|h| (node(h), cost)).collect(),
        }
    };
    let flows: Vec<Flow> = (0..16).map(flow).collect();
    bytes(1, 2, &flows)
}

/// Urgent flows, and others of this cost and period over the same eight nodes, every second one backwards. At a load of 1, or nearly, the
/// bounds of flows that go against each other rise by little at a turn, until one passes the horizon.
fn against(urgent: u8, others: u8, cost: u16, period: u16) -> Vec<u8> {
    let flow = |a: u8| {
        let other = a >= urgent;
        let back = other && a % 2 == 1;
        let (cost, period) = if other { (cost, period) } else { (10, 283) };
        Flow {
            number: a + 1,
            priority: !other as u8,
            period,
            jitter: 0,
            path: (1..=8)
                .map(|h| (if back { 9 - h } else { h }, cost))
                .collect(),
        }
    };
    let flows: Vec<Flow> = (0..urgent + others).map(flow).collect();
    bytes(1, 2, &flows)
}

/// Sixteen flows of two nodes each, in a ring: a change goes round and round it, and raises each bound by little. With the numbers, or against them.
fn ring(cost: u16, against: bool) -> Vec<u8> {
    let flow = |a: u8| {
        let (here, next) = ((a + 1, cost), ((a + 1) % 16 + 1, cost));
        Flow {
            number: a + 1,
            priority: 0,
            period: 3 * cost,
            jitter: (a == 0) as u16,
            path: if against {
                vec![next, here]
            } else {
                vec![here, next]
            },
        }
    };
    let flows: Vec<Flow> = (0..16).map(flow).collect();
    bytes(0, cost, &flows)
}

/// Sixteen flows along a line, each of which begins a node after the one before.
fn line(priorities: u8) -> Vec<u8> {
    let flow = |a: u8| {
        let (period, cost) = if a % 2 == 0 {
            (20000, 600)
        } else {
            (30000, 700)
        };
        Flow {
            number: a + 1,
            priority: a % priorities,
            period,
            jitter: 0,
            path: (1..=8).map(|h| (a + h, cost)).collect(),
        }
    };
    let flows: Vec<Flow> = (0..16).map(flow).collect();
    bytes(1, 2, &flows)
}

fn one() -> Vec<u8> {
    let flow = Flow {
        number: 1,
        priority: 0,
        period: 20000,
        jitter: 100,
        path: (1..=8).map(|h| (h, 4000)).collect(),
    };
    bytes(1, 2, &[flow])
}

/// Sixteen flows with a step at nearly every tick: half of them backwards, so that counts step at other instants at each node.
fn dense() -> Vec<u8> {
    let flow = |a: u8| Flow {
        number: a + 1,
        priority: 0,
        period: 10 + a as u16,
        jitter: a as u16 * 7 % 23,
        path: (1..=8)
            .map(|h| (if a < 8 { 9 - h } else { h }, 1))
            .collect(),
    };
    let flows: Vec<Flow> = (0..16).map(flow).collect();
    bytes(1, 2, &flows)
}

/// Three flows of small periods over seven nodes in different orders, and others that bring the load at one node to nearly 1: every tick is a step, and a
/// bound rises by little at each of tens of thousands of turns. The first five of these flows, or all six.
fn tight(flows: usize) -> Vec<u8> {
    let all: [(u16, u16, &[u8]); 6] = [
        (3, 1, &[2, 6, 5, 7, 4, 1, 3]),
        (3, 1, &[6, 1, 5, 2, 7, 3, 4]),
        (4, 1, &[7, 5, 2, 3, 1, 6, 4]),
        (13, 1, &[1]),
        (157, 1, &[1]),
        (65535, 2, &[1]),
    ];
    let flow = |(number, &(period, cost, nodes)): (u8, &(u16, u16, &[u8]))| Flow {
        number,
        priority: 0,
        period,
        jitter: 0,
        path: nodes.iter().map(|&h| (h, cost)).collect(),
    };
    let flows: Vec<Flow> = (1..).zip(&all[..flows]).map(flow).collect();
    bytes(1, 1, &flows)
}

/// A plan that bench/search found.
fn found(plan: &[u8]) -> Vec<u8> {
    plan.to_vec()
}

/// A generator (xorshift), from its seed on.
pub struct Chance(pub u64);

impl Chance {
    /// A number from the least to the greatest.
    pub fn pick(&mut self, least: u64, greatest: u64) -> u64 {
        self.0 ^= self.0 << 13;
        self.0 ^= self.0 >> 7;
        self.0 ^= self.0 << 17;
        least + (self.0 >> 32) % (greatest - least + 1)
    }

    fn short(&mut self, least: u16, greatest: u16) -> u16 {
        self.pick(least.into(), greatest.into()) as u16
    }
}

/// A run of successive nodes of a line of twelve, forwards or backwards: such paths cross as they may.
fn stretch(chance: &mut Chance, dearest: u16) -> Vec<(u8, u16)> {
    let length = chance.short(2, 8);
    let first = chance.short(1, 13 - length);
    let mut path: Vec<(u8, u16)> = (first..first + length)
        .map(|h| (h as u8, chance.short(1, dearest)))
        .collect();
    if chance.short(0, 1) == 1 {
        path.reverse();
    }
    path
}

/// A plan with long periods. The load is chosen for the whole, so that busy lengths are thousands of ticks whether flows are few or many.
fn wide_plan(chance: &mut Chance) -> Vec<u8> {
    let flows = chance.short(4, 16);
    let priorities = chance.short(1, 3);
    let dearest = (chance.short(10000, 40000) / flows).min(4095);
    let flow = |a: u16| Flow {
        number: a as u8 + 1,
        priority: (chance.short(1, priorities) - 1) as u8,
        period: chance.short(5000, 65535),
        jitter: chance.short(0, 3000),
        path: stretch(chance, dearest),
    };
    let flows: Vec<Flow> = (0..flows).map(flow).collect();
    bytes(1, 20, &flows)
}

fn has_busy_lengths(plan: &[u8]) -> bool {
    let set = plain::read(plan).expect("a generated plan is well formed");
    let verdict = plain::judge(&plain::prepare(&set), Walk::Near, &mut Counts::default());
    verdict.answer % 256 != 8
}

fn wide() -> Vec<Vec<u8>> {
    let mut chance = Chance(0x9e3779b97f4a7c15);
    std::iter::repeat_with(|| wide_plan(&mut chance))
        .filter(|plan| has_busy_lengths(plan))
        .take(60)
        .collect()
}

fn single(name: &'static str, plan: Vec<u8>) -> Group {
    Group {
        name,
        plans: vec![plan],
        beside: &[Walk::Steps, Walk::Ticks],
        before: true,
    }
}

pub fn all() -> Vec<Group> {
    vec![
        single("hall, three priorities", hall(3, false)),
        single("hall, one priority", hall(1, false)),
        single("hall, sixteen paths, three priorities", branches(3)),
        single("hall, sixteen paths, one priority", branches(1)),
        single("ring that settles slowly", ring(50, false)),
        single("hall, half of the paths reversed", hall(1, true)),
        single("sixteen, eight against eight", against(0, 16, 20, 320)),
        single(
            "two against each other, below fourteen",
            against(14, 2, 50, 200),
        ),
        single("four, two against two", against(0, 4, 50, 200)),
        single("one flow", one()),
        single("line, three priorities", line(3)),
        single("line, one priority", line(1)),
        single("a step at nearly every tick", dense()),
        Group {
            name: "wide generated ones",
            plans: wide(),
            beside: &[Walk::Steps, Walk::Ticks],
            before: true,
        },
        Group {
            beside: &[Walk::Steps],
            ..single("ring of 16, slow", ring(4095, false))
        },
        Group {
            beside: &[Walk::Steps],
            ..single("ring of 16, against its numbers", ring(4095, true))
        },
        Group {
            beside: &[Walk::Steps],
            ..single("five flows, tight", tight(5))
        },
        Group {
            beside: &[],
            ..single("six flows, tight", tight(6))
        },
        Group {
            beside: &[],
            ..single(
                "thirteen, found by a search",
                found(include_bytes!("../found/thirteen.plan")),
            )
        },
        Group {
            beside: &[],
            ..single(
                "sixteen, found by a search",
                found(include_bytes!("../found/sixteen.plan")),
            )
        },
        Group {
            beside: &[],
            before: false,
            ..single(
                "sixteen of three priorities, found by a search",
                found(include_bytes!("../found/priorities.plan")),
            )
        },
    ]
}
