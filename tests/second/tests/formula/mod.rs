//! The formula once more, as slowly and as near to the rules (RULES, starting
//! time) as can be: nothing is worked out ahead, W is looked for by trying 0, 1,
//! 2, ..., instants go on for three busy lengths, and arrival bounds are raised
//! one by one. It has to agree with the program on small sets; a set that turns
//! out to be long is left out.

// Each of the tests that share this file uses a part of the readings.
#![allow(dead_code)]

use second::busy::busy;
use second::dice::Dice;
use second::flow::{Flow, Links, HORIZON};
use second::set::Set;
use second::sets::{self, Recipe};
use second::verdict::{judge_set, Figures};
use std::collections::HashMap;

/// A starting time past this makes a set too long for the slow way.
const LONG: i64 = 250;

/// So do more rounds than this. Misread, arrival bounds may never come to rest.
const ROUNDS: usize = 2_000;

/// Number and flow of a refusal.
type Refused = (i64, i64);

/// S by flow number and node.
type Arrivals = HashMap<(i64, i64), i64>;

/// The rules as they are meant, or one place of them misread.
#[derive(Clone, Copy, Debug, PartialEq)]
pub enum Reading {
    Right,
    /// Term 1: l is the last in j's order, not in i's.
    LastOfTheOther,
    /// Term 2 without Smin(j,g).
    NoLeastArrival,
    /// Term 3: i's slowest cost on its whole path.
    OwnWholeCost,
    /// Term 4: all nodes but i's slowest on its whole path.
    OwnWholeNode,
    /// Term 1: V is W at the node before h where l is not h.
    StartJustBefore,
    /// Term 4: running along is judged on all of i's path.
    AlongWholePath,
    /// M: the costs of i alone.
    OwnProgress,
    /// No misreading: of the instants −J alone, and those at which the flow's
    /// own count steps up or an equal flow's does, on whichever prefix.
    EveryPrefix,
    /// Nor this: on the prefix at h and on those at the nodes whose starting
    /// times enter the sum at h, by themselves or by way of another.
    NamedPrefixes,
    /// Instants: the steps on the prefix at h and at the nodes that the sum at h
    /// itself names.
    DirectlyNamed,
    /// Instants: the steps on the prefix at h alone.
    ThisPrefix,
    /// Instants: the steps of the flow's own count alone.
    OwnSteps,
    /// Instants: an equal flow's step from 0 to 1 is left out.
    NoFirstStep,
    /// Instants: each step is taken a tick late.
    LateSteps,
}

struct Plain<'a> {
    set: &'a Set,
    reading: Reading,
    arrivals: Arrivals,
}

fn before(path: &[i64], node: i64) -> Vec<i64> {
    path.iter().copied().take_while(|n| *n != node).collect()
}

fn prefix(i: &Flow, h: i64) -> Vec<i64> {
    let mut out = before(&i.path, h);
    out.push(h);
    out
}

fn cost(j: &Flow, node: i64) -> i64 {
    let place = j
        .path
        .iter()
        .position(|n| *n == node)
        .expect("a node of the path");
    j.costs[place]
}

fn visits(j: &Flow, node: i64) -> bool {
    j.path.contains(&node)
}

fn first_of(path: &[i64], other: &[i64]) -> Option<i64> {
    path.iter().copied().find(|n| other.contains(n))
}

fn count(x: i64, t: i64) -> i64 {
    // div_euclid by a positive number goes towards minus infinity.
    (1 + x.div_euclid(t)).max(0)
}

fn runs_along(j: &Flow, prefix: &[i64]) -> bool {
    match (first_of(&j.path, prefix), first_of(prefix, &j.path)) {
        (Some(a), Some(b)) => a == b,
        _ => false,
    }
}

fn slowest(j: &Flow, prefix: &[i64]) -> i64 {
    prefix
        .iter()
        .filter(|n| visits(j, **n))
        .map(|n| cost(j, *n))
        .max()
        .expect("a crossing flow")
}

/// The earliest node with the slowest cost.
fn slowest_node(i: &Flow, prefix: &[i64]) -> i64 {
    let slow = prefix
        .iter()
        .find(|n| cost(i, **n) == slowest(i, prefix))
        .expect("a node of the path");
    *slow
}

impl Plain<'_> {
    fn urgent<'b>(&'b self, i: &'b Flow) -> impl Iterator<Item = &'b Flow> {
        let others = self.set.flows.iter();
        others.filter(|j| j.number != i.number && j.priority >= i.priority)
    }

    fn smin(&self, j: &Flow, h: i64) -> i64 {
        before(&j.path, h)
            .iter()
            .map(|n| cost(j, *n) + self.set.links.least)
            .sum()
    }

    fn s(&self, j: &Flow, h: i64) -> i64 {
        self.arrivals.get(&(j.number, h)).copied().unwrap_or(0)
    }

    fn m(&self, i: &Flow, h: i64) -> i64 {
        let least = |k: i64| {
            let along = self
                .urgent(i)
                .filter(|j| visits(j, k) && runs_along(j, &i.path))
                .filter(|_| self.reading != Reading::OwnProgress)
                .map(|j| cost(j, k));
            along.chain([cost(i, k)]).min().expect("i itself")
        };
        before(&i.path, h)
            .iter()
            .map(|k| self.set.links.least + least(*k))
            .sum()
    }

    fn a(&self, i: &Flow, j: &Flow) -> i64 {
        let f = first_of(&i.path, &j.path).expect("a crossing flow");
        self.s(j, f) - self.m(i, f) + j.jitter
    }

    /// W is sought at h; `earlier` has V for the nodes l that are not h.
    fn sum(&self, i: &Flow, h: i64, t: i64, w: i64, earlier: &HashMap<i64, i64>) -> i64 {
        let prefix = prefix(i, h);
        let mut sum = 0;
        for j in self
            .urgent(i)
            .filter(|j| first_of(&j.path, &prefix).is_some())
        {
            let packets = if j.priority > i.priority {
                let l = self.last(j, &prefix);
                let v = if l == h { w } else { earlier[&l] };
                count(v - self.smin(j, l) + self.a(i, j), j.period)
            } else {
                self.equal_count(i, j, &prefix, t)
            };
            sum += packets * slowest(j, &prefix);
        }
        let own = match self.reading {
            Reading::OwnWholeCost => slowest(i, &i.path),
            _ => slowest(i, &prefix),
        };
        sum += count(t + i.jitter, i.period) * own;
        let slow = match self.reading {
            Reading::OwnWholeNode => slowest_node(i, &i.path),
            _ => slowest_node(i, &prefix),
        };
        let ground = match self.reading {
            Reading::AlongWholePath => &i.path,
            _ => &prefix,
        };
        for k in prefix.iter().filter(|k| **k != slow) {
            let along = self
                .urgent(i)
                .filter(|j| visits(j, *k) && runs_along(j, ground))
                .map(|j| cost(j, *k));
            sum += along.chain([cost(i, *k)]).max().expect("i itself");
        }
        for k in &prefix {
            let lower = self
                .set
                .flows
                .iter()
                .filter(|j| j.priority < i.priority && visits(j, *k));
            sum += lower.map(|j| cost(j, *k) - 1).max().unwrap_or(0);
        }
        sum + (prefix.len() as i64 - 1) * self.set.links.most - cost(i, h)
    }

    /// Term 2's count.
    fn equal_count(&self, i: &Flow, j: &Flow, prefix: &[i64], t: i64) -> i64 {
        let g = first_of(&j.path, prefix).expect("a crossing flow");
        let least = match self.reading {
            Reading::NoLeastArrival => 0,
            _ => self.smin(j, g),
        };
        count(t + self.s(i, g) - least + self.a(i, j), j.period)
    }

    /// l: the last node of the prefix that j visits.
    fn last(&self, j: &Flow, prefix: &[i64]) -> i64 {
        let last = match self.reading {
            Reading::LastOfTheOther => j.path.iter().rev().find(|n| prefix.contains(n)),
            _ => prefix.iter().rev().find(|n| visits(j, **n)),
        };
        *last.expect("a crossing flow")
    }

    /// V where l is not h.
    fn v(&self, i: &Flow, l: i64, h: i64, t: i64) -> Option<i64> {
        match self.reading {
            Reading::StartJustBefore => {
                let earlier = before(&i.path, h);
                self.w(i, earlier[earlier.len() - 1], t)
            }
            _ => self.w(i, l, t),
        }
    }

    fn w(&self, i: &Flow, h: i64, t: i64) -> Option<i64> {
        let starts = |l: i64| Some((l, self.v(i, l, h, t)?));
        let earlier: Option<HashMap<i64, i64>> = self.named(i, h).into_iter().map(starts).collect();
        let earlier = earlier?;
        (0..LONG).find(|w| self.sum(i, h, t, *w, &earlier) == *w)
    }

    /// The nodes before h whose starting times the sum at h names.
    fn named(&self, i: &Flow, h: i64) -> Vec<i64> {
        let prefix = prefix(i, h);
        self.urgent(i)
            .filter(|j| j.priority > i.priority && first_of(&j.path, &prefix).is_some())
            .map(|j| self.last(j, &prefix))
            .filter(|l| *l != h)
            .collect()
    }

    /// h, the nodes that its sum names, those that their sums name, and so on.
    fn reached(&self, i: &Flow, h: i64) -> Vec<i64> {
        let mut out = vec![h];
        for l in self.named(i, h) {
            out.extend(self.reached(i, l));
        }
        out
    }

    /// The nodes on whose prefixes the steps of equal flows' counts are tried for
    /// the response bound at h; None: every tick is tried.
    fn nodes_with_steps(&self, i: &Flow, h: i64) -> Option<Vec<i64>> {
        match self.reading {
            Reading::EveryPrefix | Reading::NoFirstStep | Reading::LateSteps => {
                Some(i.path.clone())
            }
            Reading::NamedPrefixes => Some(self.reached(i, h)),
            Reading::DirectlyNamed => Some([self.named(i, h), vec![h]].concat()),
            Reading::ThisPrefix => Some(vec![h]),
            Reading::OwnSteps => Some(Vec::new()),
            _ => None,
        }
    }

    /// On the prefix at h an equal flow's count is greater at t than a tick before.
    fn equal_steps(&self, i: &Flow, h: i64, t: i64) -> bool {
        let prefix = prefix(i, h);
        self.urgent(i)
            .filter(|j| j.priority == i.priority && first_of(&j.path, &prefix).is_some())
            .any(|j| {
                let before = self.equal_count(i, j, &prefix, t - 1);
                let first = before == 0 && self.reading == Reading::NoFirstStep;
                self.equal_count(i, j, &prefix, t) > before && !first
            })
    }

    /// Some count steps up at t: the flow's own, or an equal flow's.
    fn steps(&self, i: &Flow, nodes: &[i64], t: i64) -> bool {
        let own = |t: i64| count(t + i.jitter, i.period);
        own(t) > own(t - 1) || nodes.iter().any(|h| self.equal_steps(i, *h, t))
    }

    fn instants(&self, i: &Flow, h: i64, busy: i64) -> Vec<i64> {
        let first = -i.jitter;
        let ticks = first..first + 3 * busy;
        let Some(nodes) = self.nodes_with_steps(i, h) else {
            return ticks.collect();
        };
        let late = i64::from(self.reading == Reading::LateSteps);
        ticks
            .filter(|t| *t == first || t - late > first && self.steps(i, &nodes, t - late))
            .collect()
    }

    fn response(&self, i: &Flow, h: i64, busy: i64) -> Option<i64> {
        let instants = self.instants(i, h, busy).into_iter();
        let responses: Option<Vec<i64>> = instants
            .map(|t| Some(self.w(i, h, t)? + cost(i, h) - t))
            .collect();
        responses?.into_iter().max()
    }

    /// Raises arrival bounds flow by flow and node by node until none moves.
    /// False: a response bound passes the horizon.
    fn settle(&mut self, busy: &HashMap<i64, i64>) -> Option<bool> {
        for _ in 0..ROUNDS {
            let mut moved = false;
            for i in &self.set.flows {
                for place in 0..i.path.len() {
                    let response = self.response(i, i.path[place], busy[&i.number])?;
                    if response > HORIZON {
                        return Some(false);
                    }
                    if let Some(node) = i.path.get(place + 1) {
                        let next = response + self.set.links.most;
                        moved |= self.arrivals.insert((i.number, *node), next) != Some(next);
                    }
                }
            }
            if !moved {
                return Some(true);
            }
        }
        None
    }

    fn busy(&self, i: &Flow) -> Option<i64> {
        let crossing: Vec<&Flow> = self
            .urgent(i)
            .filter(|j| first_of(&j.path, &i.path).is_some())
            .chain([i])
            .collect();
        (1..=HORIZON).find(|b| {
            let load = |j: &&Flow| (b + j.period - 1) / j.period * slowest(j, &i.path);
            crossing.iter().map(load).sum::<i64>() == *b
        })
    }

    /// Refusal 7's test, pair by pair and node by node.
    fn left_and_met_again(&self, i: &Flow) -> bool {
        let others = self.set.flows.iter().filter(|j| j.priority >= i.priority);
        others.into_iter().any(|j| {
            let n = j.path.len();
            (0..n).any(|a| {
                (a..n).any(|c| {
                    visits(i, j.path[a])
                        && visits(i, j.path[c])
                        && (a..c).any(|b| !visits(i, j.path[b]))
                })
            })
        })
    }
}

/// None: the set is too long.
pub fn figures(set: &Set, reading: Reading) -> Option<Result<Vec<Figures>, Refused>> {
    let mut plain = Plain {
        set,
        reading,
        arrivals: Arrivals::new(),
    };
    if let Some(i) = set.flows.iter().find(|i| plain.left_and_met_again(i)) {
        return Some(Err((7, i.number)));
    }
    let mut busy = HashMap::new();
    for i in &set.flows {
        match plain.busy(i) {
            Some(length) => busy.insert(i.number, length),
            None => return Some(Err((8, i.number))),
        };
    }
    if !plain.settle(&busy)? {
        return Some(Err((9, 0)));
    }
    let of = |i: &Flow| {
        let last = i.path[i.path.len() - 1];
        let bound = plain.response(i, last, busy[&i.number])?;
        let least = plain.smin(i, last) + cost(i, last);
        Some(Figures {
            number: i.number,
            bound,
            jitter: bound - least,
            busy: busy[&i.number],
        })
    };
    let all: Vec<Figures> = set.flows.iter().map(of).collect::<Option<_>>()?;
    match set
        .flows
        .iter()
        .zip(&all)
        .find(|(i, f)| f.bound > i.deadline)
    {
        Some((i, _)) => Some(Err((10, i.number))),
        None => Some(Ok(all)),
    }
}

/// Small enough for the slow way.
pub fn easy(set: &Set) -> bool {
    let work = |i: usize| busy(set, i).unwrap_or(0) * set.flows[i].path.len() as i64;
    set.flows.len() <= 5
        && set.links.most <= 9
        && set.flows.iter().all(|f| f.path.len() <= 4)
        && (0..set.flows.len()).all(|i| work(i) <= 40)
}

/// Read so, sets of the recipe get the figures or the refusal that the program
/// gives them.
pub fn agree(recipe: Recipe, reading: Reading, seed: u64, times: usize) {
    let mut dice = Dice::new(seed);
    let mut tried = 0;
    while tried < times {
        let mut set = sets::make(recipe, &mut dice);
        if dice.once_in(4) {
            let k = dice.index(set.flows.len());
            set.flows[k].deadline = dice.pick(1, 60);
        }
        if !easy(&set) {
            continue;
        }
        let Some(wanted) = figures(&set, reading) else {
            continue;
        };
        tried += 1;
        let given = judge_set(&set).map_err(|r| (r.number, r.flow));
        assert_eq!(given, wanted, "{reading:?}: {set:?}");
    }
}

/// Number, priority, T, J, path, costs.
type Row = (i64, i64, i64, i64, &'static [i64], &'static [i64]);

/// Lmin and Lmax; deadlines are out of the way.
pub fn set(least: i64, most: i64, rows: &[Row]) -> Set {
    let flow = |r: &Row| Flow {
        number: r.0,
        priority: r.1,
        period: r.2,
        jitter: r.3,
        deadline: 1_000,
        path: r.4.to_vec(),
        costs: r.5.to_vec(),
    };
    Set {
        links: Links { least, most },
        flows: rows.iter().map(flow).collect(),
    }
}

/// Bound, jitter, busy.
type Three = (i64, i64, i64);

/// The program and the slow way give the figures; the reading, if the set is
/// read so, gives other bounds.
pub fn tells_apart<const N: usize>(set: &Set, right: [Three; N], readings: &[(Reading, [i64; N])]) {
    let threes = |all: &[Figures]| -> Vec<Three> {
        all.iter().map(|f| (f.bound, f.jitter, f.busy)).collect()
    };
    let given = judge_set(set).expect("a set with figures");
    assert_eq!(threes(&given), right);
    assert_eq!(figures(set, Reading::Right), Some(Ok(given)));
    for (reading, wrong) in readings {
        let misread = figures(set, *reading).expect("a short set");
        let misread = misread.expect("a set with figures");
        let bounds: Vec<i64> = misread.iter().map(|f| f.bound).collect();
        assert_eq!(bounds, wrong, "{reading:?}");
        assert_ne!(threes(&misread), right, "{reading:?}");
    }
}
