//! search SECONDS SEED: looks for plans that take long to judge. It changes a plan at random and keeps what takes no less work, from random plans and those
//! of the bench. Whatever is worse than all before is told at once: the work, the plain program's time, full scans, looks near peaks, sums, and the plan's
//! bytes.
#![allow(dead_code)]
#[path = "../plain.rs"]
mod plain;
#[path = "../plans.rs"]
mod plans;

use plain::{Counts, Flow, Set, Walk};
use plans::Chance;
use std::time::{Duration, Instant};

const DEAREST: u64 = 4095;
const LONGEST: u64 = 65535;
/// The sums after which a plan is given up, and counts as if it ended there.
const MOST: u64 = 1_000_000_000;
/// Changes without gain after which the search starts again.
const PATIENCE: u32 = 400;

impl Chance {
    fn one_in(&mut self, n: u64) -> bool {
        self.pick(1, n) == 1
    }

    fn index<T>(&mut self, of: &[T]) -> usize {
        self.pick(0, of.len() as u64 - 1) as usize
    }

    fn shuffle<T>(&mut self, items: &mut [T]) {
        for k in (1..items.len()).rev() {
            items.swap(k, self.pick(0, k as u64) as usize);
        }
    }

    /// Each order of magnitude is as likely as another.
    fn spread(&mut self, least: u64, greatest: u64) -> u64 {
        let bits = self.pick(0, (greatest / least).ilog2() as u64);
        let top = (least << (bits + 1)) - 1;
        self.pick(least << bits, top.min(greatest))
    }
}

type Path = Vec<(u8, u64)>;

fn path(f: &Flow) -> Path {
    let hops = f.nodes.into_iter().zip(f.costs);
    hops.take(f.length).collect()
}

fn lay(f: &mut Flow, path: &[(u8, u64)]) {
    f.length = path.len();
    (f.nodes, f.costs) = Default::default();
    for (k, &hop) in path.iter().enumerate() {
        (f.nodes[k], f.costs[k]) = hop;
    }
}

fn bytes(set: &Set) -> Vec<u8> {
    let word = |x: u64| (x as u16).to_be_bytes();
    let mut out = vec![1];
    out.extend([set.lmin, set.lmax].map(word).as_flattened());
    for f in &set.flows {
        out.extend([2, f.number, f.priority]);
        out.extend([f.period, f.jitter, f.deadline].map(word).as_flattened());
        out.push(f.length as u8);
        out.extend(f.nodes);
        out.extend(f.costs.map(word).as_flattened());
    }
    out.push(0x7f);
    out
}

fn hex(set: &Set) -> String {
    bytes(set).iter().map(|b| format!("{b:02x}")).collect()
}

fn number(set: &mut Set) {
    for (f, number) in set.flows.iter_mut().zip(1..) {
        f.number = number;
    }
}

/// What random plans are drawn from.
struct Taste {
    nodes: u64,
    levels: u64,
    dearest: u64,
    shortest: u64,
    longest: u64,
    /// Each path is a permutation of all nodes, instead of a run of successive ones on a line or a ring.
    permuted: bool,
    ring: bool,
}

fn taste(chance: &mut Chance) -> Taste {
    let (shortest, longest) =
        [(2, 20), (20, 1000), (1000, LONGEST), (2, LONGEST)][chance.pick(0, 3) as usize];
    let permuted = chance.one_in(2);
    Taste {
        nodes: chance.pick(1, if permuted { 8 } else { 10 }),
        levels: [1, 1, 2, 3][chance.pick(0, 3) as usize],
        dearest: [1, 4, longest.min(DEAREST)][chance.pick(0, 2) as usize],
        shortest,
        longest,
        permuted,
        ring: chance.one_in(3),
    }
}

fn random_path(chance: &mut Chance, taste: &Taste) -> Path {
    let n = taste.nodes;
    let mut nodes: Vec<u64> = (1..=n).collect();
    if taste.permuted {
        chance.shuffle(&mut nodes);
        if chance.one_in(4) {
            nodes.truncate(1);
        }
    } else {
        let length = chance.pick(1, n.min(8));
        let first = chance.pick(0, if taste.ring { n - 1 } else { n - length });
        nodes = (first..first + length).map(|h| h % n + 1).collect();
        if chance.one_in(2) {
            nodes.reverse();
        }
    }
    let cost = chance.spread(1, taste.dearest);
    let even = chance.one_in(2);
    let mut hop = |node| {
        let cost = if even {
            cost
        } else {
            chance.spread(1, taste.dearest)
        };
        (node as u8, cost)
    };
    nodes.into_iter().map(&mut hop).collect()
}

fn random_flow(chance: &mut Chance, taste: &Taste) -> Flow {
    let mut f = Flow {
        priority: chance.pick(1, taste.levels) as u8,
        period: chance.spread(taste.shortest, taste.longest),
        jitter: if chance.one_in(5) {
            chance.spread(1, taste.longest)
        } else {
            0
        },
        deadline: LONGEST,
        ..Flow::default()
    };
    lay(&mut f, &random_path(chance, taste));
    f
}

/// What a packet of j adds to the busy length of i at most.
fn weight(i: &Flow, j: &Flow) -> u64 {
    let shared = path(j)
        .into_iter()
        .filter(|(node, _)| path(i).iter().any(|(n, _)| n == node));
    shared.map(|(_, cost)| cost).max().unwrap_or(0)
}

/// Sets the period of flow b so that the load on the path of a flow is just below 1, which makes for a long busy length.
fn fill(chance: &mut Chance, set: &mut Set, b: usize) {
    let i = set.flows[chance.index(&set.flows)];
    let share = |j: &Flow| weight(&i, j) as f64 / j.period as f64;
    let others = set.flows.iter().enumerate();
    let rest: f64 = others
        .filter(|(c, j)| *c != b && j.priority >= i.priority)
        .map(|(_, j)| share(j))
        .sum();
    let own = weight(&i, &set.flows[b]) as f64;
    if rest < 1.0 && own > 0.0 {
        let least = (own / (1.0 - rest)).ceil() as u64;
        set.flows[b].period = (least + chance.pick(0, 2)).clamp(1, LONGEST);
    }
}

fn random_set(chance: &mut Chance) -> Set {
    let taste = taste(chance);
    let flows = chance.pick(2, 16);
    let lmax = chance.spread(1, 16) - 1;
    let mut set = Set {
        lmin: chance.pick(0, lmax),
        lmax,
        flows: (0..flows).map(|_| random_flow(chance, &taste)).collect(),
    };
    // Flows are dropped until there is room for the last one, and it takes what is left.
    while set.flows.len() > 2 && overloaded(&set) {
        set.flows.pop();
    }
    let last = set.flows.len() - 1;
    if !chance.one_in(3) {
        fill(chance, &mut set, last);
    }
    set
}

fn overloaded(set: &Set) -> bool {
    let load = |i: &Flow| -> f64 {
        let counted = set.flows.iter().filter(|j| j.priority >= i.priority);
        counted.map(|j| weight(i, j) as f64 / j.period as f64).sum()
    };
    set.flows.iter().any(|i| load(i) >= 1.0)
}

fn near(chance: &mut Chance, x: u64, least: u64, greatest: u64) -> u64 {
    let y = match chance.pick(0, 5) {
        0 => x + 1,
        1 => x.saturating_sub(1),
        2 => x / 2,
        3 => x * 2,
        4 => x + chance.spread(1, 64),
        _ => chance.spread(1, greatest),
    };
    y.clamp(least, greatest)
}

fn change_path(chance: &mut Chance, set: &mut Set, b: usize) {
    let mut hops = path(&set.flows[b]);
    let other = path(&set.flows[chance.index(&set.flows)]);
    let at = chance.index(&hops);
    match chance.pick(0, 7) {
        0 => {
            let with = chance.index(&hops);
            hops.swap(at, with);
        }
        1 => hops.reverse(),
        2 => hops.rotate_left(at),
        3 => hops.truncate(at + 1),
        4 => drop(hops.drain(..at)),
        5 => chance.shuffle(&mut hops),
        6 => hops = other,
        _ => {
            let node = other[chance.index(&other)].0 + chance.pick(0, 1) as u8;
            if hops.len() < 8 && hops.iter().all(|hop| hop.0 != node) {
                let hop = (node, hops[at].1);
                hops.insert(if chance.one_in(2) { 0 } else { hops.len() }, hop);
            }
        }
    }
    lay(&mut set.flows[b], &hops);
}

fn change(chance: &mut Chance, set: &mut Set) {
    let b = chance.index(&set.flows);
    let f = &mut set.flows[b];
    let at = chance.pick(0, f.length as u64 - 1) as usize;
    match chance.pick(0, 19) {
        0..=3 => f.period = near(chance, f.period, 1, LONGEST),
        4..=6 => fill(chance, set, b),
        7 => f.costs[at] = near(chance, f.costs[at], 1, DEAREST),
        8 => {
            let cost = near(chance, f.costs[at], 1, DEAREST);
            f.costs[..f.length].fill(cost);
        }
        9 => f.jitter = near(chance, f.jitter, 0, LONGEST),
        10 => f.jitter = 0,
        11 => f.priority = chance.pick(1, 3) as u8,
        12 => {
            set.lmax = near(chance, set.lmax, 0, DEAREST);
            set.lmin = set.lmin.min(set.lmax);
        }
        13 => set.lmin = near(chance, set.lmin, 0, DEAREST).min(set.lmax),
        14 if set.flows.len() > 2 => drop(set.flows.remove(b)),
        15 if set.flows.len() < 16 => set.flows.push(set.flows[b]),
        _ => change_path(chance, set, b),
    }
}

/// Sums, with each instant as four and each turn as forty, about what they take beside them: the same for a plan whatever else the machine does.
fn work(counts: &Counts) -> u64 {
    counts.sums + 4 * counts.instants + 40 * (counts.scans + counts.looks)
}

struct Trial {
    counts: Counts,
    time: Duration,
}

/// None for a plan that is refused by 7 or 8, before anything is settled.
fn judge(set: &Set) -> Option<Trial> {
    let mut counts = Counts {
        most: Some(MOST),
        ..Counts::default()
    };
    let begin = Instant::now();
    let verdict = plain::judge(&plain::prepare(set), Walk::Near, &mut counts);
    let time = begin.elapsed();
    let settled = !matches!(verdict.answer % 256, 7 | 8);
    settled.then_some(Trial { counts, time })
}

fn print(trial: &Trial, set: &Set, since: Instant) {
    plain::read(&bytes(set)).expect("changes leave a plan well formed");
    let (counts, seconds) = (&trial.counts, since.elapsed().as_secs());
    println!(
        "{seconds} s: work {} in {:.2?}, {} scans, {} looks, {} sums{}: {}",
        work(counts),
        trial.time,
        counts.scans,
        counts.looks,
        counts.sums,
        if counts.sums > MOST { ", given up" } else { "" },
        hex(set),
    );
}

/// The worst plan so far.
struct Search {
    chance: Chance,
    since: Instant,
    until: Duration,
    worst: u64,
}

impl Search {
    fn over(&self) -> bool {
        self.since.elapsed() >= self.until
    }

    /// The work of a plan.
    fn height(&mut self, set: &mut Set) -> Option<u64> {
        number(set);
        let trial = judge(set)?;
        let height = work(&trial.counts);
        if self.worst < height {
            self.worst = height;
            print(&trial, set, self.since);
        }
        Some(height)
    }

    fn climb(&mut self, mut set: Set) {
        let Some(mut height) = self.height(&mut set) else {
            return;
        };
        let mut idle = 0;
        while idle < PATIENCE && !self.over() {
            idle += 1;
            let mut changed = set.clone();
            for _ in 0..self.chance.pick(1, 3) {
                change(&mut self.chance, &mut changed);
            }
            let new = self.height(&mut changed).unwrap_or(0);
            if new < height {
                continue;
            }
            if new > height + height / 1000 {
                idle = 0;
            }
            (set, height) = (changed, new);
        }
    }
}

fn main() {
    let arguments: Vec<String> = std::env::args().collect();
    let figure = |k: usize| arguments.get(k).and_then(|x| x.parse::<u64>().ok());
    let (Some(seconds), Some(seed)) = (figure(1), figure(2)) else {
        panic!("usage: search SECONDS SEED");
    };
    // Those that a change can be tried of often.
    let quick = plans::all().into_iter().filter(|group| group.before);
    let known = quick.flat_map(|group| group.plans);
    let known: Vec<Set> = known.filter_map(|plan| plain::read(&plan).ok()).collect();
    let mut search = Search {
        chance: Chance(0x9e3779b97f4a7c15 ^ (seed + 1) << 20),
        since: Instant::now(),
        until: Duration::from_secs(seconds),
        worst: 0,
    };
    while !search.over() {
        let set = match search.chance.one_in(4) {
            true => known[search.chance.index(&known)].clone(),
            false => random_set(&mut search.chance),
        };
        search.climb(set);
    }
}
