//! Sets of flows made by chance, with deadlines that no bound can exceed.

use crate::dice::Dice;
use crate::flow::{Flow, Links, FLOWS, HORIZON, NODES, SMALL};
use crate::set::Set;
use crate::verdict::busy_lengths;
use crate::{dense, feedback, horizon, steps, tangles};

#[derive(Clone, Copy, Debug, PartialEq, Eq)]
pub enum Recipe {
    /// No flow at all.
    Empty,
    /// One to five flows, small numbers.
    Small,
    /// Up to sixteen flows, paths of up to eight nodes.
    Crowd,
    /// More load than a node can carry.
    Overload,
    /// Paths that often leave one another and meet again.
    Loose,
    /// Link delays up to 4,095 and costs to match.
    Wide,
    /// Jitter of several periods.
    Jittery,
    /// A ring of flows that feed one another.
    Ring,
    /// Few flows, each over all nodes in an order of its own, load close to 1.
    Knot,
    /// Flows that take many rounds to settle.
    Tangle,
    /// A long flow below short ones that visit its nodes in any order.
    Back,
    /// Bounds reached late, at a step of some count.
    LateStep,
    /// Many packets of one priority in a busy length.
    Dense,
    /// Periods and jitters up to the horizon, small costs.
    FarJitter,
    /// A bound close to the horizon, through jitter.
    LateBound,
    /// The same with a greater response bound at an earlier node.
    LateDrop,
    /// Bounds close to the horizon, through long paths and link delays.
    LongBound,
    /// A busy length close to the horizon: dear.
    LongBusy,
    /// Sixteen flows of the greatest cost: dear.
    FullBusy,
    /// Late steps thousands of ticks apart: dear.
    WideStep,
}

/// Those that cost little to judge.
pub const CHEAP: [Recipe; 17] = [
    Recipe::Empty,
    Recipe::Small,
    Recipe::Crowd,
    Recipe::Overload,
    Recipe::Loose,
    Recipe::Wide,
    Recipe::Jittery,
    Recipe::Ring,
    Recipe::Knot,
    Recipe::Tangle,
    Recipe::Back,
    Recipe::LateStep,
    Recipe::Dense,
    Recipe::FarJitter,
    Recipe::LateBound,
    Recipe::LateDrop,
    Recipe::LongBound,
];

pub const DEAR: [Recipe; 3] = [Recipe::LongBusy, Recipe::FullBusy, Recipe::WideStep];

pub fn make(recipe: Recipe, dice: &mut Dice) -> Set {
    match recipe {
        Recipe::Empty => Set {
            links: links(dice, 9),
            flows: Vec::new(),
        },
        Recipe::Small => small(dice),
        Recipe::Crowd => crowd(dice),
        Recipe::Overload => overload(dice),
        Recipe::Loose => loose(dice),
        Recipe::Wide => wide(dice),
        Recipe::Jittery => jittery(dice),
        Recipe::Ring => feedback::ring(dice),
        Recipe::Knot => feedback::knot(dice),
        Recipe::Tangle => tangles::make(dice),
        Recipe::Back => feedback::back(dice),
        Recipe::LateStep => steps::late(dice),
        Recipe::Dense => dense::make(dice),
        Recipe::FarJitter => horizon::far_jitter(dice),
        Recipe::LateBound => horizon::late_bound(dice),
        Recipe::LateDrop => horizon::late_drop(dice),
        Recipe::LongBound => horizon::long_bound(dice),
        Recipe::LongBusy => horizon::long_busy(dice),
        Recipe::FullBusy => horizon::full_busy(dice),
        Recipe::WideStep => steps::wide(dice),
    }
}

/// What a general set is made from.
struct Style {
    flows: i64,
    nodes: i64,
    levels: i64,
    /// Load of all flows together, in hundredths.
    load: i64,
    /// Greatest period.
    period: i64,
    /// Greatest jitter, in hundredths of the period.
    jitter: i64,
    /// Greatest link delay.
    delay: i64,
    shapes: &'static [Shape],
}

/// How a path lies among the nodes 1, 2, ...
#[derive(Clone, Copy)]
enum Shape {
    /// A piece of the line, in either direction.
    Line,
    /// A piece of the ring, in either direction.
    Ring,
    /// The whole line, in either direction.
    Whole,
    /// One node in, the hub, one node out.
    Hub,
    /// Any nodes in any order.
    Any,
}

/// Shapes that never leave one another and meet again, and shapes that may.
const LINE: [Shape; 2] = [Shape::Line, Shape::Whole];
const HUB: [Shape; 1] = [Shape::Hub];
const WILD: [Shape; 3] = [Shape::Ring, Shape::Any, Shape::Line];

fn tame(dice: &mut Dice) -> &'static [Shape] {
    if dice.once_in(3) {
        &HUB
    } else {
        &LINE
    }
}

pub fn small(dice: &mut Dice) -> Set {
    let shapes = if dice.once_in(3) { &WILD } else { tame(dice) };
    let style = Style {
        flows: dice.pick(1, 5),
        nodes: dice.pick(1, 5),
        levels: dice.pick(1, 3),
        load: dice.pick(10, 110),
        period: dice.one_of(&[3, 8, 20, 40, 90]),
        jitter: dice.one_of(&[0, 0, 50, 150]),
        delay: dice.pick(0, 5),
        shapes,
    };
    general(style, dice)
}

fn crowd(dice: &mut Dice) -> Set {
    let style = Style {
        flows: dice.pick(6, FLOWS as i64),
        nodes: dice.pick(2, NODES as i64),
        levels: dice.pick(1, 8),
        load: dice.pick(10, 100),
        period: dice.one_of(&[60, 120]),
        jitter: dice.one_of(&[0, 0, 30, 100]),
        delay: dice.pick(0, 9),
        shapes: tame(dice),
    };
    general(style, dice)
}

fn overload(dice: &mut Dice) -> Set {
    let style = Style {
        flows: dice.pick(2, FLOWS as i64),
        nodes: dice.pick(1, NODES as i64),
        levels: dice.pick(1, 8),
        load: dice.pick(120, 400),
        period: dice.one_of(&[20, 90, 500]),
        jitter: dice.one_of(&[0, 50]),
        delay: dice.pick(0, 9),
        shapes: &LINE,
    };
    general(style, dice)
}

fn loose(dice: &mut Dice) -> Set {
    let style = Style {
        flows: dice.pick(2, 10),
        nodes: dice.pick(3, 12),
        levels: dice.pick(1, 8),
        load: dice.pick(10, 60),
        period: dice.one_of(&[30, 90]),
        jitter: dice.one_of(&[0, 50]),
        delay: dice.pick(0, 9),
        shapes: &WILD,
    };
    general(style, dice)
}

fn wide(dice: &mut Dice) -> Set {
    let style = Style {
        flows: dice.pick(1, 6),
        nodes: dice.pick(2, NODES as i64),
        levels: dice.pick(1, 4),
        load: dice.pick(5, 60),
        period: dice.one_of(&[90, 400, 900]),
        jitter: dice.one_of(&[0, 100]),
        delay: dice.one_of(&[100, SMALL]),
        shapes: tame(dice),
    };
    general(style, dice)
}

fn jittery(dice: &mut Dice) -> Set {
    let style = Style {
        flows: dice.pick(1, 8),
        nodes: dice.pick(1, 6),
        levels: dice.pick(1, 4),
        load: dice.pick(10, 70),
        period: dice.one_of(&[20, 60]),
        jitter: dice.pick(100, 500),
        delay: dice.pick(0, 9),
        shapes: tame(dice),
    };
    general(style, dice)
}

fn general(style: Style, dice: &mut Dice) -> Set {
    let levels = dice.rising(style.levels as usize, 255);
    let names = names(style.nodes, dice);
    let count = style.flows as usize;
    let flows = numbers(count, dice)
        .into_iter()
        .map(|number| flow(number, dice.one_of(&levels), &style, &names, dice))
        .collect();
    let mut set = Set {
        links: links(dice, style.delay),
        flows,
    };
    cheapen(&mut set);
    set
}

fn flow(number: i64, level: i64, style: &Style, names: &[i64], dice: &mut Dice) -> Flow {
    let shape = dice.one_of(style.shapes);
    let path: Vec<i64> = shape_path(shape, style.nodes, dice)
        .iter()
        .map(|n| names[*n as usize])
        .collect();
    let period = dice.pick(style.period / 4 + 1, style.period);
    let most = (period * style.load / (100 * style.flows)).clamp(1, SMALL);
    // Half of the flows have one cost on all their nodes.
    let least = if dice.once_in(2) { most } else { 1 };
    Flow {
        number,
        // The levels are 1 to 255; one of them less 1 makes 0 possible.
        priority: level - i64::from(level == 1),
        period,
        jitter: dice.pick(0, period * style.jitter / 100),
        deadline: HORIZON,
        costs: path.iter().map(|_| dice.pick(least, most)).collect(),
        path,
    }
}

/// Numbers 1, 2, ... or any rising ones.
fn numbers(count: usize, dice: &mut Dice) -> Vec<i64> {
    let most = if dice.once_in(2) { count as i64 } else { 255 };
    dice.rising(count, most)
}

/// Names of the nodes 0, 1, 2, ...: themselves (from 1) or any, in any order.
fn names(count: i64, dice: &mut Dice) -> Vec<i64> {
    let most = if dice.once_in(2) { count } else { 255 };
    let mut names = dice.rising(count as usize, most);
    if dice.once_in(2) {
        dice.shuffle(&mut names);
    }
    names
}

/// Link delays up to `most`.
pub fn links(dice: &mut Dice, most: i64) -> Links {
    let most = if dice.once_in(8) {
        most
    } else {
        dice.pick(0, most)
    };
    let least = if dice.once_in(3) {
        most
    } else {
        dice.pick(0, most)
    };
    Links { least, most }
}

/// A path over the nodes 0 to `nodes` − 1.
fn shape_path(shape: Shape, nodes: i64, dice: &mut Dice) -> Vec<i64> {
    let longest = nodes.min(NODES as i64);
    let mut path: Vec<i64> = match shape {
        Shape::Line => {
            let length = dice.pick(1, longest);
            let from = dice.pick(0, nodes - length);
            (from..from + length).collect()
        }
        Shape::Ring => {
            let length = dice.pick(1, longest);
            let from = dice.pick(0, nodes - 1);
            (from..from + length).map(|n| n % nodes).collect()
        }
        Shape::Whole => (0..longest).collect(),
        Shape::Hub => {
            let mut ends: Vec<i64> = (1..nodes).collect();
            dice.shuffle(&mut ends);
            ends.truncate(2);
            ends.insert(ends.len().min(1), 0);
            ends
        }
        Shape::Any => {
            let mut all: Vec<i64> = (0..nodes).collect();
            dice.shuffle(&mut all);
            all.truncate(dice.pick(1, longest) as usize);
            all
        }
    };
    if dice.once_in(2) {
        path.reverse();
    }
    path
}

/// The work of one round: ticks times nodes times flows, over all flows. A set
/// without busy lengths has no rounds.
pub fn price(set: &Set) -> i64 {
    let Ok(busy) = busy_lengths(set) else {
        return 0;
    };
    let nodes = set.flows.iter().map(|f| f.path.len());
    busy.iter()
        .zip(nodes)
        .map(|(b, n)| b * (n * set.flows.len()) as i64)
        .sum()
}

/// A round takes long.
pub fn dear(set: &Set) -> bool {
    price(set) > 60_000
}

/// Makes periods longer and costs smaller until a round is cheap.
pub fn cheapen(set: &mut Set) {
    while dear(set) {
        for flow in &mut set.flows {
            flow.period = (flow.period * 5 / 4).min(HORIZON);
            for cost in &mut flow.costs {
                *cost = (*cost * 9 / 10).max(1);
            }
        }
    }
}
