//! Plans that are not as a table writes them.

use crate::dice::Dice;
use crate::flow::{Flow, Links, Record, FLOWS, HORIZON, NODES, SMALL};
use crate::plan;
use crate::set::Set;
use crate::sets::{self, Recipe};

#[derive(Clone, Copy, Debug, PartialEq, Eq)]
pub enum Damage {
    OneByte,
    SomeBytes,
    Cut,
    CutAtRecord,
    NoEnd,
    AfterEnd,
    RecordTwice,
    LinksTwice,
    Swapped,
    FlowMissing,
    LinksMissing,
    UnknownKind,
    EndEarly,
    BadLinks,
    BadFlow(Fault),
    TwoBadFlows,
    Seventeen,
    SeventeenBad(Fault),
    SeventeenCut,
    SixteenAndNoMore,
    LinksCut,
    Noise,
    Stub,
}

/// What is wrong with one flow's fields.
#[derive(Clone, Copy, Debug, PartialEq, Eq)]
pub enum Fault {
    NumberZero,
    NotRising,
    OutOfRange,
    NodeTwice,
}

pub const ALL: [Damage; 29] = [
    Damage::OneByte,
    Damage::SomeBytes,
    Damage::Cut,
    Damage::CutAtRecord,
    Damage::NoEnd,
    Damage::AfterEnd,
    Damage::RecordTwice,
    Damage::LinksTwice,
    Damage::Swapped,
    Damage::FlowMissing,
    Damage::LinksMissing,
    Damage::UnknownKind,
    Damage::EndEarly,
    Damage::BadLinks,
    Damage::BadFlow(Fault::NumberZero),
    Damage::BadFlow(Fault::NotRising),
    Damage::BadFlow(Fault::OutOfRange),
    Damage::BadFlow(Fault::NodeTwice),
    Damage::TwoBadFlows,
    Damage::Seventeen,
    Damage::SeventeenBad(Fault::NumberZero),
    Damage::SeventeenBad(Fault::NotRising),
    Damage::SeventeenBad(Fault::OutOfRange),
    Damage::SeventeenBad(Fault::NodeTwice),
    Damage::SeventeenCut,
    Damage::SixteenAndNoMore,
    Damage::LinksCut,
    Damage::Noise,
    Damage::Stub,
];

const FAULTS: [Fault; 4] = [
    Fault::NumberZero,
    Fault::NotRising,
    Fault::OutOfRange,
    Fault::NodeTwice,
];

/// Bytes that are worth trying in the place of another.
const MARKS: [u8; 8] = [0, 1, 2, 8, 9, 16, 127, 255];

/// A plan as its records, each with its kind byte: links, flows, end.
type Records = Vec<Vec<u8>>;

pub fn make(damage: Damage, dice: &mut Dice) -> Vec<u8> {
    let mut records = records(&base(dice));
    let end = records.len() - 1;
    let flow = 1 + dice.index(end - 1);
    match damage {
        Damage::OneByte => return change_bytes(records.concat(), 1, &MARKS, dice),
        Damage::SomeBytes => {
            let times = dice.pick(2, 4);
            return change_bytes(records.concat(), times, &MARKS, dice);
        }
        Damage::Cut => return cut(records.concat(), dice),
        Damage::CutAtRecord => records.truncate(dice.index(end + 1)),
        Damage::NoEnd => records.truncate(end),
        Damage::AfterEnd => records.push(after_end(&records, dice)),
        Damage::RecordTwice => records.insert(flow, records[flow].clone()),
        Damage::LinksTwice => records.insert(flow, records[0].clone()),
        Damage::Swapped => records.swap(flow, if flow == 1 { 2 } else { 1 }),
        Damage::FlowMissing => drop(records.remove(flow)),
        Damage::LinksMissing => drop(records.remove(0)),
        Damage::UnknownKind => unknown_kind(&mut records, dice),
        Damage::EndEarly => records.swap(flow, end),
        Damage::BadLinks => records[0] = bad_links(dice),
        Damage::BadFlow(fault) => spoil(&mut records, flow, fault, dice),
        Damage::TwoBadFlows => spoil_two(&mut records, dice),
        Damage::Seventeen => records = seventeen(dice),
        Damage::SeventeenBad(fault) => {
            records = seventeen(dice);
            spoil(&mut records, 1 + FLOWS, fault, dice);
        }
        Damage::SeventeenCut => return seventeen_cut(dice),
        Damage::SixteenAndNoMore => records = sixteen_and_no_more(dice),
        Damage::LinksCut => return links_cut(records.swap_remove(0), dice),
        Damage::Noise => return noise(dice),
        Damage::Stub => return stub(dice),
    }
    records.concat()
}

/// A plan, and behind its end bytes up to this length.
pub fn overlong(length: usize, dice: &mut Dice) -> Vec<u8> {
    let mut bytes = plan::write(&base(dice));
    bytes.resize_with(length, || dice.pick(0, 255) as u8);
    bytes
}

/// A set of at least two flows.
fn base(dice: &mut Dice) -> Set {
    let set = sets::make(Recipe::Small, dice);
    if set.flows.len() >= 2 {
        set
    } else {
        sets::make(Recipe::Crowd, dice)
    }
}

fn records(set: &Set) -> Records {
    let bytes = plan::write(set);
    let flows = bytes[5..bytes.len() - 1].chunks(34).map(<[u8]>::to_vec);
    std::iter::once(bytes[..5].to_vec())
        .chain(flows)
        .chain(std::iter::once(vec![plan::END]))
        .collect()
}

/// Other bytes in the place of some, at times one of the marks.
pub fn change_bytes(mut bytes: Vec<u8>, times: i64, marks: &[u8], dice: &mut Dice) -> Vec<u8> {
    for _ in 0..times {
        let at = dice.index(bytes.len());
        bytes[at] = match dice.pick(0, 3) {
            0 => dice.pick(0, 255) as u8,
            1 => bytes[at] ^ (1 << dice.pick(0, 7)),
            2 => bytes[at].wrapping_add(1),
            _ => dice.one_of(marks),
        };
    }
    bytes
}

pub fn cut(mut bytes: Vec<u8>, dice: &mut Dice) -> Vec<u8> {
    bytes.truncate(dice.index(bytes.len()));
    bytes
}

/// One byte, a whole record, or many bytes.
fn after_end(records: &Records, dice: &mut Dice) -> Vec<u8> {
    match dice.pick(0, 2) {
        0 => vec![dice.one_of(&[0, plan::LINKS, plan::FLOW, plan::END, 255])],
        1 => records[dice.index(records.len())].clone(),
        _ => (0..dice.pick(2, 60))
            .map(|_| dice.pick(0, 255) as u8)
            .collect(),
    }
}

fn unknown_kind(records: &mut Records, dice: &mut Dice) {
    let any = dice.index(records.len());
    let at = dice.one_of(&[0, 1, any, any]);
    records[at][0] = dice.one_of(&[0, 3, 4, 0x7E, 0x80, 0x81, 0xFF]);
}

fn bad_links(dice: &mut Dice) -> Vec<u8> {
    let (least, most) = dice.one_of(&[(1, 0), (2, 1), (0, 4_096), (4_096, 4_096), (9, 65_535)]);
    [vec![plan::LINKS], Links { least, most }.bytes()].concat()
}

fn spoil(records: &mut Records, at: usize, fault: Fault, dice: &mut Dice) {
    let mut record = Record::from_bytes(&records[at][1..]);
    let before = if at > 1 {
        i64::from(records[at - 1][1])
    } else {
        0
    };
    match fault {
        Fault::NumberZero => record.number = 0,
        Fault::NotRising => {
            record.number = if dice.once_in(2) {
                before
            } else {
                1.min(before)
            }
        }
        Fault::OutOfRange => out_of_range(&mut record, dice),
        Fault::NodeTwice => node_twice(&mut record, dice),
    }
    records[at] = [vec![plan::FLOW], record.bytes()].concat();
}

/// Two faults, in one record or in two.
fn spoil_two(records: &mut Records, dice: &mut Dice) {
    for _ in 0..2 {
        let at = 1 + dice.index(records.len() - 2);
        let fault = dice.one_of(&FAULTS);
        spoil(records, at, fault, dice);
    }
}

/// Any of the ways of refusal 3.
pub fn out_of_range(record: &mut Record, dice: &mut Dice) {
    let used = record.length.clamp(1, NODES as i64) as usize;
    let place = dice.index(used);
    let unused = used + dice.index((NODES - used).max(1));
    match dice.pick(0, 9) {
        0 => record.period = 0,
        1 => record.deadline = 0,
        2 => record.length = 0,
        3 => record.length = dice.one_of(&[9, 10, 128, 255]),
        4 => record.nodes[place] = 0,
        5 => record.costs[place] = 0,
        6 => record.costs[place] = dice.one_of(&[SMALL + 1, 8_192, HORIZON]),
        7 if unused < NODES => record.nodes[unused] = dice.pick(1, 255),
        8 if unused < NODES => record.costs[unused] = dice.one_of(&[1, 256, HORIZON]),
        _ if used > 1 => record.length -= 1,
        _ => record.length += 1,
    }
}

/// A node again further on, the path made longer if it has one node.
pub fn node_twice(record: &mut Record, dice: &mut Dice) {
    if record.length < 2 {
        record.length = 2;
        record.costs[1] = 1;
    }
    let to = 1 + dice.index(record.length.min(NODES as i64) as usize - 1);
    let from = dice.index(to);
    record.nodes[to] = record.nodes[from];
}

/// A flow so light that sixteen such are accepted.
pub fn light(number: i64, dice: &mut Dice) -> Flow {
    let from = dice.pick(1, 7);
    let length = dice.pick(1, 2);
    Flow {
        number,
        priority: dice.pick(0, 7),
        period: dice.pick(200, 900),
        jitter: dice.pick(0, 3),
        deadline: HORIZON,
        path: (from..from + length).collect(),
        costs: (0..length).map(|_| dice.pick(1, 3)).collect(),
    }
}

/// Seventeen flows in range.
fn seventeen(dice: &mut Dice) -> Records {
    let numbers = dice.rising(FLOWS + 1, 255);
    let flows = numbers.into_iter().map(|n| light(n, dice)).collect();
    records(&Set {
        links: sets::links(dice, 5),
        flows,
    })
}

/// The seventeenth body is short by one byte or more.
fn seventeen_cut(dice: &mut Dice) -> Vec<u8> {
    let mut bytes = seventeen(dice).concat();
    let whole = 5 + 34 * (FLOWS + 1);
    bytes.truncate(whole - dice.one_of(&[1, 2, 16, 32, 33]));
    bytes
}

/// After sixteen flows: nothing, an unknown kind, or links.
fn sixteen_and_no_more(dice: &mut Dice) -> Records {
    let mut records = seventeen(dice);
    records.truncate(1 + FLOWS);
    match dice.pick(0, 2) {
        0 => {}
        1 => records.push(vec![dice.one_of(&[0, 3, 0x80])]),
        _ => records.push(records[0].clone()),
    }
    records
}

fn links_cut(mut links: Vec<u8>, dice: &mut Dice) -> Vec<u8> {
    links.truncate(dice.pick(1, 4) as usize);
    links
}

fn noise(dice: &mut Dice) -> Vec<u8> {
    let mut bytes: Vec<u8> = (0..dice.pick(0, 90))
        .map(|_| dice.pick(0, 255) as u8)
        .collect();
    if dice.once_in(2) {
        bytes.splice(0..0, [plan::LINKS, 0, 1, 0, 1, plan::FLOW]);
    }
    bytes
}

/// No byte at all, a lone byte, or links and nothing else.
fn stub(dice: &mut Dice) -> Vec<u8> {
    match dice.pick(0, 3) {
        0 => vec![],
        1 => vec![dice.one_of(&[0, plan::LINKS, plan::FLOW, plan::END, 255])],
        2 => vec![plan::LINKS, 0, 1, 0, 1],
        _ => vec![plan::LINKS, 0, 1, 0, 1, plan::FLOW],
    }
}
