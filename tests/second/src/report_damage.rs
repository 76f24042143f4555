//! Reports made up, and reports that are not as a table writes them.

use crate::damage::{change_bytes, cut};
use crate::dice::Dice;
use crate::flow::{FLOWS, HORIZON};
use crate::plan;
use crate::report;
use crate::verdict::Figures;

#[derive(Clone, Copy, Debug, PartialEq, Eq)]
pub enum Harm {
    Line(Spot, Fault),
    /// A line that both 12 and 3 apply to.
    Both(Spot),
    /// Two faults, in one line or in two.
    TwoFaults,
    /// A fault in a line, then another harm.
    FaultAndMore,
    /// The record with another kind byte.
    Kind(Spot, Kind),
    /// A record of another kind before the one that is there.
    Before(Spot, Kind),
    Missing(Spot),
    Twice(Spot),
    Swapped,
    EndEarly,
    /// That of a plan in its place.
    PlansEnd,
    AfterEnd,
    /// One more announced than there are, one fewer, or any other number.
    CountOff,
    CountAboveSixteen,
    /// A line after as many as were announced; in order, or with figures for 3.
    LineMore,
    BadLineMore,
    SixteenAndOneMore,
    SixteenAndAfterEnd,
    /// The report ends before that record, or inside it.
    EndsBefore(Spot),
    EndsInside(Spot),
    /// The last line is one for 3, and is cut short.
    BadLineCut,
    OneByte,
    SomeBytes,
    Cut,
    Noise,
    Stub,
}

/// Count and end are the first and the last record; a later line is any but the
/// first.
#[derive(Clone, Copy, Debug, PartialEq, Eq)]
pub enum Spot {
    Count,
    First,
    Later,
    End,
}

/// A kind that may not stand where it stands.
#[derive(Clone, Copy, Debug, PartialEq, Eq)]
pub enum Kind {
    Unknown,
    Plan,
    Misplaced,
}

/// What is wrong with one line's fields: 12 refuses the first three, 3 the others.
#[derive(Clone, Copy, Debug, PartialEq, Eq)]
pub enum Fault {
    NumberZero,
    SameNumber,
    LesserNumber,
    BoundZero,
    BusyZero,
    JitterAsBound,
    JitterAboveBound,
}

const SPOTS: [Spot; 4] = [Spot::Count, Spot::First, Spot::Later, Spot::End];
const LINES: [Spot; 2] = [Spot::First, Spot::Later];
const KINDS: [Kind; 3] = [Kind::Unknown, Kind::Plan, Kind::Misplaced];
const OF_NUMBERS: [Fault; 3] = [Fault::NumberZero, Fault::SameNumber, Fault::LesserNumber];
const OF_FIGURES: [Fault; 4] = [
    Fault::BoundZero,
    Fault::BusyZero,
    Fault::JitterAsBound,
    Fault::JitterAboveBound,
];
/// Harms that are not done at a certain spot.
const ANYWHERE: [Harm; 18] = [
    Harm::TwoFaults,
    Harm::FaultAndMore,
    Harm::Swapped,
    Harm::EndEarly,
    Harm::PlansEnd,
    Harm::AfterEnd,
    Harm::CountOff,
    Harm::CountAboveSixteen,
    Harm::LineMore,
    Harm::BadLineMore,
    Harm::SixteenAndOneMore,
    Harm::SixteenAndAfterEnd,
    Harm::BadLineCut,
    Harm::OneByte,
    Harm::SomeBytes,
    Harm::Cut,
    Harm::Noise,
    Harm::Stub,
];
/// Bytes that are worth trying in the place of another.
const MARKS: [u8; 12] = [
    0,
    1,
    2,
    report::COUNT - 1,
    report::COUNT,
    report::LINE,
    report::LINE + 1,
    report::END,
    plan::END,
    0x80,
    0xFE,
    0xFF,
];

pub fn all() -> Vec<Harm> {
    let mut out = ANYWHERE.to_vec();
    for spot in SPOTS {
        let whole = [Harm::Missing, Harm::Twice, Harm::EndsBefore].map(|harm| harm(spot));
        out.extend(whole);
        out.extend(KINDS.map(|kind| Harm::Kind(spot, kind)));
        out.extend(KINDS.map(|kind| Harm::Before(spot, kind)));
    }
    for spot in LINES {
        let faults = OF_NUMBERS.iter().chain(&OF_FIGURES);
        out.extend(faults.map(|fault| Harm::Line(spot, *fault)));
        out.push(Harm::Both(spot));
        out.push(Harm::EndsInside(spot));
    }
    out.push(Harm::EndsInside(Spot::Count));
    out
}

/// The lines' report with the harm done to it. They are two or more.
pub fn make(harm: Harm, lines: &[Figures], dice: &mut Dice) -> Vec<u8> {
    let mut lines = lines.to_vec();
    harm_lines(harm, &mut lines, dice);
    if harm == Harm::FaultAndMore {
        let others: Vec<Harm> = all().into_iter().filter(|h| *h != harm).collect();
        return make(dice.one_of(&others), &lines, dice);
    }
    let mut records = records(&lines);
    harm_records(harm, &mut records, &lines, dice);
    harm_bytes(harm, records.concat(), dice)
}

/// A report, and behind its end bytes up to this length.
pub fn overlong(length: usize, lines: &[Figures], dice: &mut Dice) -> Vec<u8> {
    let mut bytes = report::write(lines);
    bytes.resize_with(length, || dice.pick(0, 255) as u8);
    bytes
}

/// So many lines in order, whose figures need not be those of any table.
pub fn made_up(count: usize, dice: &mut Dice) -> Vec<Figures> {
    let numbers = dice.rising(count, 255);
    numbers.into_iter().map(|n| made_up_line(n, dice)).collect()
}

fn made_up_line(number: i64, dice: &mut Dice) -> Figures {
    let bound = figure(dice);
    let any = dice.pick(0, bound - 1);
    Figures {
        number,
        bound,
        jitter: dice.one_of(&[0, any, any, bound - 1]),
        busy: figure(dice),
    }
}

/// From 1 to the horizon, often at an end of what one byte or two can hold.
fn figure(dice: &mut Dice) -> i64 {
    match dice.pick(0, 3) {
        0 => dice.one_of(&[1, 2, 255, 256, 257, 512, 0x1F00, 0x7F11, HORIZON]),
        1 => dice.pick(1, HORIZON),
        _ => dice.pick(1, 300),
    }
}

/// A report as its records, each with its kind byte: count, lines, end.
type Records = Vec<Vec<u8>>;

fn records(lines: &[Figures]) -> Records {
    std::iter::once(vec![report::COUNT, lines.len() as u8])
        .chain(lines.iter().map(report::record))
        .chain(std::iter::once(vec![report::END]))
        .collect()
}

/// What a harm does to the lines, if it does anything to them.
fn harm_lines(harm: Harm, lines: &mut Vec<Figures>, dice: &mut Dice) {
    match harm {
        Harm::Line(spot, fault) => {
            let at = line_at(spot, lines, dice);
            spoil(lines, at, fault, dice);
        }
        Harm::Both(spot) => {
            let at = line_at(spot, lines, dice);
            spoil_figures(lines, at, dice);
            let fault = dice.one_of(&OF_NUMBERS);
            spoil(lines, at, fault, dice);
        }
        Harm::TwoFaults => {
            spoil_any(lines, dice);
            spoil_any(lines, dice);
        }
        Harm::FaultAndMore => spoil_any(lines, dice),
        Harm::SixteenAndOneMore => *lines = made_up(FLOWS + 1, dice),
        Harm::SixteenAndAfterEnd => *lines = made_up(FLOWS, dice),
        _ => {}
    }
}

/// What it does to the records.
fn harm_records(harm: Harm, records: &mut Records, lines: &[Figures], dice: &mut Dice) {
    let end = records.len() - 1;
    let later = 2 + dice.index(lines.len() - 1);
    let at = |spot| match spot {
        Spot::Count => 0,
        Spot::First => 1,
        Spot::Later => later,
        Spot::End => end,
    };
    match harm {
        Harm::Kind(spot, kind) => records[at(spot)][0] = other_record(spot, kind, dice)[0],
        Harm::Before(spot, kind) => records.insert(at(spot), other_record(spot, kind, dice)),
        Harm::Missing(spot) => drop(records.remove(at(spot))),
        Harm::Twice(spot) => records.insert(at(spot), records[at(spot)].clone()),
        Harm::Swapped => records.swap(1, later),
        Harm::EndEarly => records.swap(later, end),
        Harm::PlansEnd => records[end] = vec![plan::END],
        Harm::AfterEnd | Harm::SixteenAndAfterEnd => records.push(after_end(records, dice)),
        Harm::CountOff => records[0][1] = count_off(lines.len(), dice),
        Harm::CountAboveSixteen => records[0][1] = dice.one_of(&[17, 18, 31, 128, 255]),
        Harm::LineMore => records.insert(end, report::record(&one_more(lines, dice))),
        Harm::BadLineMore => records.insert(end, bad_line_more(lines, dice)),
        Harm::SixteenAndOneMore => records[0][1] = FLOWS as u8,
        Harm::EndsBefore(spot) => records.truncate(at(spot)),
        Harm::EndsInside(spot) => ends_inside(records, at(spot), dice),
        Harm::BadLineCut => bad_line_cut(records, lines, dice),
        _ => {}
    }
}

/// And to the bytes.
fn harm_bytes(harm: Harm, bytes: Vec<u8>, dice: &mut Dice) -> Vec<u8> {
    match harm {
        Harm::OneByte => change_bytes(bytes, 1, &MARKS, dice),
        Harm::SomeBytes => {
            let times = dice.pick(2, 4);
            change_bytes(bytes, times, &MARKS, dice)
        }
        Harm::Cut => cut(bytes, dice),
        Harm::Noise => noise(dice),
        Harm::Stub => stub(dice),
        _ => bytes,
    }
}

/// The index of the line.
fn line_at(spot: Spot, lines: &[Figures], dice: &mut Dice) -> usize {
    match spot {
        Spot::Later => 1 + dice.index(lines.len() - 1),
        _ => 0,
    }
}

/// A first line has no number below its own but 0.
fn spoil(lines: &mut [Figures], at: usize, fault: Fault, dice: &mut Dice) {
    let before = if at > 0 { lines[at - 1].number } else { 0 };
    let line = &mut lines[at];
    match fault {
        Fault::NumberZero => line.number = 0,
        Fault::SameNumber => line.number = before,
        Fault::LesserNumber => {
            let least = before.min(1);
            line.number = dice.pick(least, least.max(before - 1));
        }
        Fault::BoundZero => {
            line.bound = 0;
            line.jitter = dice.one_of(&[0, 0, 1, line.jitter]);
        }
        Fault::BusyZero => line.busy = 0,
        Fault::JitterAsBound => line.jitter = line.bound,
        Fault::JitterAboveBound => {
            line.bound = dice.one_of(&[line.bound, 1, 255]).min(HORIZON - 1);
            line.jitter = dice.one_of(&[line.bound + 1, HORIZON]);
        }
    }
}

fn spoil_any(lines: &mut [Figures], dice: &mut Dice) {
    let at = dice.index(lines.len());
    let number = dice.one_of(&OF_NUMBERS);
    let figure = dice.one_of(&OF_FIGURES);
    let fault = dice.one_of(&[number, figure]);
    spoil(lines, at, fault, dice);
}

/// A record of a kind that may not stand there.
fn other_record(spot: Spot, kind: Kind, dice: &mut Dice) -> Vec<u8> {
    let some = |length: usize, dice: &mut Dice| -> Vec<u8> {
        (0..length).map(|_| dice.pick(0, 255) as u8).collect()
    };
    let line = report::record(&made_up_line(dice.pick(1, 255), dice));
    let number = dice.index(FLOWS + 2) as u8;
    match (kind, spot, dice.pick(0, 2)) {
        (Kind::Unknown, _, _) => {
            let kind = dice.one_of(&[
                0, 3, 0x0E, 0x0F, 0x12, 0x13, 0x1E, 0x20, 0x80, 0x90, 0x91, 0xFF,
            ]);
            [vec![kind], some(dice.index(10), dice)].concat()
        }
        (Kind::Plan, _, 0) => [vec![plan::LINKS], some(4, dice)].concat(),
        (Kind::Plan, _, 1) => [vec![plan::FLOW], some(33, dice)].concat(),
        (Kind::Plan, _, _) => vec![plan::END],
        (Kind::Misplaced, Spot::Count, 0) => line,
        (Kind::Misplaced, Spot::Count, _) => vec![report::END],
        (Kind::Misplaced, Spot::First | Spot::Later, 0) => vec![report::END],
        (Kind::Misplaced, _, _) => vec![report::COUNT, number],
    }
}

/// One byte, a whole record, or many bytes.
fn after_end(records: &Records, dice: &mut Dice) -> Vec<u8> {
    match dice.pick(0, 2) {
        0 => vec![dice.one_of(&MARKS)],
        1 => records[dice.index(records.len())].clone(),
        _ => (0..dice.pick(2, 60))
            .map(|_| dice.pick(0, 255) as u8)
            .collect(),
    }
}

/// Sixteen or less, and not how many there are.
fn count_off(lines: usize, dice: &mut Dice) -> u8 {
    let any = dice.index(FLOWS);
    let other = if any < lines { any } else { any + 1 };
    let more = if lines < FLOWS { lines + 1 } else { other };
    dice.one_of(&[lines - 1, more, other]) as u8
}

/// A line that could follow the last, if there is a number left for it.
fn one_more(lines: &[Figures], dice: &mut Dice) -> Figures {
    let last = lines[lines.len() - 1].number;
    let number = dice.pick((last + 1).min(255), 255);
    made_up_line(number, dice)
}

fn bad_line_more(lines: &[Figures], dice: &mut Dice) -> Vec<u8> {
    let mut line = [one_more(lines, dice)];
    spoil_figures(&mut line, 0, dice);
    report::record(&line[0])
}

fn spoil_figures(lines: &mut [Figures], at: usize, dice: &mut Dice) {
    let fault = dice.one_of(&OF_FIGURES);
    spoil(lines, at, fault, dice);
}

fn ends_inside(records: &mut Records, at: usize, dice: &mut Dice) {
    records.truncate(at + 1);
    let length = records[at].len();
    records[at].truncate(1 + dice.index(length - 1));
}

/// At least the bound is left of it.
fn bad_line_cut(records: &mut Records, lines: &[Figures], dice: &mut Dice) {
    let mut lines = lines.to_vec();
    let last = lines.len() - 1;
    spoil_figures(&mut lines, last, dice);
    let mut record = report::record(&lines[last]);
    record.truncate(dice.pick(4, 7) as usize);
    records.truncate(1 + last);
    records.push(record);
}

/// Any bytes, or bytes that mean something, or any behind a good start.
fn noise(dice: &mut Dice) -> Vec<u8> {
    let length = dice.index(150);
    let any = |dice: &mut Dice| dice.pick(0, 255) as u8;
    match dice.pick(0, 2) {
        0 => (0..length).map(|_| any(dice)).collect(),
        1 => (0..length % 30).map(|_| dice.one_of(&MARKS)).collect(),
        _ => {
            let start = vec![report::COUNT, dice.index(FLOWS + 1) as u8, report::LINE];
            let rest = (0..length).map(|_| any(dice));
            start.into_iter().chain(rest).collect()
        }
    }
}

/// No byte at all, a lone byte, or the start of a report.
fn stub(dice: &mut Dice) -> Vec<u8> {
    let announced = dice.one_of(&[0, 1, 2, 16, 17, report::LINE, report::END]);
    match dice.pick(0, 4) {
        0 => vec![],
        1 => vec![dice.one_of(&MARKS)],
        2 => vec![report::COUNT, announced],
        3 => vec![report::COUNT, announced, report::LINE],
        _ => vec![report::COUNT, announced, report::END],
    }
}

#[cfg(test)]
mod tests {
    use super::*;
    use crate::refusal::Refusal;

    fn refusals(harm: Harm) -> Vec<Option<Refusal>> {
        let mut dice = Dice::new(7);
        let refusal = |_| {
            let count = dice.pick(2, 16) as usize;
            let lines = made_up(count, &mut dice);
            report::read(&make(harm, &lines, &mut dice)).err()
        };
        (0..300).map(refusal).collect()
    }

    #[test]
    fn lines_that_are_made_up_are_in_order() {
        let mut dice = Dice::new(5);
        for count in 0..=FLOWS {
            let lines = made_up(count, &mut dice);
            assert_eq!(report::read(&report::write(&lines)), Ok(lines));
        }
    }

    /// Other bytes can make another report in order, and one harm undo another.
    #[test]
    fn harmed_reports_are_refused() {
        let may_pass = [
            Harm::OneByte,
            Harm::SomeBytes,
            Harm::Noise,
            Harm::Stub,
            Harm::FaultAndMore,
        ];
        for harm in all() {
            let refused = refusals(harm).iter().all(Option::is_some);
            assert!(refused || may_pass.contains(&harm), "{harm:?}");
        }
    }

    #[test]
    fn faults_of_lines_have_their_number() {
        let numbers = |harm| -> Vec<i64> {
            let refusals = refusals(harm).into_iter();
            let mut out: Vec<i64> = refusals.map(|r| r.map_or(0, |r| r.number)).collect();
            out.dedup();
            out
        };
        for spot in LINES {
            for fault in OF_NUMBERS {
                assert_eq!(numbers(Harm::Line(spot, fault)), [12]);
            }
            for fault in OF_FIGURES {
                assert_eq!(numbers(Harm::Line(spot, fault)), [3]);
            }
            assert_eq!(numbers(Harm::Both(spot)), [12]);
        }
    }

    #[test]
    fn places_after_sixteen() {
        let places = |harm| -> Vec<usize> {
            let refusals = refusals(harm).into_iter();
            let mut out: Vec<usize> = refusals.map(|r| r.map_or(0, |r| r.place)).collect();
            out.dedup();
            out
        };
        assert_eq!(places(Harm::SixteenAndOneMore), [130]);
        assert_eq!(places(Harm::SixteenAndAfterEnd), [131]);
    }
}
