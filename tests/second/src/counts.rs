//! Counts of the answers that a corpus or a sequence of calls leads to.

use crate::calls::{self, Call, Kept};
use crate::dense::dense;
use crate::flow::{BODY, FLOWS};
use crate::frames;
use crate::plan;
use crate::refusal::Refusal;
use crate::report;
use crate::report_ways::{self, WAYS};
use crate::set::Set;
use crate::table::Table;
use std::collections::BTreeMap;
use std::io;

/// Counts by refusal number (0 for none) and by what else tells answers apart.
#[derive(Default)]
pub struct Tally {
    counts: BTreeMap<(i64, String), u64>,
    wanted: Vec<(i64, &'static str)>,
}

impl Tally {
    fn add(&mut self, number: i64, what: &str) {
        *self.counts.entry((number, what.to_string())).or_default() += 1;
    }

    fn has(&self, number: i64, what: &str) -> bool {
        self.counts.contains_key(&(number, what.to_string()))
    }

    /// What should come up and did not.
    pub fn missing(&self) -> Vec<String> {
        let absent = self.wanted.iter().filter(|(n, w)| !self.has(*n, w));
        absent.map(|(n, w)| name(*n, w)).collect()
    }

    pub fn text(&self) -> String {
        let mut out = String::new();
        for ((number, what), count) in &self.counts {
            out += &format!("{count:>9}  {}\n", name(*number, what));
        }
        let total: u64 = self.counts.values().sum();
        out += &format!("{total:>9}  in all\n");
        let missing = self.missing();
        let list = if missing.is_empty() {
            String::from("none")
        } else {
            missing.join("; ")
        };
        out + &format!("missing: {list}\n")
    }
}

fn name(number: i64, what: &str) -> String {
    match number {
        0 => what.to_string(),
        _ => format!("refused {number} {what}").trim_end().to_string(),
    }
}

/// Refusal numbers with the records they can be given at, and for 12 its ways;
/// some again for dense sets.
const PLACES: [(i64, &str); 38] = [
    (0, "accepted"),
    (1, "links"),
    (2, "first flow"),
    (2, "later flow"),
    (2, "seventeenth flow"),
    (3, "first flow"),
    (3, "later flow"),
    (3, "seventeenth flow"),
    (4, "first flow"),
    (4, "later flow"),
    (4, "seventeenth flow"),
    (6, "seventeenth flow"),
    (7, "whole set"),
    (8, "whole set"),
    (9, "whole set"),
    (10, "whole set"),
    (0, "accepted, dense"),
    (9, "whole set, dense"),
    (10, "whole set, dense"),
    (12, "links, none left"),
    (12, "links, short body"),
    (12, "links, unknown kind"),
    (12, "links, wrong place"),
    (12, "first flow, none left"),
    (12, "first flow, short body"),
    (12, "first flow, unknown kind"),
    (12, "first flow, wrong place"),
    (12, "later flow, none left"),
    (12, "later flow, short body"),
    (12, "later flow, unknown kind"),
    (12, "later flow, wrong place"),
    (12, "later flow, not rising"),
    (12, "seventeenth flow, none left"),
    (12, "seventeenth flow, short body"),
    (12, "seventeenth flow, unknown kind"),
    (12, "seventeenth flow, wrong place"),
    (12, "seventeenth flow, not rising"),
    (12, "after the end"),
];

/// The kinds of answers of a corpus.
pub fn of_frames(input: &[u8]) -> Tally {
    let mut tally = Tally {
        wanted: PLACES.to_vec(),
        ..Tally::default()
    };
    for bytes in frames::plans(input) {
        match Table::of_plan(bytes) {
            Ok(table) => tally.add(0, &set_class("accepted", table.set())),
            Err(refusal) => tally.add(refusal.number, &place_class(bytes, &refusal)),
        }
    }
    tally
}

fn set_class(what: &str, set: &Set) -> String {
    let more = if dense(set) { ", dense" } else { "" };
    format!("{what}{more}")
}

/// The record that a refusal's place points at, and for 12 its way. "Links" is
/// the record at the start, whatever its kind.
fn place_class(plan: &[u8], refusal: &Refusal) -> String {
    if (7..=10).contains(&refusal.number) {
        let set = plan::read(plan).expect("a set that was judged");
        return set_class("whole set", &set);
    }
    let place = refusal.place;
    if place > 0 && !(place - 5).is_multiple_of(1 + BODY) {
        return String::from("after the end");
    }
    let record = match place {
        0 => "links",
        5 => "first flow",
        _ if place == 5 + (1 + BODY) * FLOWS => "seventeenth flow",
        _ => "later flow",
    };
    if refusal.number == 12 {
        format!("{record}, {}", way(plan, place))
    } else {
        record.to_string()
    }
}

fn way(plan: &[u8], place: usize) -> &'static str {
    let left = plan.len() - place;
    match plan.get(place) {
        None => "none left",
        Some(&plan::LINKS) if place == 0 => "short body",
        Some(&plan::FLOW) if place > 0 && left < 1 + BODY => "short body",
        Some(&plan::FLOW) if place > 0 => "not rising",
        Some(&plan::LINKS | &plan::FLOW | &plan::END) => "wrong place",
        Some(_) => "unknown kind",
    }
}

/// What the calls on a table come after is what gave the table: P, J or neither.
/// What S and J come after is the last L or J; before L and after a refused one
/// the set is empty.
const ANSWERS: [(i64, &str); 79] = [
    (0, "fresh"),
    (0, "admitted"),
    (0, "withdrawn"),
    (0, "asked"),
    (0, "printed"),
    (0, "written"),
    (0, "lent, exact length"),
    (0, "lent, bytes left over"),
    (1, "fresh"),
    (2, "admit"),
    (3, "admit"),
    (4, "admit"),
    (5, "admit"),
    (6, "admit"),
    (7, "admit"),
    (8, "admit"),
    (9, "admit"),
    (10, "admit"),
    (11, "withdraw"),
    (11, "ask"),
    (13, "lent, no byte"),
    (13, "lent, one byte short"),
    (13, "lent, shorter"),
    (0, "admitted, after P"),
    (0, "withdrawn, after P"),
    (0, "asked, after P"),
    (0, "printed, after P"),
    (0, "written, after P"),
    (0, "lent, exact length, after P"),
    (0, "lent, bytes left over, after P"),
    (5, "admit, after P"),
    (11, "withdraw, after P"),
    (11, "ask, after P"),
    (13, "lent, one byte short, after P"),
    (0, "read, no flow"),
    (0, "read, some flows"),
    (0, "read, sixteen flows"),
    (1, "read"),
    (2, "read"),
    (3, "read"),
    (4, "read"),
    (6, "read"),
    (12, "read"),
    (0, "set written, before L"),
    (0, "set written, after L"),
    (0, "set written, after refused L"),
    (0, "set written, after J"),
    (0, "set written, after refused J"),
    (0, "judged, before L"),
    (0, "judged, after L"),
    (0, "judged, after refused L"),
    (0, "judged, after J"),
    (7, "judge, after L"),
    (8, "judge, after L"),
    (9, "judge, after L"),
    (10, "judge, after L"),
    (7, "judge, after refused J"),
    (8, "judge, after refused J"),
    (9, "judge, after refused J"),
    (10, "judge, after refused J"),
    (0, "admitted, after J"),
    (0, "withdrawn, after J"),
    (0, "asked, after J"),
    (0, "printed, after J"),
    (0, "written, after J"),
    (0, "lent, exact length, after J"),
    (0, "lent, bytes left over, after J"),
    (5, "admit, after J"),
    (11, "withdraw, after J"),
    (11, "ask, after J"),
    (13, "lent, one byte short, after J"),
    (0, "admitted, after refused J"),
    (0, "printed, after refused J"),
    (0, "written, after refused J"),
    (0, "lent, exact length, after refused J"),
    (0, "lent, bytes left over, after refused J"),
    (11, "withdraw, after refused J"),
    (11, "ask, after refused J"),
    (13, "lent, one byte short, after refused J"),
];

/// What R and F answer where nothing is refused, and what L says of a report.
const REPORTS: [(i64, &str); 10] = [
    (0, "reported, no line"),
    (0, "reported, some lines"),
    (0, "reported, sixteen lines"),
    (0, "reported, some lines, after P"),
    (0, "reported, some lines, after J"),
    (0, "reported, no line, after refused J"),
    (0, "report read, no line"),
    (0, "report read, some lines"),
    (0, "report read, sixteen lines"),
    (12, "read, a report"),
];

/// What the table and the set come from, as the end of an answer's name.
struct Origin {
    table: &'static str,
    set: &'static str,
}

impl Origin {
    const FIRST: Origin = Origin {
        table: "",
        set: ", before L",
    };

    /// That of what the call is made on.
    fn of(&self, call: &Call) -> &'static str {
        match call {
            Call::Fresh(_) | Call::Read(_) | Call::ReadReport(_) => "",
            Call::WriteSet | Call::Judge => self.set,
            _ => self.table,
        }
    }

    fn step(&mut self, call: &Call, refused: bool) {
        match call {
            Call::Fresh(_) => self.table = "",
            Call::Admit(_) | Call::Withdraw(_) if !refused => self.table = "",
            Call::Write => self.table = ", after P",
            Call::Read(_) if refused => self.set = ", after refused L",
            Call::Read(_) => self.set = ", after L",
            Call::Judge => {
                self.table = if refused {
                    ", after refused J"
                } else {
                    ", after J"
                };
                self.set = self.table;
            }
            _ => {}
        }
    }
}

/// The kinds of answers of a sequence of calls.
pub fn of_calls(input: &[u8]) -> io::Result<Tally> {
    let mut tally = Tally {
        wanted: [&ANSWERS[..], &REPORTS, &WAYS].concat(),
        ..Tally::default()
    };
    let mut origin = Origin::FIRST;
    let whole = calls::each(input, |call, answer, kept| {
        let refused = refused(answer);
        let class = class(call, refused.is_some(), kept);
        tally.add(refused.unwrap_or(0), &format!("{class}{}", origin.of(call)));
        origin.step(call, refused.is_some());
        Ok(())
    })?;
    if !whole {
        tally.add(0, "bad call");
    }
    Ok(tally)
}

/// The name of a call, with what else tells its answers apart.
fn class(call: &Call, refused: bool, kept: &Kept) -> String {
    match call {
        Call::Lend(length) => room(*length, kept.table.length()).to_string(),
        Call::Read(_) if !refused => counted("read", kept.set.flows.len(), "flow"),
        Call::Read(plan) if plan.first() == Some(&report::COUNT) => String::from("read, a report"),
        Call::WriteReport => counted("reported", kept.table.figures().len(), "line"),
        Call::ReadReport(bytes) => match report::read(bytes) {
            Ok(lines) => counted("report read", lines.len(), "line"),
            Err(refusal) => report_ways::way(bytes, &refusal),
        },
        _ => kind(call, refused).to_string(),
    }
}

/// A lent buffer beside the plan's length.
fn room(lent: usize, length: usize) -> &'static str {
    match lent {
        0 => "lent, no byte",
        _ if lent + 1 == length => "lent, one byte short",
        _ if lent < length => "lent, shorter",
        _ if lent == length => "lent, exact length",
        _ => "lent, bytes left over",
    }
}

/// What was read or written, by its flows or lines.
fn counted(done: &str, count: usize, what: &str) -> String {
    match count {
        0 => format!("{done}, no {what}"),
        FLOWS => format!("{done}, sixteen {what}s"),
        _ => format!("{done}, some {what}s"),
    }
}

/// The name of a call, refused or not.
fn kind(call: &Call, refused: bool) -> &'static str {
    let (asked, done) = match call {
        Call::Fresh(_) => ("fresh", "fresh"),
        Call::Admit(_) => ("admit", "admitted"),
        Call::Withdraw(_) => ("withdraw", "withdrawn"),
        Call::Ask(_) => ("ask", "asked"),
        Call::Print => ("print", "printed"),
        Call::Write | Call::Lend(_) => ("write", "written"),
        Call::Read(_) => ("read", "read"),
        Call::WriteSet => ("write set", "set written"),
        Call::Judge => ("judge", "judged"),
        Call::WriteReport => ("write report", "reported"),
        Call::ReadReport(_) => ("read report", "report read"),
    };
    if refused {
        asked
    } else {
        done
    }
}

fn refused(answer: &str) -> Option<i64> {
    let rest = answer.strip_prefix("refused ")?;
    rest.split(' ').next()?.parse().ok()
}

#[cfg(test)]
mod tests {
    use super::*;
    use crate::{make_calls, make_frames};

    const NOTHING: [String; 0] = [];

    #[test]
    fn every_answer_to_a_plan_comes_up() {
        let corpus = make_frames::make(2_000, 1);
        assert_eq!(of_frames(&corpus).missing(), NOTHING);
        assert_eq!(make_frames::make(2_000, 1), corpus);
        assert_ne!(make_frames::make(2_000, 2), corpus);
    }

    #[test]
    fn every_answer_to_a_call_comes_up() {
        let calls = make_calls::make(2_000, 1);
        assert_eq!(of_calls(&calls).unwrap().missing(), NOTHING);
        assert_eq!(make_calls::make(2_000, 1), calls);
        assert_ne!(make_calls::make(2_000, 2), calls);
    }

    #[test]
    fn a_missing_answer_is_named() {
        let tally = of_frames(&[]);
        assert_eq!(tally.missing().len(), PLACES.len());
        assert!(tally
            .text()
            .contains("missing: accepted; refused 1 links; refused 2 first flow;"));
    }

    #[test]
    fn ways_of_12() {
        let class = |plan: &[u8]| place_class(plan, &plan::read(plan).unwrap_err());
        assert_eq!(class(&[]), "links, none left");
        assert_eq!(class(&[2]), "links, wrong place");
        assert_eq!(class(&[1, 0]), "links, short body");
        assert_eq!(class(&[1, 0, 1, 0, 1]), "first flow, none left");
        assert_eq!(class(&[1, 0, 1, 0, 1, 2, 0]), "first flow, short body");
        assert_eq!(class(&[1, 0, 1, 0, 1, 9]), "first flow, unknown kind");
        assert_eq!(class(&[1, 0, 1, 0, 1, 0x7F, 0]), "after the end");
    }
}
