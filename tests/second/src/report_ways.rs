//! At which record a report is refused, and for what. RULES, the report.

use crate::flow::FLOWS;
use crate::plan;
use crate::refusal::Refusal;
use crate::report::{self, BODY};
use crate::verdict::Figures;

/// The ways that have to come up, by refusal number. "Count" is the record at the
/// start, "line" one of those announced and "end" what comes after them, whatever
/// its kind. "Figures too": 3 would apply as well.
pub const WAYS: [(i64, &str); 40] = [
    (3, "report, first line, bound 0"),
    (3, "report, first line, busy 0"),
    (3, "report, first line, jitter as the bound"),
    (3, "report, first line, jitter above the bound"),
    (3, "report, later line, bound 0"),
    (3, "report, later line, busy 0"),
    (3, "report, later line, jitter as the bound"),
    (3, "report, later line, jitter above the bound"),
    (12, "report, count, none left"),
    (12, "report, count, short body"),
    (12, "report, count, unknown kind"),
    (12, "report, count, plan's kind"),
    (12, "report, count, wrong place"),
    (12, "report, count, above sixteen"),
    (12, "report, first line, none left"),
    (12, "report, first line, short body"),
    (12, "report, first line, unknown kind"),
    (12, "report, first line, plan's kind"),
    (12, "report, first line, wrong place"),
    (12, "report, first line, early end"),
    (12, "report, first line, number 0"),
    (12, "report, first line, number 0, figures too"),
    (12, "report, later line, none left"),
    (12, "report, later line, short body"),
    (12, "report, later line, unknown kind"),
    (12, "report, later line, plan's kind"),
    (12, "report, later line, wrong place"),
    (12, "report, later line, early end"),
    (12, "report, later line, number 0"),
    (12, "report, later line, not rising"),
    (12, "report, later line, not rising, figures too"),
    (12, "report, end, none left"),
    (12, "report, end, unknown kind"),
    (12, "report, end, plan's kind"),
    (12, "report, end, wrong place"),
    (12, "report, end, one line more"),
    (12, "report, end, one line more, figures too"),
    (12, "report, sixteenth's end, one line more"),
    (12, "report, after the end"),
    (12, "report, after the sixteenth's end"),
];

/// What stands at a place at which a report is refused.
#[derive(Clone, Copy, PartialEq)]
enum Record {
    Count,
    FirstLine,
    LaterLine,
    End,
    AfterEnd,
}

/// Record and way of a refused report.
pub fn way(report: &[u8], refusal: &Refusal) -> String {
    let place = refusal.place;
    let record = record(report, place);
    let name = name(record, report);
    let rest = &report[place..];
    match (refusal.number, record) {
        (3, _) => format!("{name}, {}", figures(&report::from_bytes(&rest[1..]))),
        (_, Record::AfterEnd) => name,
        _ => format!("{name}, {}", form(record, rest)),
    }
}

/// At any place but the first the count has been read.
fn record(report: &[u8], place: usize) -> Record {
    if place == 0 {
        return Record::Count;
    }
    let end = report::length(usize::from(report[1])) - 1;
    match place {
        _ if place > end => Record::AfterEnd,
        _ if place == end => Record::End,
        2 => Record::FirstLine,
        _ => Record::LaterLine,
    }
}

fn name(record: Record, report: &[u8]) -> String {
    let full = report.get(1) == Some(&(FLOWS as u8));
    let word = match record {
        Record::Count => "count",
        Record::FirstLine => "first line",
        Record::LaterLine => "later line",
        Record::End if full => "sixteenth's end",
        Record::End => "end",
        Record::AfterEnd if full => "after the sixteenth's end",
        Record::AfterEnd => "after the end",
    };
    format!("report, {word}")
}

/// Why 3.
fn figures(line: &Figures) -> &'static str {
    match line {
        _ if line.bound == 0 => "bound 0",
        _ if line.busy == 0 => "busy 0",
        _ if line.jitter == line.bound => "jitter as the bound",
        _ => "jitter above the bound",
    }
}

/// Why 12, of the bytes from the record on.
fn form(record: Record, rest: &[u8]) -> String {
    let first = record == Record::Count;
    let word = match rest.first() {
        None => "none left",
        Some(&report::COUNT) if first && rest.len() == 1 => "short body",
        Some(&report::COUNT) if first => "above sixteen",
        Some(&report::LINE) if !first => return line(record, rest),
        Some(&report::END) if !first => "early end",
        Some(&report::COUNT | &report::LINE | &report::END) => "wrong place",
        Some(&plan::LINKS | &plan::FLOW | &plan::END) => "plan's kind",
        Some(_) => "unknown kind",
    };
    word.to_string()
}

/// Why 12, of an 11.
fn line(record: Record, rest: &[u8]) -> String {
    let body = rest.get(1..1 + BODY).map(report::from_bytes);
    let word = match body {
        _ if record == Record::End => "one line more",
        None => return String::from("short body"),
        Some(line) if line.number == 0 => "number 0",
        Some(_) => "not rising",
    };
    match body {
        Some(line) if !report::possible(&line) => format!("{word}, figures too"),
        _ => word.to_string(),
    }
}

#[cfg(test)]
mod tests {
    use super::*;

    #[test]
    fn ways_of_12_and_3() {
        let way = |report: &[u8]| way(report, &report::read(report).unwrap_err());
        assert_eq!(way(&[]), "report, count, none left");
        assert_eq!(way(&[0x10]), "report, count, short body");
        assert_eq!(way(&[0x10, 17]), "report, count, above sixteen");
        assert_eq!(way(&[1, 0, 1]), "report, count, plan's kind");
        assert_eq!(way(&[0x1F]), "report, count, wrong place");
        assert_eq!(way(&[0x10, 0]), "report, end, none left");
        assert_eq!(way(&[0x10, 0, 0x12]), "report, end, unknown kind");
        assert_eq!(way(&[0x10, 0, 0x11]), "report, end, one line more");
        assert_eq!(way(&[0x10, 0, 0x1F, 0]), "report, after the end");
        assert_eq!(way(&[0x10, 1]), "report, first line, none left");
        assert_eq!(way(&[0x10, 1, 0x11]), "report, first line, short body");
        assert_eq!(way(&[0x10, 1, 0x10, 0]), "report, first line, wrong place");
        assert_eq!(way(&[0x10, 1, 0x1F]), "report, first line, early end");
        let bad = [0x10, 1, 0x11, 0, 0, 1, 0, 1, 0, 1, 0x1F];
        assert_eq!(way(&bad), "report, first line, number 0, figures too");
        let bad = [0x10, 1, 0x11, 1, 0, 1, 0, 1, 0, 1, 0x1F];
        assert_eq!(way(&bad), "report, first line, jitter as the bound");
    }
}
