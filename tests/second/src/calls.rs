//! Sequences of calls on a table and a set, as bytes, and the answers as lines.

use crate::flow::{push_two, two, Links, Record, BODY};
use crate::frames;
use crate::judge::{line, lines_text};
use crate::plan;
use crate::refusal::Refusal;
use crate::report;
use crate::set::Set;
use crate::table::Table;
use std::io::{self, Write};

#[derive(Clone, Debug, PartialEq, Eq)]
pub enum Call {
    Fresh(Links),
    Admit(Record),
    Withdraw(i64),
    Ask(i64),
    Print,
    Write,
    /// Write into a buffer of so many bytes.
    Lend(usize),
    /// Read these bytes as a plan.
    Read(Vec<u8>),
    WriteSet,
    Judge,
    WriteReport,
    /// Read these bytes as a report.
    ReadReport(Vec<u8>),
}

/// What the calls are made on. RULES, programs.
#[derive(Clone, Debug, Default, PartialEq, Eq)]
pub struct Kept {
    pub table: Table,
    pub set: Set,
}

/// The longest buffer that a call may ask for.
pub const LONGEST: usize = 900;
/// What each byte of a lent buffer is before the call.
const UNTOUCHED: u8 = 0xA5;

/// The call at the start of the bytes and its length; None if it is unknown or
/// cut short, or lends too long a buffer.
fn parse(input: &[u8]) -> Option<(Call, usize)> {
    let body = |length: usize| input.get(1..1 + length);
    match input.first()? {
        b'N' => Some((Call::Fresh(Links::from_bytes(body(4)?)), 5)),
        b'A' => Some((Call::Admit(Record::from_bytes(body(BODY)?)), 1 + BODY)),
        b'W' => Some((Call::Withdraw(i64::from(body(1)?[0])), 2)),
        b'Q' => Some((Call::Ask(i64::from(body(1)?[0])), 2)),
        b'T' => Some((Call::Print, 1)),
        b'P' => Some((Call::Write, 1)),
        b'B' => Some((lend(two(body(2)?, 0) as usize)?, 3)),
        b'L' => with_bytes(Call::Read, &input[1..]),
        b'S' => Some((Call::WriteSet, 1)),
        b'J' => Some((Call::Judge, 1)),
        b'R' => Some((Call::WriteReport, 1)),
        b'F' => with_bytes(Call::ReadReport, &input[1..]),
        _ => None,
    }
}

fn lend(length: usize) -> Option<Call> {
    (length <= LONGEST).then_some(Call::Lend(length))
}

/// A call that is handed a plan or a report, which stands after its length.
fn with_bytes(call: fn(Vec<u8>) -> Call, rest: &[u8]) -> Option<(Call, usize)> {
    let bytes = frames::first(rest)?;
    Some((call(bytes.to_vec()), 3 + bytes.len()))
}

fn letter_and_bytes(letter: u8, bytes: &[u8]) -> Vec<u8> {
    let mut out = vec![letter];
    frames::push(&mut out, bytes);
    out
}

impl Call {
    pub fn bytes(&self) -> Vec<u8> {
        match self {
            Call::Fresh(links) => [b"N".to_vec(), links.bytes()].concat(),
            Call::Admit(record) => [b"A".to_vec(), record.bytes()].concat(),
            Call::Withdraw(number) => vec![b'W', *number as u8],
            Call::Ask(number) => vec![b'Q', *number as u8],
            Call::Print => vec![b'T'],
            Call::Write => vec![b'P'],
            Call::Lend(length) => {
                let mut out = vec![b'B'];
                push_two(&mut out, *length as i64);
                out
            }
            Call::Read(plan) => letter_and_bytes(b'L', plan),
            Call::WriteSet => vec![b'S'],
            Call::Judge => vec![b'J'],
            Call::WriteReport => vec![b'R'],
            Call::ReadReport(report) => letter_and_bytes(b'F', report),
        }
    }

    /// Makes the call and gives the text of its answer.
    pub fn make(&self, kept: &mut Kept) -> String {
        let Kept { table, set } = kept;
        match self {
            Call::Fresh(links) => put(table, Table::fresh(*links), |_| word("fresh")),
            Call::Admit(record) => said(table.admit(record), |_| word("admitted")),
            Call::Withdraw(number) => said(table.withdraw(*number), |_| word("withdrawn")),
            Call::Ask(number) => said(table.ask(*number), |figures| line(&figures)),
            Call::Print => lines_text(table.figures()),
            Call::Write => written(table),
            Call::Lend(length) => lent(table, *length),
            Call::Read(plan) => put(set, plan::read(plan), |set| {
                format!("read {}\n", set.flows.len())
            }),
            Call::WriteSet => hexadecimal(&plan::write(set)),
            Call::Judge => put(table, Table::judge(set), |_| word("judged")),
            Call::WriteReport => reported(table),
            Call::ReadReport(bytes) => report::text(bytes),
        }
    }
}

fn word(word: &str) -> String {
    format!("{word}\n")
}

fn said<T>(answer: Result<T, Refusal>, text: impl FnOnce(T) -> String) -> String {
    match answer {
        Ok(value) => text(value),
        Err(refusal) => format!("{refusal}\n"),
    }
}

/// A table or set is put in the place of the one before; if it is refused, the
/// empty one is. RULES, tables.
fn put<T: Default>(
    place: &mut T,
    answer: Result<T, Refusal>,
    text: impl FnOnce(&T) -> String,
) -> String {
    *place = T::default();
    said(answer, |value| {
        *place = value;
        text(place)
    })
}

/// The plan's bytes in hexadecimal. The calls go on with the table that they
/// give when they are read and judged.
fn written(table: &mut Table) -> String {
    let bytes = plan::write(table.set());
    let again = Table::of_plan(&bytes).expect("the plan of a table is accepted");
    assert_eq!(again, *table, "the plan of a table gives it back");
    *table = again;
    hexadecimal(&bytes)
}

/// The report's bytes in hexadecimal.
fn reported(table: &Table) -> String {
    let bytes = report::write(table.figures());
    let lines = report::read(&bytes).expect("the report of a table is not refused");
    assert_eq!(lines, table.figures(), "a report gives the figures back");
    hexadecimal(&bytes)
}

/// The length that was written or the refusal, then the whole buffer.
fn lent(table: &Table, length: usize) -> String {
    let mut buffer = vec![UNTOUCHED; length];
    let answer = table.write(&mut buffer);
    said(answer, |length| format!("{length}\n")) + &hexadecimal(&buffer)
}

/// A line of two digits a byte.
fn hexadecimal(bytes: &[u8]) -> String {
    let digits: String = bytes.iter().map(|byte| format!("{byte:02x}")).collect();
    format!("{digits}\n")
}

/// Hands each call on, with its answer and what is kept after it, beginning with
/// the table made from the first four bytes. False: a bad call ended them.
pub fn each(
    input: &[u8],
    mut see: impl FnMut(&Call, &str, &Kept) -> io::Result<()>,
) -> io::Result<bool> {
    let Some(links) = input.get(..4) else {
        return Ok(false);
    };
    let mut kept = Kept::default();
    let first = Call::Fresh(Links::from_bytes(links));
    let answer = first.make(&mut kept);
    see(&first, &answer, &kept)?;
    let mut rest = &input[4..];
    while !rest.is_empty() {
        let Some((call, length)) = parse(rest) else {
            return Ok(false);
        };
        let answer = call.make(&mut kept);
        see(&call, &answer, &kept)?;
        rest = &rest[length..];
    }
    Ok(true)
}

/// Answers all calls; "bad call" ends them.
pub fn answer_all(input: &[u8], out: &mut dyn Write) -> io::Result<()> {
    let whole = each(input, |_, answer, _| out.write_all(answer.as_bytes()))?;
    if !whole {
        out.write_all(b"bad call\n")?;
    }
    Ok(())
}

#[cfg(test)]
mod tests {
    use super::*;
    use crate::flow::Flow;

    fn answers(input: &[u8]) -> String {
        let mut out = Vec::new();
        answer_all(input, &mut out).unwrap();
        String::from_utf8(out).unwrap()
    }

    fn flow(number: i64, priority: i64, cost: i64, period: i64) -> Flow {
        Flow {
            number,
            priority,
            period,
            jitter: 0,
            deadline: 60,
            path: vec![1],
            costs: vec![cost],
        }
    }

    fn stream(calls: &[Call]) -> Vec<u8> {
        let mut out = vec![0, 1, 0, 1];
        calls.iter().for_each(|c| out.extend(c.bytes()));
        out
    }

    /// Case 4, flow 2 with this deadline. RULES, cases.
    fn case_4(deadline: i64) -> Vec<u8> {
        let second = Flow {
            deadline,
            ..flow(2, 1, 5, 20)
        };
        plan::write(&Set {
            links: Links { least: 1, most: 1 },
            flows: vec![flow(1, 2, 3, 10), second],
        })
    }

    #[test]
    fn a_session() {
        let one = Call::Admit(flow(1, 2, 3, 10).record());
        let two = Call::Admit(flow(2, 1, 5, 20).record());
        let calls = [
            one.clone(),
            Call::Ask(1),
            two,
            Call::Print,
            one,
            Call::Withdraw(2),
            Call::Ask(2),
        ];
        let text = "fresh\nadmitted\n1 3 0 3\nadmitted\nflow bound jitter busy\n1 7 4 3\n\
                    2 8 3 8\nrefused 5 flow 0 at 0\nwithdrawn\nrefused 11 flow 0 at 0\n";
        assert_eq!(answers(&stream(&calls)), text);
    }

    #[test]
    fn a_refused_fresh_table_is_empty_with_delays_0() {
        let bad = Call::Fresh(Links { least: 2, most: 1 });
        let admit = Call::Admit(flow(9, 0, 1, 10).record());
        let text = "fresh\nadmitted\nrefused 1 flow 0 at 0\n01000000007f\n";
        assert_eq!(answers(&stream(&[admit, bad, Call::Write])), text);
        assert_eq!(
            answers(&[0, 2, 0, 1, b'P']),
            "refused 1 flow 0 at 0\n01000000007f\n"
        );
    }

    /// Six bytes or more hold the empty plan and keep the rest.
    #[test]
    fn lent_buffers() {
        let lend = |length| answers(&stream(&[Call::Lend(length)]));
        assert_eq!(lend(0), "fresh\nrefused 13 flow 0 at 0\n\n");
        assert_eq!(lend(1), "fresh\nrefused 13 flow 0 at 0\na5\n");
        assert_eq!(lend(5), "fresh\nrefused 13 flow 0 at 0\na5a5a5a5a5\n");
        assert_eq!(lend(6), "fresh\n6\n01000100017f\n");
        assert_eq!(lend(8), "fresh\n6\n01000100017fa5a5\n");
        let rest = "a5".repeat(894);
        assert_eq!(lend(900), format!("fresh\n6\n01000100017f{rest}\n"));
    }

    #[test]
    fn a_lent_buffer_leaves_the_table() {
        let admit = Call::Admit(flow(1, 2, 3, 10).record());
        let calls = [admit, Call::Lend(39), Call::Lend(40), Call::Ask(1)];
        let short = "a5".repeat(39);
        let plan =
            "0100010001020102000a0000003c010100000000000000000300000000000000000000000000007f";
        let text =
            format!("fresh\nadmitted\nrefused 13 flow 0 at 0\n{short}\n40\n{plan}\n1 3 0 3\n");
        assert_eq!(answers(&stream(&calls)), text);
    }

    #[test]
    fn calls_go_on_after_a_written_plan() {
        let one = Call::Admit(flow(1, 2, 3, 10).record());
        let two = Call::Admit(flow(2, 1, 5, 20).record());
        let calls = [
            one.clone(),
            Call::Write,
            one,
            two,
            Call::Write,
            Call::Withdraw(1),
            Call::Print,
        ];
        let given = answers(&stream(&calls));
        let lines: Vec<&str> = given.lines().filter(|l| !l.starts_with("01")).collect();
        let wanted = [
            "fresh",
            "admitted",
            "refused 5 flow 0 at 0",
            "admitted",
            "withdrawn",
            "flow bound jitter busy",
            "2 5 0 5",
        ];
        assert_eq!(lines, wanted);
    }

    const CASE_4: &str = "flow bound jitter busy\n1 7 4 3\n2 8 3 8\n";

    #[test]
    fn before_a_reading_the_set_is_empty_with_delays_0() {
        let calls = [Call::WriteSet, Call::Judge, Call::Write, Call::Print];
        let text = "fresh\n01000000007f\njudged\n01000000007f\nflow bound jitter busy\n";
        assert_eq!(answers(&stream(&calls)), text);
    }

    #[test]
    fn a_set_is_judged_again() {
        let calls = [
            Call::Read(case_4(60)),
            Call::Judge,
            Call::Print,
            Call::Withdraw(1),
            Call::Ask(2),
            Call::Judge,
            Call::Print,
        ];
        let text = format!("fresh\nread 2\njudged\n{CASE_4}withdrawn\n2 5 0 5\njudged\n{CASE_4}");
        assert_eq!(answers(&stream(&calls)), text);
    }

    #[test]
    fn a_set_that_judging_refuses_is_kept() {
        let calls = [
            Call::Read(case_4(7)),
            Call::Judge,
            Call::Write,
            Call::Fresh(Links { least: 2, most: 3 }),
            Call::Admit(flow(9, 0, 1, 10).record()),
            Call::WriteSet,
            Call::Judge,
        ];
        let set = hexadecimal(&case_4(7));
        let text = format!(
            "fresh\nread 2\nrefused 10 flow 2 at 0\n01000000007f\nfresh\nadmitted\n{set}\
             refused 10 flow 2 at 0\n"
        );
        assert_eq!(answers(&stream(&calls)), text);
    }

    #[test]
    fn a_refused_reading_leaves_the_empty_set() {
        let mut long = case_4(60);
        long.resize(65_535, 0);
        for (plan, answer) in [
            (&long[..], "refused 12 flow 0 at 74\n"),
            (&long[..73], "refused 12 flow 0 at 73\n"),
            (&[], "refused 12 flow 0 at 0\n"),
        ] {
            let calls = [
                Call::Read(case_4(60)),
                Call::Read(plan.to_vec()),
                Call::WriteSet,
                Call::Judge,
            ];
            let text = format!("fresh\nread 2\n{answer}01000000007f\njudged\n");
            assert_eq!(answers(&stream(&calls)), text);
        }
    }

    #[test]
    fn reading_and_writing_the_set_leave_the_table() {
        let calls = [
            Call::Read(case_4(60)),
            Call::Judge,
            Call::Read(case_4(7)),
            Call::WriteSet,
            Call::Read(vec![]),
            Call::WriteSet,
            Call::Print,
        ];
        let set = hexadecimal(&case_4(7));
        let text = format!(
            "fresh\nread 2\njudged\nread 2\n{set}refused 12 flow 0 at 0\n01000000007f\n{CASE_4}"
        );
        assert_eq!(answers(&stream(&calls)), text);
    }

    /// Case 4 as a report. RULES, programs.
    const CASE_4_REPORT: [u8; 19] = [
        0x10, 2, 0x11, 1, 0, 7, 0, 4, 0, 3, 0x11, 2, 0, 8, 0, 3, 0, 8, 0x1F,
    ];

    #[test]
    fn reports_leave_table_and_set() {
        let cut = &CASE_4_REPORT[..18];
        let calls = [
            Call::WriteReport,
            Call::Read(case_4(60)),
            Call::Judge,
            Call::WriteReport,
            Call::ReadReport(vec![0x10, 0, 0x1F]),
            Call::ReadReport(cut.to_vec()),
            Call::ReadReport(CASE_4_REPORT.to_vec()),
            Call::Print,
            Call::WriteSet,
        ];
        let report = hexadecimal(&CASE_4_REPORT);
        let set = hexadecimal(&case_4(60));
        let text = format!(
            "fresh\n10001f\nread 2\njudged\n{report}flow bound jitter busy\n\
             refused 12 flow 0 at 18\n{CASE_4}{CASE_4}{set}"
        );
        assert_eq!(answers(&stream(&calls)), text);
    }

    #[test]
    fn plans_and_reports_are_told_apart() {
        let calls = [
            Call::Read(CASE_4_REPORT.to_vec()),
            Call::ReadReport(case_4(60)),
        ];
        let text = "fresh\nrefused 12 flow 0 at 0\nrefused 12 flow 0 at 0\n";
        assert_eq!(answers(&stream(&calls)), text);
    }

    #[test]
    fn bad_calls_end_the_answers() {
        assert_eq!(answers(&[]), "bad call\n");
        assert_eq!(answers(&[0, 1, 0]), "bad call\n");
        assert_eq!(answers(&[0, 1, 0, 1]), "fresh\n");
        assert_eq!(answers(&[0, 1, 0, 1, b'X', b'T']), "fresh\nbad call\n");
        assert_eq!(answers(&[0, 1, 0, 1, b'Q']), "fresh\nbad call\n");
        assert_eq!(answers(&[0, 1, 0, 1, b'N', 0, 0, 0]), "fresh\nbad call\n");
        assert_eq!(answers(&[0, 1, 0, 1, b'B']), "fresh\nbad call\n");
        assert_eq!(answers(&[0, 1, 0, 1, b'B', 0]), "fresh\nbad call\n");
        // 901 bytes, and 65,535.
        assert_eq!(answers(&[0, 1, 0, 1, b'B', 3, 133]), "fresh\nbad call\n");
        assert_eq!(answers(&[0, 1, 0, 1, b'B', 255, 255]), "fresh\nbad call\n");
        assert_eq!(answers(&[0, 1, 0, 1, b'L', 0]), "fresh\nbad call\n");
        assert_eq!(answers(&[0, 1, 0, 1, b'L', 255, 255]), "fresh\nbad call\n");
        assert_eq!(answers(&[0, 1, 0, 1, b'F', 0]), "fresh\nbad call\n");
        assert_eq!(answers(&[0, 1, 0, 1, b'F', 255, 255]), "fresh\nbad call\n");
        for call in [
            Call::Admit(flow(1, 1, 1, 10).record()),
            Call::Read(case_4(60)),
            Call::ReadReport(vec![0x10, 0, 0x1F]),
        ] {
            let mut cut = stream(&[call]);
            cut.pop();
            assert_eq!(answers(&cut), "fresh\nbad call\n");
        }
    }

    #[test]
    fn calls_go_and_come_back() {
        let calls = [
            Call::Fresh(Links {
                least: 258,
                most: 4_095,
            }),
            Call::Admit(flow(255, 255, 4_095, 65_535).record()),
            Call::Withdraw(200),
            Call::Ask(0),
            Call::Print,
            Call::Write,
            Call::Lend(0),
            Call::Lend(LONGEST),
            Call::Read(vec![]),
            Call::Read(case_4(60)),
            Call::Read(vec![b'J'; 65_535]),
            Call::WriteSet,
            Call::Judge,
            Call::WriteReport,
            Call::ReadReport(vec![]),
            Call::ReadReport(vec![b'R'; 65_535]),
        ];
        for call in calls {
            let bytes = call.bytes();
            assert_eq!(parse(&bytes), Some((call, bytes.len())));
        }
    }
}
