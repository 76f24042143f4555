//! The rules' cases, and figures that a likely mistake would give. All figures
//! are typed from the rules (RULES, cases); nothing here is worked out by the
//! program that is being checked.

use crate::flow::{Flow, Links};
use crate::judge;
use crate::plan;
use crate::refusal::Refusal;
use crate::report;
use crate::set::Set;
use crate::table::Table;
use crate::verdict::{judge_set, Figures};

/// Bound, jitter, busy.
type Row = (i64, i64, i64);

/// The link delays of every case.
const LINKS: Links = Links { least: 1, most: 1 };

/// Differences found, as lines to print.
#[derive(Default)]
pub struct Findings {
    pub checks: usize,
    pub differences: Vec<String>,
}

impl Findings {
    fn same<T: PartialEq + std::fmt::Debug>(&mut self, name: &str, given: T, wanted: T) {
        self.checks += 1;
        if given != wanted {
            self.differences
                .push(format!("{name}: {given:?}, not {wanted:?}"));
        }
    }

    fn unlike<T: PartialEq + std::fmt::Debug>(&mut self, name: &str, given: T, wrong: T) {
        self.checks += 1;
        if given == wrong {
            self.differences
                .push(format!("{name}: {given:?} is what a likely mistake gives"));
        }
    }

    /// The flows are judged as a plan, as a set, and by admissions in both
    /// orders of number; the table's report is read.
    fn figures(&mut self, name: &str, flows: &[Flow], wanted: &[Row]) {
        let rows: Vec<Figures> = flows
            .iter()
            .zip(wanted)
            .map(|(f, w)| figures(f.number, *w))
            .collect();
        let set = set(flows);
        self.comes_back(name, &set);
        self.same(name, report::read(&reported(flows)), Ok(rows.clone()));
        self.same(name, planned(&set), Ok(rows.clone()));
        self.same(name, judge_set(&set), Ok(rows.clone()));
        self.same(
            name,
            admitted(flows.iter()).figures().to_vec(),
            rows.clone(),
        );
        self.same(name, admitted(flows.iter().rev()).figures().to_vec(), rows);
    }

    fn refused(&mut self, name: &str, flows: &[Flow], number: i64, flow: i64) {
        let wanted = Refusal::of_flow(number, flow);
        let set = set(flows);
        self.comes_back(name, &set);
        self.same(name, planned(&set), Err(wanted));
        let (last, older) = flows.split_last().expect("a case has a flow");
        let mut table = admitted(older.iter());
        let before = table.clone();
        self.same(name, table.admit(&last.record()), Err(wanted));
        self.same(name, table, before);
    }

    /// Whatever judging says of it. RULES, demands.
    fn comes_back(&mut self, name: &str, set: &Set) {
        let read = plan::read(&plan::write(set));
        self.same(name, read, Ok(set.clone()));
    }
}

fn figures(number: i64, row: Row) -> Figures {
    Figures {
        number,
        bound: row.0,
        jitter: row.1,
        busy: row.2,
    }
}

/// What a case leaves unsaid: node 1 alone, no jitter, a deadline of 60 ticks.
/// Priority 1.
fn flow(number: i64, cost: i64, period: i64) -> Flow {
    Flow {
        number,
        priority: 1,
        period,
        jitter: 0,
        deadline: 60,
        path: vec![1],
        costs: vec![cost],
    }
}

fn on(path: &[i64], costs: &[i64], flow: Flow) -> Flow {
    Flow {
        path: path.to_vec(),
        costs: costs.to_vec(),
        ..flow
    }
}

fn with_deadline(deadline: i64, flow: Flow) -> Flow {
    Flow { deadline, ..flow }
}

fn with_jitter(jitter: i64, flow: Flow) -> Flow {
    Flow { jitter, ..flow }
}

fn with_priority(priority: i64, flow: Flow) -> Flow {
    Flow { priority, ..flow }
}

fn set(flows: &[Flow]) -> Set {
    Set {
        links: LINKS,
        flows: flows.to_vec(),
    }
}

/// What a set gives by way of its plan.
fn planned(set: &Set) -> Result<Vec<Figures>, Refusal> {
    let table = Table::of_plan(&plan::write(set))?;
    Ok(table.figures().to_vec())
}

/// A table after admissions; a refused one leaves its flow out, which shows in
/// the figures.
fn admitted<'a>(flows: impl Iterator<Item = &'a Flow>) -> Table {
    let mut table = Table::fresh(LINKS).expect("delays in range");
    for flow in flows {
        let _ = table.admit(&flow.record());
    }
    table
}

/// The report of the table with these flows.
fn reported(flows: &[Flow]) -> Vec<u8> {
    report::write(admitted(flows.iter()).figures())
}

fn case_3() -> [Flow; 2] {
    [flow(1, 3, 10), flow(2, 5, 20)]
}

fn case_4() -> [Flow; 2] {
    let [first, second] = case_3();
    [with_priority(2, first), second]
}

fn case_5() -> [Flow; 2] {
    let [first, second] = case_4();
    [with_jitter(8, first), second]
}

fn case_6() -> [Flow; 2] {
    [with_jitter(10, flow(1, 1, 100)), flow(2, 50, 100)]
}

fn case_10(jitter: i64) -> [Flow; 1] {
    [with_deadline(65_535, with_jitter(jitter, flow(1, 1, 10)))]
}

/// Cases 1 to 14, then the rows of "The report".
pub fn cases(out: &mut Findings) {
    case_1(out);
    out.figures(
        "case 2",
        &[on(&[1, 2], &[4, 4], flow(1, 4, 20))],
        &[(9, 0, 4)],
    );
    out.figures("case 3", &case_3(), &[(8, 5, 8), (8, 3, 8)]);
    out.figures("case 4", &case_4(), &[(7, 4, 3), (8, 3, 8)]);
    case_4_text(out);
    out.figures("case 5", &case_5(), &[(15, 12, 3), (11, 6, 8)]);
    out.figures("case 6", &case_6(), &[(51, 50, 51), (51, 1, 51)]);
    let long = on(&[1, 2], &[4, 4], flow(1, 4, 20));
    let short = on(&[2], &[3], flow(2, 3, 20));
    out.figures("case 7", &[long, short], &[(12, 3, 7), (7, 4, 7)]);
    out.figures(
        "case 8",
        &[flow(1, 5, 10), flow(2, 5, 10)],
        &[(10, 5, 10), (10, 5, 10)],
    );
    out.refused("case 9", &[flow(1, 6, 10), flow(2, 5, 10)], 8, 1);
    out.figures("case 10", &case_10(65_534), &[(65_535, 65_534, 1)]);
    out.refused("case 10", &case_10(65_535), 9, 0);
    let [first, second] = case_4();
    let tight = |d| [first.clone(), with_deadline(d, second.clone())];
    out.figures("case 11", &tight(8), &[(7, 4, 3), (8, 3, 8)]);
    out.refused("case 11", &tight(7), 10, 2);
    case_12(out);
    case_13(out);
    case_14(out);
    reports(out);
}

fn case_1(out: &mut Findings) {
    let bytes = plan::write(&set(&[]));
    out.same("case 1", bytes.clone(), vec![0x01, 0, 1, 0, 1, 0x7F]);
    out.same(
        "case 1",
        judge::text(&bytes),
        String::from("flow bound jitter busy\n"),
    );
}

/// What `judge` prints, to the last byte. RULES, programs.
fn case_4_text(out: &mut Findings) {
    let text = judge::text(&plan::write(&set(&case_4())));
    out.same(
        "case 4, text",
        text,
        String::from("flow bound jitter busy\n1 7 4 3\n2 8 3 8\n"),
    );
}

fn case_12(out: &mut Findings) {
    let [first, second] = case_3();
    let first = with_deadline(7, first);
    out.figures("case 12, alone", std::slice::from_ref(&first), &[(3, 0, 3)]);
    out.refused("case 12", &[first, second], 10, 1);
}

fn case_13(out: &mut Findings) {
    let long = on(&[1, 2, 3], &[1, 1, 1], flow(1, 1, 10));
    let short = on(&[1, 3], &[1, 1], flow(2, 1, 10));
    let pair = |p, q| {
        [
            with_priority(p, long.clone()),
            with_priority(q, short.clone()),
        ]
    };
    out.same(
        "case 13, second higher",
        judge_set(&set(&pair(1, 2))).is_ok(),
        true,
    );
    out.refused("case 13, equal", &pair(1, 1), 7, 2);
    out.refused("case 13, second lower", &pair(2, 1), 7, 2);
    // The same paths with the numbers exchanged: the shorter path is at fault.
    let swapped = |p, q| {
        let [a, b] = pair(p, q);
        [Flow { number: 1, ..b }, Flow { number: 2, ..a }]
    };
    out.same(
        "case 13, first higher",
        judge_set(&set(&swapped(1, 2))).is_ok(),
        true,
    );
    out.refused("case 13, exchanged, equal", &swapped(1, 1), 7, 1);
    out.refused("case 13, exchanged, first lower", &swapped(2, 1), 7, 1);
}

fn case_14(out: &mut Findings) {
    let mut table = admitted(case_3().iter());
    out.same("case 14", table.withdraw(2), Ok(()));
    out.same("case 14", table.ask(1), Ok(figures(1, (3, 0, 3))));
    let [first, _] = case_3();
    out.same("case 14, table", table, admitted([first].iter()));
}

/// Bytes and their outcome. RULES, the report.
fn reports(out: &mut Findings) {
    let mut row = |bytes: &[u8], wanted| out.same("a report", report::read(bytes), wanted);
    row(&[0x10, 0x00, 0x1F], Ok(vec![]));
    row(
        &[0x10, 0x02, 0x11, 0x01, 0, 0, 0, 0, 0, 5, 0xFF],
        Err(Refusal::at(3, 2)),
    );
    row(&[0x10, 0x01, 0x1F], Err(Refusal::at(12, 2)));
    row(&[0x10, 0x11], Err(Refusal::at(12, 0)));
    row(&[0x10, 0x11, 0x1F], Err(Refusal::at(12, 0)));
    let one = [0x10, 0x01, 0x11, 0x01, 0, 7, 0, 4, 0, 3, 0x1F, 0];
    row(&one[..11], Ok(vec![figures(1, (7, 4, 3))]));
    row(&one, Err(Refusal::at(12, 11)));
    let [first, _] = case_4();
    out.same(
        "a plan",
        report::read(&plan::write(&set(&[first]))),
        Err(Refusal::at(12, 0)),
    );
    out.same("a report", plan::read(&one[..11]), Err(Refusal::at(12, 0)));
    let two = reported(&case_4());
    out.same("a report, length", two.len(), 3 + 8 * 2);
    out.same(
        "a report, first line",
        two[2..10].to_vec(),
        one[2..10].to_vec(),
    );
}

/// Likely mistakes. RULES, errors.
pub fn errors(out: &mut Findings) {
    let bound = |flows: &[Flow], i: usize| judge_set(&set(flows)).map(|f| f[i].bound);
    out.unlike("trying only t = -J", bound(&case_6(), 0), Ok(11));
    out.unlike("rounding towards zero", bound(&case_6(), 0), Ok(61));
    out.unlike("whole lower cost", bound(&case_4(), 0), Ok(8));
    exchanged(out);
    exchanged_figures(out);
    older_figures(out);
    long_iteration(out);
}

/// T and J exchanged in case 5: for flow 1 the bounds would be 17 and 14; flow
/// 2 would have no period. The exchanged plan has those figures and case 5 not.
fn exchanged(out: &mut Findings) {
    let [first, second] = case_5();
    let exchange = |f: &Flow| Flow {
        period: f.jitter,
        jitter: f.period,
        ..f.clone()
    };
    let bounds = |flows: &[Flow]| -> Vec<i64> {
        judge_set(&set(flows)).map_or(vec![], |f| f.iter().map(|x| x.bound).collect())
    };
    out.same(
        "exchanged",
        bounds(&[exchange(&first), second.clone()]),
        vec![17, 14],
    );
    out.unlike("exchanged", bounds(&case_5()), vec![17, 14]);
    let broken = plan::write(&set(&[first, exchange(&second)]));
    out.same("exchanged", plan::read(&broken), Err(Refusal::at(3, 39)));
}

/// Jitter and busy length exchanged in the report of case 5: flow 1 would have
/// 15/3/12, which nothing refuses.
fn exchanged_figures(out: &mut Findings) {
    let first = |report: &[u8]| report::read(report).map(|lines| lines[0]);
    let mut bytes = reported(&case_5());
    let wrong = figures(1, (15, 3, 12));
    out.unlike("exchanged figures", first(&bytes), Ok(wrong));
    bytes[6..10].rotate_left(2);
    out.same("exchanged figures", first(&bytes), Ok(wrong));
}

fn older_figures(out: &mut Findings) {
    let [first, second] = case_3();
    let mut table = admitted([first].iter());
    let alone = table.ask(1);
    out.same("older figures", table.admit(&second.record()), Ok(()));
    out.unlike("older figures", table.ask(1), alone);
}

/// Sets that take long to come to rest, though settled bounds exist: a ring of
/// two flows (some hundred rounds) and a tangle of three (some thousand).
fn long_iteration(out: &mut Findings) {
    let ring = |number, path: &[i64], jitter| {
        let base = flow(number, 1, 100);
        with_deadline(65_535, with_jitter(jitter, on(path, &[50, 50], base)))
    };
    let ring = [ring(1, &[1, 2], 1), ring(2, &[2, 1], 0)];
    out.same("long iteration, ring", judge_set(&set(&ring)).is_ok(), true);
    let tangle = |number, path: &[i64], jitter| {
        let base = flow(number, 1, 3);
        with_deadline(65_535, with_jitter(jitter, on(path, &[1, 1, 1, 1], base)))
    };
    let flows = vec![
        tangle(1, &[3, 4, 2, 1], 8),
        tangle(2, &[4, 1, 3, 2], 8),
        tangle(3, &[2, 1, 4, 3], 15),
    ];
    let tangle = Set {
        links: Links { least: 0, most: 3 },
        flows,
    };
    out.same("long iteration, tangle", judge_set(&tangle).is_ok(), true);
}

#[cfg(test)]
mod tests {
    use super::*;

    fn all_agree(check: fn(&mut Findings)) {
        let mut out = Findings::default();
        check(&mut out);
        assert!(out.checks > 0);
        assert!(out.differences.is_empty(), "{:#?}", out.differences);
    }

    #[test]
    fn the_rules_cases() {
        all_agree(cases);
    }

    #[test]
    fn likely_mistakes() {
        all_agree(errors);
    }

    #[test]
    fn a_difference_is_reported() {
        let mut out = Findings::default();
        out.figures("wrong", &case_3(), &[(8, 5, 8), (8, 3, 9)]);
        // All but the reading back of the set.
        assert_eq!(out.differences.len() + 1, out.checks);
    }
}
