//! The sentences of RULES, the report, each by itself: which records it refuses,
//! and by which number, whatever the others say of them. Of all that they say the
//! least place counts, and there 12 before 3. The program has to agree on short
//! strings, on rows of records and on reports with changed bytes. Misreadings, one
//! at a time, show that the reports of tests/cases, and those that are made, tell
//! them from the rules.

use second::calls::{each, Call};
use second::dice::Dice;
use second::refusal::Refusal;
use second::report::{read, write};
use second::report_damage::made_up;
use second::table::Table;
use second::verdict::Figures;
use second::{frames, make_calls, make_frames};
use std::process::Command;

/// The rules as they are meant, or one place of them misread.
#[derive(Clone, Copy, Debug, PartialEq)]
enum Reading {
    Right,
    /// No bytes are a report without lines.
    NothingIsNoLines,
    /// The end may be missing.
    NoEndNeeded,
    /// 7F is an end too.
    PlansEnd,
    /// A kind that is not known is passed over.
    UnknownPassedOver,
    /// So is what follows the end.
    AfterEndPassedOver,
    /// What follows the end is refused at the end's place.
    AfterEndAtTheEnd,
    /// A body that is cut short is refused where the report ends.
    CutAtTheLength,
    SixteenTooMany,
    /// More than sixteen are refused at the seventeenth line.
    SeventeenLater,
    /// Lines go on as long as there are any; that they are not as many as were
    /// announced is refused at the record after them, or at the count.
    CountedAtTheEnd,
    CountedAtTheCount,
    /// Number 0 gets 2, as in a plan.
    NumberZeroIsTwo,
    NumberZeroFirst,
    SameNumberAgain,
    /// A number has to be above the first one only.
    AboveTheFirst,
    /// 3 before 12 in a record, or in a line after as many as were announced.
    FiguresFirst,
    OneMoreByFigures,
    /// 12 of any record before 3 of any other.
    FormFirst,
    /// Figures that are passed, and some that are not.
    JitterAsBound,
    BusyZero,
    BusyAboveBound,
    JitterZero,
    /// Figures misread.
    LowByteFirst,
    LowByteAlone,
    JitterForBusy,
}

const MISREADINGS: [Reading; 25] = [
    Reading::NothingIsNoLines,
    Reading::NoEndNeeded,
    Reading::PlansEnd,
    Reading::UnknownPassedOver,
    Reading::AfterEndPassedOver,
    Reading::AfterEndAtTheEnd,
    Reading::CutAtTheLength,
    Reading::SixteenTooMany,
    Reading::SeventeenLater,
    Reading::CountedAtTheEnd,
    Reading::CountedAtTheCount,
    Reading::NumberZeroIsTwo,
    Reading::NumberZeroFirst,
    Reading::SameNumberAgain,
    Reading::AboveTheFirst,
    Reading::FiguresFirst,
    Reading::OneMoreByFigures,
    Reading::FormFirst,
    Reading::JitterAsBound,
    Reading::BusyZero,
    Reading::BusyAboveBound,
    Reading::JitterZero,
    Reading::LowByteFirst,
    Reading::LowByteAlone,
    Reading::JitterForBusy,
];

const COUNT: u8 = 0x10;
const LINE: u8 = 0x11;
const END: u8 = 0x1F;
const PLANS_END: u8 = 0x7F;

/// Place and number of a refusal.
type Complaint = (usize, i64);

/// Where the k-th record begins, if those before it are what they should be: the
/// count is record 0.
fn place(k: usize) -> usize {
    (8 * k).saturating_sub(6)
}

struct Sentences<'a> {
    bytes: &'a [u8],
    reading: Reading,
}

impl Sentences<'_> {
    fn is(&self, reading: Reading) -> bool {
        self.reading == reading
    }

    fn kind(&self, k: usize) -> Option<u8> {
        self.bytes.get(place(k)).copied()
    }

    /// How many lines there should be.
    fn announced(&self) -> usize {
        self.bytes.get(1).copied().map_or(0, usize::from)
    }

    /// The record after the lines.
    fn last(&self) -> usize {
        match self.reading {
            Reading::CountedAtTheEnd | Reading::CountedAtTheCount => {
                1 + (1..).take_while(|k| self.kind(*k) == Some(LINE)).count()
            }
            _ => 1 + self.announced(),
        }
    }

    fn two(&self, at: usize) -> i64 {
        let (high, low) = (i64::from(self.bytes[at]), i64::from(self.bytes[at + 1]));
        match self.reading {
            Reading::LowByteFirst => 256 * low + high,
            Reading::LowByteAlone => low,
            _ => 256 * high + low,
        }
    }

    /// The fields of the k-th record, if it is a whole 11.
    fn line(&self, k: usize) -> Option<Figures> {
        let at = place(k);
        if self.kind(k) != Some(LINE) || self.bytes.len() < at + 8 {
            return None;
        }
        let (jitter, busy) = match self.reading {
            Reading::JitterForBusy => (at + 6, at + 4),
            _ => (at + 4, at + 6),
        };
        Some(Figures {
            number: i64::from(self.bytes[at + 1]),
            bound: self.two(at + 2),
            jitter: self.two(jitter),
            busy: self.two(busy),
        })
    }

    fn number(&self, k: usize) -> Option<i64> {
        self.line(k).map(|line| line.number)
    }

    /// "There is no kind byte, or no such kind".
    fn no_kind(&self, k: usize) -> bool {
        match self.kind(k) {
            None => !(k == self.last() && self.is(Reading::NoEndNeeded)),
            Some(PLANS_END) => !(k == self.last() && self.is(Reading::PlansEnd)),
            Some(kind) => ![COUNT, LINE, END].contains(&kind),
        }
    }

    /// "Or the body is cut short".
    fn cut_short(&self, k: usize) -> bool {
        let body = match self.kind(k) {
            Some(COUNT) => 1,
            Some(LINE) => 7,
            _ => 0,
        };
        self.kind(k).is_some() && self.bytes.len() < place(k) + 1 + body
    }

    /// "Or this kind may not stand here".
    fn may_not_stand(&self, k: usize) -> bool {
        match self.kind(k) {
            Some(COUNT) => k != 0,
            Some(_) => k == 0,
            None => false,
        }
    }

    /// "A 10 that says more than sixteen".
    fn above_sixteen(&self, k: usize) -> bool {
        let most = if self.is(Reading::SixteenTooMany) {
            15
        } else {
            16
        };
        match self.reading {
            Reading::SeventeenLater => k == 17 && self.announced() > most,
            _ => k == 0 && self.kind(0) == Some(COUNT) && self.announced() > most,
        }
    }

    /// "An 11 whose number is 0".
    fn number_0(&self, k: usize) -> bool {
        self.number(k) == Some(0)
            && !self.is(Reading::NumberZeroIsTwo)
            && !(k == 1 && self.is(Reading::NumberZeroFirst))
    }

    /// "Or not above the one before".
    fn not_above(&self, k: usize) -> bool {
        let before = match self.reading {
            Reading::AboveTheFirst => 1,
            _ => k.saturating_sub(1),
        };
        match (self.number(k), self.number(before)) {
            (Some(0), _) if self.is(Reading::NumberZeroIsTwo) => false,
            _ if k < 2 => false,
            (Some(own), Some(other)) if self.is(Reading::SameNumberAgain) => own < other,
            (Some(own), Some(other)) => own <= other,
            _ => false,
        }
    }

    /// "An 11 after as many as were announced".
    fn one_more(&self, k: usize) -> bool {
        k == self.last() && self.kind(k) == Some(LINE)
    }

    /// "A 1F before there are as many".
    fn early(&self, k: usize) -> bool {
        (1..self.last()).contains(&k) && self.kind(k) == Some(END)
    }

    /// "The bound is 0, or the busy length is 0, or the jitter is not less than
    /// the bound."
    fn impossible(&self, k: usize) -> bool {
        let Some(line) = self.line(k) else {
            return false;
        };
        let jitter = match self.reading {
            Reading::JitterAsBound => line.jitter > line.bound,
            Reading::JitterZero => line.jitter >= line.bound || line.jitter == 0,
            _ => line.jitter >= line.bound,
        };
        let busy = match self.reading {
            Reading::BusyZero => false,
            Reading::BusyAboveBound => line.busy == 0 || line.busy > line.bound,
            _ => line.busy == 0,
        };
        line.bound == 0 || busy || jitter
    }

    /// "What follows the 1F gets 12 at its own place."
    fn after_end(&self) -> Option<Complaint> {
        let end = place(self.last());
        let more = self.kind(self.last()) == Some(END) && self.bytes.len() > end + 1;
        match self.reading {
            Reading::AfterEndPassedOver => None,
            Reading::AfterEndAtTheEnd => more.then_some((end, 12)),
            _ => more.then_some((end + 1, 12)),
        }
    }

    /// That there are as many lines as announced, for the readings in which the
    /// record after the lines is sought by its kind.
    fn counted(&self) -> Option<Complaint> {
        let wrong = self.last() != 1 + self.announced();
        match self.reading {
            Reading::CountedAtTheEnd => wrong.then_some((place(self.last()), 12)),
            Reading::CountedAtTheCount => wrong.then_some((0, 12)),
            _ => None,
        }
    }

    fn of_record(&self, k: usize) -> Vec<Complaint> {
        let form = [
            self.no_kind(k),
            self.may_not_stand(k),
            self.above_sixteen(k),
            self.number_0(k),
            self.not_above(k),
            self.one_more(k) && !self.is(Reading::OneMoreByFigures),
            self.early(k),
        ];
        let mut out: Vec<Complaint> = form
            .iter()
            .filter(|f| **f)
            .map(|_| (place(k), 12))
            .collect();
        if self.cut_short(k) {
            let at = match self.reading {
                Reading::CutAtTheLength => self.bytes.len(),
                _ => place(k),
            };
            out.push((at, 12));
        }
        if self.is(Reading::NumberZeroIsTwo) && self.number(k) == Some(0) {
            out.push((place(k), 2));
        }
        if self.is(Reading::OneMoreByFigures) && self.one_more(k) && !self.impossible(k) {
            out.push((place(k), 12));
        }
        if self.impossible(k) {
            out.push((place(k), 3));
        }
        out
    }

    /// All that is said. What is said of a record after one that is refused is
    /// said of bytes that need not begin a record, and does not count.
    fn complaints(&self) -> Vec<Complaint> {
        let within = |k: &usize| *k <= self.last() && place(*k) <= self.bytes.len();
        let records = (0..).take_while(within);
        let said = records.flat_map(|k| self.of_record(k));
        said.chain(self.after_end()).chain(self.counted()).collect()
    }

    fn refusal(&self) -> Option<Complaint> {
        let order = |(place, number): &Complaint| match self.reading {
            Reading::FiguresFirst => (*place, usize::from(*number == 12), *number),
            Reading::FormFirst => (usize::from(*number == 3), *place, *number),
            _ => (*place, usize::from(*number == 3), *number),
        };
        self.complaints().into_iter().min_by_key(order)
    }

    /// The bytes without those at which a record of no known kind would begin.
    fn without_unknown(&self) -> Vec<u8> {
        let mut bytes = self.bytes.to_vec();
        let unknown = |bytes: &[u8]| {
            let (at, _) = told(bytes, Reading::Right).err()?;
            let kind = *bytes.get(at)?;
            (![COUNT, LINE, END].contains(&kind)).then_some(at)
        };
        while let Some(at) = unknown(&bytes) {
            bytes.remove(at);
        }
        bytes
    }
}

/// What the sentences say of any bytes.
fn told(bytes: &[u8], reading: Reading) -> Result<Vec<Figures>, Complaint> {
    let sentences = Sentences { bytes, reading };
    match reading {
        Reading::NothingIsNoLines if bytes.is_empty() => return Ok(vec![]),
        Reading::UnknownPassedOver => {
            return told(&sentences.without_unknown(), Reading::Right);
        }
        _ => {}
    }
    match sentences.refusal() {
        Some(refusal) => Err(refusal),
        None => Ok((1..sentences.last())
            .filter_map(|k| sentences.line(k))
            .collect()),
    }
}

/// The program says the same; and what it reads is written as the same bytes.
fn agrees(bytes: &[u8]) {
    let given = read(bytes);
    let wanted = told(bytes, Reading::Right).map_err(|(place, number)| Refusal::at(number, place));
    assert_eq!(given, wanted, "{bytes:02x?}");
    if let Ok(lines) = given {
        assert_eq!(write(&lines), bytes);
    }
}

/// Each row of up to `most` of these, one after another, behind a start.
fn rows(start: &[u8], parts: &[Vec<u8>], most: usize, see: &mut impl FnMut(&[u8])) {
    see(start);
    if most > 0 {
        for part in parts {
            rows(&[start, part].concat(), parts, most - 1, see);
        }
    }
}

#[test]
fn short_strings() {
    let bytes = [0x00, 0x01, 0x02, COUNT, LINE, 0x12, END, PLANS_END];
    let parts = bytes.map(|byte| vec![byte]);
    rows(&[], &parts, 6, &mut agrees);
}

/// A count, a line of small bytes, and something after it, whole and cut.
#[test]
fn one_line() {
    let small = [0, 1, 2].map(|byte| vec![byte]);
    let line = [LINE, 1, 0, 2, 0, 1, 0, 1];
    let mut tails: Vec<Vec<u8>> = [END, COUNT, LINE, 0x12, PLANS_END]
        .map(|b| vec![b])
        .to_vec();
    tails.extend([vec![], vec![END, 0], vec![END, END]]);
    tails.extend([[&line[..], &[END]].concat(), line.to_vec()]);
    for announced in [0, 1, 2, 3, 16, 17] {
        rows(&[COUNT, announced, LINE], &small, 7, &mut |start| {
            agrees(start);
            if start.len() == 10 {
                tails
                    .iter()
                    .for_each(|tail| agrees(&[start, tail].concat()));
            }
        });
    }
}

/// Whole records of each sort, in each order.
#[test]
fn rows_of_records() {
    let mut parts: Vec<Vec<u8>> = vec![vec![END], vec![0x12, 1], vec![PLANS_END], vec![LINE, 3]];
    parts.extend([0, 1, 2, 3, 17].map(|announced| vec![COUNT, announced]));
    for number in [0, 1, 2, 255] {
        for (bound, jitter, busy) in [(1, 0, 1), (0, 0, 1), (2, 2, 1), (2, 1, 0)] {
            parts.push(vec![LINE, number, 0, bound, 0, jitter, 0, busy]);
        }
    }
    rows(&[], &parts, 3, &mut agrees);
    for announced in 0..=3 {
        rows(&[COUNT, announced], &parts, 4, &mut agrees);
    }
}

/// Each byte changed to each other; two bytes at once; each cut, each byte more.
#[test]
fn changed_reports() {
    let report = [
        COUNT, 2, LINE, 1, 0, 7, 0, 4, 0, 3, LINE, 2, 1, 0, 0, 255, 1, 0, END,
    ];
    agrees(&report);
    for at in 0..report.len() {
        agrees(&report[..at]);
        for byte in 0..=255 {
            let mut changed = report;
            changed[at] = byte;
            agrees(&changed);
            agrees(&[&report[..], &[byte]].concat());
            for other in 0..at {
                for byte in [0, 1, 2, 3, COUNT, LINE, END, 255] {
                    let mut changed = changed;
                    changed[other] = byte;
                    agrees(&changed);
                }
            }
        }
    }
}

#[test]
fn sixteen_lines_and_about() {
    let mut dice = Dice::new(1);
    for count in 0..=18 {
        let lines = made_up(count, &mut dice);
        let mut bytes = write(&lines);
        for announced in 0..=20 {
            bytes[1] = announced;
            agrees(&bytes);
            agrees(&bytes[..bytes.len() - 1]);
            agrees(&[&bytes[..], &[END]].concat());
        }
    }
}

/// The report of every table that the plans give is read as its figures.
#[test]
fn reports_of_tables() {
    let corpus = make_frames::make(2_000, 1);
    let mut tables = 0;
    for plan in frames::plans(&corpus) {
        agrees(plan);
        let Ok(table) = Table::of_plan(plan) else {
            continue;
        };
        let bytes = write(table.figures());
        assert_eq!(bytes.len(), 3 + 8 * table.figures().len());
        assert_eq!(read(&bytes).as_deref(), Ok(table.figures()));
        agrees(&bytes);
        tables += 1;
    }
    assert!(tables > 500);
}

/// The bytes that a sequence of calls reads as reports.
fn read_by(calls: &[u8]) -> Vec<Vec<u8>> {
    let mut out = Vec::new();
    let whole = each(calls, |call, _, _| {
        if let Call::ReadReport(bytes) = call {
            out.push(bytes.clone());
        }
        Ok(())
    });
    assert!(whole.unwrap());
    out
}

/// Each misreading says something else of one of these at least.
fn tell_apart(reports: &[Vec<u8>]) {
    for misreading in MISREADINGS {
        let told_apart = |bytes: &Vec<u8>| told(bytes, misreading) != told(bytes, Reading::Right);
        assert!(reports.iter().any(told_apart), "{misreading:?}");
    }
}

#[test]
fn the_cases_tell_misreadings_apart() {
    let script = concat!(env!("CARGO_MANIFEST_DIR"), "/../cases");
    let calls = Command::new(script).output().expect("tests/cases runs");
    assert!(calls.status.success());
    let reports = read_by(&calls.stdout);
    reports.iter().for_each(|bytes| agrees(bytes));
    tell_apart(&reports);
}

/// How many reports have a complaint that decides and another one, of these
/// numbers, in one record or in two.
fn with_two(reports: &[Vec<u8>], first: i64, second: i64, in_one: bool) -> usize {
    let has = |bytes: &&Vec<u8>| {
        let reading = Reading::Right;
        let sentences = Sentences { bytes, reading };
        let Some((place, number)) = sentences.refusal() else {
            return false;
        };
        let other = |c: &Complaint| c.1 == second && (c.0 == place) == in_one;
        number == first && sentences.complaints().iter().any(other)
    };
    reports.iter().filter(has).count()
}

#[test]
fn made_reports_tell_misreadings_apart() {
    for seed in 1..=3 {
        let reports = read_by(&make_calls::make(5_000, seed));
        reports.iter().for_each(|bytes| agrees(bytes));
        tell_apart(&reports);
        assert!(with_two(&reports, 12, 3, true) > 5);
        assert!(with_two(&reports, 12, 3, false) > 5);
        assert!(with_two(&reports, 3, 12, false) > 5);
        assert!(with_two(&reports, 3, 3, false) > 5);
    }
}
