//! Makes sequences of calls.

use crate::calls::{Call, Kept, LONGEST};
use crate::damage::{self, light, node_twice, out_of_range};
use crate::deadlines::{fit, Fit, FITS};
use crate::dice::Dice;
use crate::flow::{Flow, Links, FLOWS};
use crate::make_frames::{plan_for, Job};
use crate::plan;
use crate::report;
use crate::report_damage::{self, made_up, Harm};
use crate::set::Set;
use crate::sets::{self, Recipe, CHEAP};
use crate::table::Table;
use crate::verdict::{busy_lengths, Figures};

/// The bytes so far and what the calls so far lead to.
struct Stream {
    bytes: Vec<u8>,
    calls: usize,
    kept: Kept,
    /// Admissions that would make a round dear are left out.
    careful: bool,
    dice: Dice,
}

#[derive(Clone, Copy)]
enum Session {
    /// The flows of a set, with other calls between.
    Grow(Recipe),
    /// The flows of a dense set, one of them twice.
    Dense,
    /// Sixteen flows and more.
    Full,
    /// Flows out of range.
    Fields,
    /// A table refused, then used.
    BadLinks,
    /// Buffers of every kind, on tables of no flow to sixteen.
    Buffers,
    /// The set that is kept before a plan is read, and after a plan of no bytes.
    Unread,
    /// A plan read, its set written and judged.
    Plan(Job),
    /// The same with bytes behind the plan, up to this length.
    Overlong(usize),
    /// Each call just after judging.
    Judged,
    /// Reports of tables of no flow to sixteen, read back.
    Reports,
    /// A report that is not in order.
    Harmed(Harm),
    /// Some of them.
    SomeHarmed,
    /// The table's report as a plan, its plan as a report, no bytes as either.
    Exchanged,
    /// A report with bytes behind it, up to this length.
    OverlongReport(usize),
}

/// At least `count` calls after the first table; the last session is finished.
pub fn make(count: usize, seed: u64) -> Vec<u8> {
    let mut dice = Dice::new(seed);
    let links = sets::links(&mut dice, 9);
    let table = Table::fresh(links).expect("delays in range");
    let mut stream = Stream {
        bytes: links.bytes(),
        calls: 0,
        kept: Kept {
            table,
            ..Kept::default()
        },
        careful: false,
        dice,
    };
    let roster = roster();
    let mut sessions = 0;
    while stream.calls < count {
        let session = roster
            .get(sessions)
            .copied()
            .unwrap_or_else(|| stream.any());
        stream.run(session);
        sessions += 1;
    }
    stream.bytes
}

fn roster() -> Vec<Session> {
    let others = [
        Session::Full,
        Session::Fields,
        Session::BadLinks,
        Session::Buffers,
        Session::Overlong(65_535),
        Session::Judged,
        Session::Reports,
        Session::Exchanged,
        Session::OverlongReport(65_535),
    ];
    let harms = report_damage::all().into_iter().map(Session::Harmed);
    let fits = |r: &Recipe| [Fit::Loose, Fit::OneShort].map(|f| Job::Set(*r, f));
    let damages = damage::ALL.iter().map(|d| Job::Damage(*d));
    let recipes = CHEAP.iter().chain([&Recipe::WideStep]);
    let plans = recipes.flat_map(fits).chain(damages);
    std::iter::once(Session::Unread)
        .chain(CHEAP.iter().map(|r| Session::Grow(*r)))
        .chain(others)
        .chain(harms)
        .chain(plans.map(Session::Plan))
        .chain([Session::Dense; 8])
        .collect()
}

impl Stream {
    /// Shares in a hundred.
    fn any(&mut self) -> Session {
        match self.dice.pick(1, 100) {
            1..=3 => Session::Full,
            4..=11 => Session::Fields,
            12 => Session::Dense,
            13..=15 => Session::BadLinks,
            16 => Session::Overlong(self.dice.pick(1_200, 2_000) as usize),
            17 => Session::OverlongReport(self.dice.pick(132, 900) as usize),
            18 => Session::Exchanged,
            19..=32 => Session::SomeHarmed,
            33..=66 => Session::Plan(self.job()),
            _ => Session::Grow(self.recipe()),
        }
    }

    fn job(&mut self) -> Job {
        if self.dice.once_in(2) {
            Job::Damage(self.dice.one_of(&damage::ALL))
        } else {
            Job::Set(self.recipe(), self.dice.one_of(&FITS))
        }
    }

    /// Shares in a hundred.
    fn recipe(&mut self) -> Recipe {
        match self.dice.pick(1, 100) {
            1..=3 => self.dice.one_of(&CHEAP),
            4 => Recipe::WideStep,
            5..=10 => Recipe::Dense,
            11..=22 => Recipe::Crowd,
            23..=31 => Recipe::Back,
            32..=44 => Recipe::Overload,
            45..=57 => Recipe::Loose,
            58..=66 => Recipe::LateBound,
            67..=72 => Recipe::LateDrop,
            73..=80 => Recipe::Jittery,
            81..=89 => Recipe::LateStep,
            _ => Recipe::Small,
        }
    }

    fn run(&mut self, session: Session) {
        match session {
            Session::Grow(recipe) => self.grow(recipe),
            Session::Dense => self.dense(),
            Session::Full => self.full(),
            Session::Fields => self.fields(),
            Session::BadLinks => self.bad_links(),
            Session::Buffers => self.buffers(),
            Session::Unread => self.unread(),
            Session::Plan(job) => self.plan(job),
            Session::Overlong(length) => self.overlong(length),
            Session::Judged => self.judged(),
            Session::Reports => self.reports(),
            Session::Harmed(harm) => self.harmed(harm),
            Session::SomeHarmed => self.some_harmed(),
            Session::Exchanged => self.exchanged(),
            Session::OverlongReport(length) => self.overlong_report(length),
        }
    }

    fn call(&mut self, call: Call) {
        self.bytes.extend(call.bytes());
        self.calls += 1;
        call.make(&mut self.kept);
    }

    /// Those of the table.
    fn flows(&self) -> &[Flow] {
        &self.kept.table.set().flows
    }

    fn admit(&mut self, flow: &Flow) {
        if !(self.careful && self.dear_with(flow)) {
            self.call(Call::Admit(flow.record()));
        }
    }

    fn dear_with(&self, flow: &Flow) -> bool {
        let mut set = self.kept.table.set().clone();
        set.flows.push(flow.clone());
        sets::dear(&set)
    }

    fn grow(&mut self, recipe: Recipe) {
        let mut set = sets::make(recipe, &mut self.dice);
        let deadlines = self.dice.one_of(&FITS);
        fit(&mut set, deadlines, &mut self.dice);
        self.call(Call::Fresh(set.links));
        self.dice.shuffle(&mut set.flows);
        // Sets with more load than a node can carry are cheap only as a whole,
        // by refusal 8.
        self.careful = busy_lengths(&set).is_err();
        for flow in &set.flows {
            self.admit(flow);
            if self.dice.once_in(4) {
                self.call(Call::WriteReport);
            }
            self.between(&set.flows);
        }
        self.call(Call::Print);
        self.lend();
        self.call(Call::Write);
        if !set.flows.is_empty() {
            self.after_plan(&set.flows);
        }
        self.careful = false;
    }

    /// A call, or none, between two admissions.
    fn between(&mut self, flows: &[Flow]) {
        match self.dice.pick(0, 13) {
            0..=9 => self.any_call(flows),
            10 => {
                self.call(Call::Write);
                self.after_plan(flows);
            }
            11 => self.beside(),
            _ => {}
        }
    }

    /// A call on the set or a report that leaves the table.
    fn beside(&mut self) {
        match self.dice.pick(0, 3) {
            0 | 1 => {
                let job = self.job();
                let plan = plan_for(job, &mut self.dice);
                self.call(Call::Read(plan));
            }
            2 => self.call(Call::WriteSet),
            _ => self.any_harmed(),
        }
    }

    /// Calls on the table that reading a written plan gave.
    fn after_plan(&mut self, flows: &[Flow]) {
        for _ in 0..self.dice.pick(0, 2) {
            self.any_call(flows);
        }
    }

    fn any_call(&mut self, flows: &[Flow]) {
        let k = self.dice.index(flows.len());
        match self.dice.pick(0, 12) {
            0 => self.admit(&flows[k]),
            1 => self.ask_any(),
            2 => self.withdraw_any(),
            3 => self.present(Call::Withdraw),
            4..=7 => self.present(Call::Ask),
            8 => self.call(Call::Print),
            9 => self.call(Call::Write),
            10 => self.lend(),
            11 => self.call(Call::WriteReport),
            _ => self.read_back(),
        }
    }

    /// A buffer that is too short, just long enough, or longer.
    fn lend(&mut self) {
        let length = self.kept.table.length();
        let lent = match self.dice.pick(0, 9) {
            0 => 0,
            1 | 2 => length - 1,
            3 => self.dice.index(length),
            4..=6 => length,
            7 => length + 1,
            8 => length + self.dice.index(LONGEST + 1 - length),
            _ => LONGEST,
        };
        self.call(Call::Lend(lent));
    }

    fn ask_any(&mut self) {
        let number = self.dice.pick(0, 255);
        self.call(Call::Ask(number));
    }

    /// A call on the number of a flow in the table, if it has one.
    fn present(&mut self, call: fn(i64) -> Call) {
        let numbers: Vec<i64> = self.flows().iter().map(|f| f.number).collect();
        if !numbers.is_empty() {
            let number = self.dice.one_of(&numbers);
            self.call(call(number));
        }
    }

    fn withdraw_any(&mut self) {
        let number = self.dice.pick(0, 255);
        self.call(Call::Withdraw(number));
    }

    /// With all of its flows the table is dense, unless one is refused; without
    /// one of them mostly not.
    fn dense(&mut self) {
        let set = sets::make(Recipe::Dense, &mut self.dice);
        self.call(Call::Fresh(set.links));
        // As in `grow`.
        self.careful = busy_lengths(&set).is_err();
        for flow in &set.flows {
            self.admit(flow);
        }
        self.call(Call::Print);
        let k = self.dice.index(set.flows.len());
        self.call(Call::Withdraw(set.flows[k].number));
        self.call(Call::Print);
        self.admit(&set.flows[k]);
        self.call(Call::Print);
        self.careful = false;
    }

    /// Sixteen light flows; a seventeenth, one with a number that is there, one
    /// out of range; then withdrawn room is used again, also after a plan. At
    /// last the plan of the full table.
    fn full(&mut self) {
        let links = sets::links(&mut self.dice, 5);
        self.call(Call::Fresh(links));
        let mut numbers = self.dice.rising(FLOWS + 2, 255);
        self.dice.shuffle(&mut numbers);
        for number in &numbers[..FLOWS] {
            let flow = light(*number, &mut self.dice);
            self.admit(&flow);
        }
        let extra = light(numbers[FLOWS], &mut self.dice);
        let double = Flow {
            number: numbers[3],
            ..extra.clone()
        };
        self.admit(&extra);
        self.admit(&double);
        let mut bad = extra.record();
        out_of_range(&mut bad, &mut self.dice);
        self.call(Call::Admit(bad));
        self.call(Call::Withdraw(numbers[0]));
        self.call(Call::Withdraw(numbers[0]));
        self.admit(&extra);
        self.call(Call::Ask(numbers[FLOWS]));
        let last = light(numbers[FLOWS + 1], &mut self.dice);
        self.admit(&last);
        self.call(Call::Print);
        self.call(Call::WriteReport);
        self.read_back();
        self.lend();
        self.call(Call::Write);
        self.lend();
        self.admit(&last);
        self.call(Call::Withdraw(numbers[1]));
        self.admit(&last);
        self.lend();
        self.read_and_judge(plan::write(self.kept.table.set()));
    }

    fn unread(&mut self) {
        self.call(Call::WriteSet);
        let flow = light(9, &mut self.dice);
        self.admit(&flow);
        self.call(Call::WriteSet);
        self.call(Call::Judge);
        self.after_judging();
        self.read_and_judge(Vec::new());
    }

    fn plan(&mut self, job: Job) {
        if self.dice.once_in(2) {
            let links = sets::links(&mut self.dice, 9);
            self.call(Call::Fresh(links));
        }
        let plan = plan_for(job, &mut self.dice);
        self.read_and_judge(plan);
    }

    fn overlong(&mut self, length: usize) {
        let plan = damage::overlong(length, &mut self.dice);
        self.read_and_judge(plan);
    }

    fn read_and_judge(&mut self, plan: Vec<u8>) {
        self.call(Call::Read(plan));
        match self.dice.pick(0, 3) {
            0 | 1 => self.call(Call::WriteSet),
            2 => self.call(Call::Print),
            _ => {}
        }
        self.call(Call::Judge);
        self.after_judging();
    }

    /// Calls on the table that judging gave and on the set, which is still there.
    fn after_judging(&mut self) {
        let mut flows = self.kept.set.flows.clone();
        flows.push(light(self.dice.pick(1, 255), &mut self.dice));
        // As in `grow`: a set may be cheap only by its refusal.
        self.careful = true;
        for _ in 0..self.dice.pick(1, 6) {
            match self.dice.pick(0, 9) {
                0 => self.call(Call::WriteSet),
                1 | 2 => self.call(Call::Judge),
                3 => self.admit(&flows[flows.len() - 1]),
                _ => self.any_call(&flows),
            }
        }
        self.careful = false;
    }

    /// A set that is accepted, then one that 10 refuses: no bound is less than
    /// cost and jitter together.
    fn judged(&mut self) {
        let links = sets::links(&mut self.dice, 5);
        let numbers = self.dice.rising(4, 255);
        let light = |n: &i64| light(*n, &mut self.dice);
        let mut flows: Vec<Flow> = numbers.iter().map(light).collect();
        let extra = flows.remove(1);
        let mut set = Set { links, flows };
        self.each_call_judged(&set, &extra);
        set.flows[2].jitter = 3;
        set.flows[2].deadline = 3;
        self.each_call_judged(&set, &extra);
    }

    fn each_call_judged(&mut self, set: &Set, extra: &Flow) {
        self.call(Call::Read(plan::write(set)));
        let there = set.flows[0].record();
        for call in [
            Call::Ask(there.number),
            Call::Ask(0),
            Call::Withdraw(there.number),
            Call::Withdraw(0),
            Call::Admit(there),
            Call::Admit(extra.record()),
            Call::Print,
            Call::Write,
            Call::WriteSet,
            Call::WriteReport,
        ] {
            self.call(Call::Judge);
            self.call(call);
        }
        self.call(Call::Judge);
        self.every_buffer();
    }

    /// Flows with faults, beside flows that are there and with their numbers.
    fn fields(&mut self) {
        let links = sets::links(&mut self.dice, 5);
        self.call(Call::Fresh(links));
        for number in self.dice.rising(4, 255) {
            let flow = light(number, &mut self.dice);
            self.spoiled(&flow);
            self.admit(&flow);
            self.admit(&Flow {
                priority: 255 - flow.priority,
                ..flow.clone()
            });
            self.spoiled(&flow);
        }
        self.call(Call::Print);
    }

    /// The flow with one fault or more.
    fn spoiled(&mut self, flow: &Flow) {
        let mut record = flow.record();
        let faults = self.dice.pick(1, 7);
        if faults & 1 != 0 {
            node_twice(&mut record, &mut self.dice);
        }
        if faults & 2 != 0 {
            out_of_range(&mut record, &mut self.dice);
        }
        if faults & 4 != 0 {
            record.number = 0;
        }
        self.call(Call::Admit(record));
    }

    fn bad_links(&mut self) {
        let (least, most) = self
            .dice
            .one_of(&[(1, 0), (5, 4), (0, 4_096), (4_096, 65_535)]);
        self.call(Call::Fresh(Links { least, most }));
        self.call(Call::Write);
        self.call(Call::WriteReport);
        let flow = light(9, &mut self.dice);
        self.admit(&flow);
        self.call(Call::Ask(9));
        self.call(Call::Write);
        self.call(Call::Fresh(Links { least, most }));
        self.call(Call::Print);
    }

    /// The last of them follow a plan.
    fn buffers(&mut self) {
        let links = sets::links(&mut self.dice, 5);
        self.call(Call::Fresh(links));
        let mut numbers = self.dice.rising(FLOWS, 255);
        self.dice.shuffle(&mut numbers);
        for number in numbers {
            if [0, 1, 2, 8].contains(&self.flows().len()) {
                self.every_buffer();
            }
            let flow = light(number, &mut self.dice);
            self.admit(&flow);
        }
        self.call(Call::Write);
        self.every_buffer();
    }

    /// Each table's report, read back; then made-up ones of as many lines. Flows
    /// are withdrawn at last, and the table is left with some.
    fn reports(&mut self) {
        let links = sets::links(&mut self.dice, 5);
        self.call(Call::Fresh(links));
        let mut numbers = self.dice.rising(FLOWS, 255);
        self.dice.shuffle(&mut numbers);
        for number in &numbers {
            self.report_and_back();
            let flow = light(*number, &mut self.dice);
            self.admit(&flow);
        }
        self.report_and_back();
        self.call(Call::Write);
        self.report_and_back();
        for number in &numbers[4..] {
            self.call(Call::Withdraw(*number));
            self.call(Call::WriteReport);
        }
        for count in 0..=FLOWS {
            let lines = made_up(count, &mut self.dice);
            self.call(Call::ReadReport(report::write(&lines)));
        }
    }

    fn report_and_back(&mut self) {
        self.call(Call::WriteReport);
        self.read_back();
    }

    /// The table's own report.
    fn read_back(&mut self) {
        let bytes = report::write(self.kept.table.figures());
        self.call(Call::ReadReport(bytes));
    }

    /// The lines of the table, if it has two; if not, and at times all the same,
    /// others.
    fn lines(&mut self) -> Vec<Figures> {
        let figures = self.kept.table.figures().to_vec();
        if figures.len() >= 2 && !self.dice.once_in(3) {
            return figures;
        }
        let count = self.dice.pick(2, FLOWS as i64) as usize;
        made_up(count, &mut self.dice)
    }

    /// At times a call after it, which finds table and set as they were.
    fn harmed(&mut self, harm: Harm) {
        let lines = self.lines();
        let bytes = report_damage::make(harm, &lines, &mut self.dice);
        self.call(Call::ReadReport(bytes));
        match self.dice.pick(0, 11) {
            0 => self.call(Call::Print),
            1 => self.call(Call::WriteSet),
            2 => self.call(Call::WriteReport),
            _ => {}
        }
    }

    /// Often with two faults, of which one decides.
    fn any_harmed(&mut self) {
        let harm = if self.dice.once_in(4) {
            self.dice.one_of(&[Harm::TwoFaults, Harm::FaultAndMore])
        } else {
            self.dice.one_of(&report_damage::all())
        };
        self.harmed(harm);
    }

    fn some_harmed(&mut self) {
        for _ in 0..self.dice.pick(4, 12) {
            self.any_harmed();
        }
    }

    fn exchanged(&mut self) {
        let plan = plan::write(self.kept.table.set());
        self.call(Call::ReadReport(plan));
        self.call(Call::ReadReport(vec![]));
        let lines = self.lines();
        self.read_and_judge(report::write(&lines));
    }

    fn overlong_report(&mut self, length: usize) {
        let lines = self.lines();
        let bytes = report_damage::overlong(length, &lines, &mut self.dice);
        self.call(Call::ReadReport(bytes));
    }

    fn every_buffer(&mut self) {
        let length = self.kept.table.length();
        for lent in [0, 1, length - 1, length, length + 1, LONGEST] {
            self.call(Call::Lend(lent));
        }
    }
}

#[cfg(test)]
mod tests {
    use super::*;
    use crate::calls::each;
    use crate::dense::dense;
    use std::collections::BTreeSet;

    #[test]
    fn buffers_for_tables_of_no_flow_to_sixteen() {
        let mut lent = BTreeSet::new();
        let whole = each(&make(2_000, 1), |call, _, kept| {
            if let Call::Lend(length) = call {
                lent.insert((*length, kept.table.length()));
            }
            Ok(())
        });
        assert!(whole.unwrap());
        for flows in [0, 1, 2, FLOWS] {
            let length = 6 + 34 * flows;
            let wanted = [0, length - 1, length, length + 1, LONGEST];
            assert!(wanted.iter().all(|n| lent.contains(&(*n, length))));
        }
    }

    #[test]
    fn plans_of_no_byte_to_the_most() {
        let mut read = BTreeSet::new();
        let whole = each(&make(5_000, 1), |call, _, _| {
            if let Call::Read(plan) = call {
                read.insert(plan.len());
            }
            Ok(())
        });
        assert!(whole.unwrap());
        let longest = 6 + 34 * FLOWS;
        for length in [0, 6, 40, longest, longest + 34, 65_535] {
            assert!(read.contains(&length), "{length}");
        }
    }

    /// Tables that admissions make, and sets that are judged.
    #[test]
    fn some_tables_and_sets_are_dense() {
        let (mut admitted, mut judged) = (0, 0);
        let whole = each(&make(5_000, 1), |call, answer, kept| {
            match call {
                Call::Admit(_) if answer == "admitted\n" => {
                    admitted += i64::from(dense(kept.table.set()));
                }
                Call::Judge => judged += i64::from(dense(&kept.set)),
                _ => {}
            }
            Ok(())
        });
        assert!(whole.unwrap());
        assert!(admitted >= 10 && judged >= 2, "{admitted}, {judged}");
    }
}
