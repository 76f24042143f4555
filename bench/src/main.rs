//! The proved library against a plain program of the same algorithm, on fixed plans, both in one run. With an argument: on the plans whose
//! names hold it.
mod plain;
mod plans;

use plain::{Counts, Verdict, Walk};
use plans::Group;
use std::collections::BTreeMap;
use std::hint::black_box;
use std::time::{Duration, Instant};

type Judge = fn(&[u8]) -> u64;

extern "C" {
    fn kezhuvanam_judge(plan: *const u8, len: usize) -> u64;
    #[cfg(before)]
    fn before_kezhuvanam_judge(plan: *const u8, len: usize) -> u64;
}

fn proved(plan: &[u8]) -> u64 {
    unsafe { kezhuvanam_judge(plan.as_ptr(), plan.len()) }
}

#[cfg(before)]
fn before(plan: &[u8]) -> u64 {
    unsafe { before_kezhuvanam_judge(plan.as_ptr(), plan.len()) }
}

#[cfg(before)]
const BEFORE: Option<Judge> = Some(before);
#[cfg(not(before))]
const BEFORE: Option<Judge> = None;

fn plain_judge(plan: &[u8]) -> u64 {
    match plain::read(plan) {
        Ok(set) => plain::judge(&plain::prepare(&set), Walk::Near, &mut Counts::default()).answer,
        Err(refusal) => refusal,
    }
}

/// What the plain program does before the first turn.
fn plain_prepare(plan: &[u8]) -> u64 {
    if let Ok(set) = plain::read(plan) {
        black_box(plain::prepare(&set));
    }
    0
}

struct Timed {
    answer: u64,
    least: Duration,
}

fn run(judge: Judge, plan: &[u8], times: u32) -> Timed {
    let mut answer = 0;
    let start = Instant::now();
    for _ in 0..times {
        answer = black_box(judge(black_box(plan)));
    }
    let least = start.elapsed() / times;
    Timed { answer, least }
}

const RUNS: u32 = 60;

/// How many runs there is time for, and how often each judges the plan; none beyond the first, if that took all of the time.
fn runs_in(span: Duration, once: Duration) -> (u32, u32) {
    let once = once.as_nanos().max(1);
    let times = (span.as_nanos() / RUNS as u128 / once).clamp(1, 100_000);
    let runs = (span.as_nanos() / (once * times)).min(RUNS as u128);
    (runs as u32, times as u32)
}

/// The least time of each. They run in turn, so that all meet the same machine.
fn least_times(judges: &[Judge], plan: &[u8], span: Duration) -> Vec<Timed> {
    let mut timed: Vec<Timed> = judges.iter().map(|&j| run(j, plan, 1)).collect();
    let runs: Vec<(u32, u32)> = timed.iter().map(|t| runs_in(span, t.least)).collect();
    for k in 0..RUNS {
        for (judge, (t, &(runs, times))) in judges.iter().zip(timed.iter_mut().zip(&runs)) {
            if k < runs {
                t.least = t.least.min(run(*judge, plan, times).least);
            }
        }
    }
    timed
}

struct Walked {
    verdict: Verdict,
    counts: Counts,
    time: Duration,
}

fn walked(plan: &[u8], walk: Walk) -> Walked {
    let set = plain::read(plan).expect("a plan of the bench is well formed");
    let prepared = plain::prepare(&set);
    let mut counts = Counts::default();
    let start = Instant::now();
    let verdict = plain::judge(&prepared, walk, &mut counts);
    let time = start.elapsed();
    Walked {
        verdict,
        counts,
        time,
    }
}

/// Sums over the plans of a group, of another walk.
#[derive(Default)]
struct Beside {
    counts: Counts,
    time: Duration,
}

/// What is told of a group of plans: sums over them.
#[derive(Default)]
struct Row {
    answers: BTreeMap<u64, u32>,
    near: Counts,
    steps: Option<Beside>,
    ticks: Option<Beside>,
    prepared: Duration,
    times: Vec<Duration>,
}

impl Row {
    /// Counts the walk near the peaks, and those beside it, which must agree with it; answers as they do.
    fn count(&mut self, plan: &[u8], beside: &[Walk]) -> u64 {
        let near = walked(plan, Walk::Near);
        for &walk in beside {
            let other = walked(plan, walk);
            assert_eq!(near.verdict, other.verdict);
            let sums = match walk {
                Walk::Ticks => &mut self.ticks,
                _ => &mut self.steps,
            };
            let sums = sums.get_or_insert_with(Beside::default);
            sums.counts.add(&other.counts);
            sums.time += other.time;
        }
        self.near.add(&near.counts);
        *self.answers.entry(near.verdict.answer).or_default() += 1;
        near.verdict.answer
    }

    fn time(&mut self, plan: &[u8], answer: u64, span: Duration, before: bool) {
        let mut judges: Vec<Judge> = vec![proved, plain_judge];
        judges.extend(BEFORE.filter(|_| before));
        self.times.resize(judges.len(), Duration::ZERO);
        for (sum, timed) in self.times.iter_mut().zip(least_times(&judges, plan, span)) {
            assert_eq!(timed.answer, answer);
            *sum += timed.least;
        }
        self.prepared += least_times(&[plain_prepare], plan, span)[0].least;
    }

    fn answers(&self) -> String {
        let told: Vec<String> = self
            .answers
            .iter()
            .map(|(answer, &plans)| match plans {
                1 => format!("{answer}"),
                _ => format!("{plans} × {answer}"),
            })
            .collect();
        told.join(", ")
    }

    fn print(&self, name: &str) {
        let (proved, plain) = (self.times[0], self.times[1]);
        let others = [&self.ticks, &self.steps].map(|beside| beside.as_ref());
        let told = |count: fn(&Counts) -> u64| {
            let other = |beside: &Beside| count(&beside.counts).to_string();
            let [ticks, steps] = others.map(|beside| beside.map_or("-".into(), other));
            format!("{ticks} → {steps} → {}", count(&self.near))
        };
        let time = |beside: &Beside| format!("{:.2?}", beside.time);
        let [ticks, steps] = others.map(|beside| beside.map_or("-".into(), time));
        let turns = |beside: &Beside| beside.counts.scans.to_string();
        print!(
            "{name} | {} | {} → {} + {} | {} | {} | {proved:.2?} | {plain:.2?} | {:.2} | {:.2?} | {steps} | {ticks}",
            self.answers(),
            others[1].map_or("-".into(), turns),
            self.near.scans,
            self.near.looks,
            told(|counts| counts.instants),
            told(|counts| counts.sums),
            ratio(proved, plain),
            self.prepared,
        );
        if let Some(&before) = self.times.get(2) {
            print!(" | {before:.2?} | {:.2}", ratio(before, proved));
        }
        println!();
    }
}

fn ratio(a: Duration, b: Duration) -> f64 {
    a.as_secs_f64() / b.as_secs_f64()
}

fn tell(group: &Group, part: &str) {
    if !group.name.contains(part) {
        return;
    }
    let span = Duration::from_secs(2) / group.plans.len() as u32;
    let mut row = Row::default();
    for plan in &group.plans {
        let answer = row.count(plan, group.beside);
        row.time(plan, answer, span, group.before);
    }
    row.print(group.name);
}

fn main() {
    let part = std::env::args().nth(1).unwrap_or_default();
    print!("plan | answer | turns → full scans + looks | instants: every tick → full scans alone → with looks | sums | proved | plain | ratio | ");
    print!("plain, preparation | plain, full scans alone | plain, every tick");
    println!("{}", BEFORE.map_or("", |_| " | before | before / proved"));
    for group in plans::all() {
        tell(&group, &part);
    }
}
