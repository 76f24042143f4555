//! The command line.

use second::table::Table;
use second::{calls, cases, counts, frames, judge, make_calls, make_frames, report};
use std::io::{self, BufWriter, Read, Write};
use std::process::ExitCode;

const USAGE: &str = "\
second judge                    a plan on standard input
second frames                   a corpus on standard input
second calls                    a sequence of calls on standard input
second report-of                a plan on standard input, its report on standard output
second show-report              a report on standard input
second make-frames COUNT SEED   a corpus on standard output, counts on standard error
second make-calls COUNT SEED    calls on standard output, counts on standard error
second report frames|calls      counts of the answers to standard input
second cases                    the rules' cases and likely mistakes
";

fn main() -> io::Result<ExitCode> {
    let args: Vec<String> = std::env::args().skip(1).collect();
    let words: Vec<&str> = args.iter().map(String::as_str).collect();
    match words[..] {
        ["judge"] => put(judge::text(&input()?).as_bytes()),
        ["frames"] => stream(|bytes, out| frames::judge_all(bytes, out)),
        ["calls"] => stream(|bytes, out| calls::answer_all(bytes, out)),
        ["report-of"] => reported(),
        ["show-report"] => put(report::text(&input()?).as_bytes()),
        ["make-frames", count, seed] => made_frames(count, seed),
        ["make-calls", count, seed] => made_calls(count, seed),
        ["report", "frames"] => told(&counts::of_frames(&input()?)),
        ["report", "calls"] => told(&counts::of_calls(&input()?)?),
        ["cases"] => checked(),
        _ => usage(),
    }
}

fn input() -> io::Result<Vec<u8>> {
    let mut bytes = Vec::new();
    io::stdin().lock().read_to_end(&mut bytes)?;
    Ok(bytes)
}

fn put(bytes: &[u8]) -> io::Result<ExitCode> {
    io::stdout().lock().write_all(bytes)?;
    Ok(ExitCode::SUCCESS)
}

fn stream(answer: impl Fn(&[u8], &mut dyn Write) -> io::Result<()>) -> io::Result<ExitCode> {
    let bytes = input()?;
    let mut out = BufWriter::new(io::stdout().lock());
    answer(&bytes, &mut out)?;
    out.flush()?;
    Ok(ExitCode::SUCCESS)
}

/// The bytes of the plan's report; of a refused plan the refusal, on standard
/// error, and failure.
fn reported() -> io::Result<ExitCode> {
    match Table::of_plan(&input()?) {
        Ok(table) => put(&report::write(table.figures())),
        Err(refusal) => {
            eprintln!("{refusal}");
            Ok(ExitCode::FAILURE)
        }
    }
}

fn usage() -> io::Result<ExitCode> {
    eprint!("{USAGE}");
    Ok(ExitCode::from(2))
}

fn made_frames(count: &str, seed: &str) -> io::Result<ExitCode> {
    let (Ok(count), Ok(seed)) = (count.parse(), seed.parse()) else {
        return usage();
    };
    let bytes = make_frames::make(count, seed);
    eprint!("{}", counts::of_frames(&bytes).text());
    put(&bytes)
}

fn made_calls(count: &str, seed: &str) -> io::Result<ExitCode> {
    let (Ok(count), Ok(seed)) = (count.parse(), seed.parse()) else {
        return usage();
    };
    let bytes = make_calls::make(count, seed);
    eprint!("{}", counts::of_calls(&bytes)?.text());
    put(&bytes)
}

/// Fails if an answer that should come up is missing.
fn told(tally: &counts::Tally) -> io::Result<ExitCode> {
    put(tally.text().as_bytes())?;
    Ok(ExitCode::from(u8::from(!tally.missing().is_empty())))
}

/// Fails on a difference.
fn checked() -> io::Result<ExitCode> {
    let mut findings = cases::Findings::default();
    cases::cases(&mut findings);
    cases::errors(&mut findings);
    for difference in &findings.differences {
        println!("{difference}");
    }
    println!(
        "{} checks, {} differences",
        findings.checks,
        findings.differences.len()
    );
    Ok(ExitCode::from(u8::from(!findings.differences.is_empty())))
}
