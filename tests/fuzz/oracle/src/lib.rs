//! The second program's answers to a plan and to a report, for C.

use second::flow::Flow;
use second::plan::read;
use second::refusal::Refusal;
use second::report;
use second::table::Table;
use second::verdict::{busy_lengths, settle, Figures};
use std::slice;

/// What the host's two functions on a plan should give: the code, and the bound of each flow number.
#[repr(C)]
pub struct Answer {
    code: u64,
    bounds: [u64; 256],
}

/// False, with nothing written, if judging the plan once for each flow would take the second program more than `most` terms.
///
/// # Safety
/// `plan` is not null and has `len` bytes; `out` may be written.
#[no_mangle]
pub unsafe extern "C" fn second_answer(
    plan: *const u8,
    len: usize,
    most: u64,
    out: *mut Answer,
) -> bool {
    let plan = slice::from_raw_parts(plan, len);
    if takes_more(plan, most) {
        return false;
    }
    out.write(answer(Table::of_plan(plan)));
    true
}

/// Terms of a judgement: one for each round, instant, node and flow. The rounds are known only once they have been gone through.
fn takes_more(plan: &[u8], most: u64) -> bool {
    let Ok(set) = read(plan) else { return false };
    let Ok(busy) = busy_lengths(&set) else {
        return false;
    };
    let flows = set.flows.len() as u64;
    let visits = |(f, b): (&Flow, &i64)| f.path.len() as u64 * *b as u64;
    let round = set.flows.iter().zip(&busy).map(visits).sum::<u64>() * flows * flows;
    round > most || round * settle(&set, &busy).rounds as u64 > most
}

fn answer(judged: Result<Table, Refusal>) -> Answer {
    let mut out = Answer {
        code: 0,
        bounds: [0; 256],
    };
    match judged {
        Ok(table) => {
            for f in table.figures() {
                out.bounds[f.number as usize] = f.bound as u64;
            }
        }
        Err(refusal) => out.code = code(&refusal),
    }
    out
}

fn code(refusal: &Refusal) -> u64 {
    refusal.number as u64 + 256 * refusal.flow as u64 + 65_536 * refusal.place as u64
}

/// What `kezhuvanam_report_write` should give, and what it should leave in the buffer: the bytes that are there are taken for those that the host's
/// buffer had. The plan is judged, however long that takes: ask `second_answer` first.
///
/// # Safety
/// `plan` has `len` bytes; the `room` bytes at `buffer` may be read and written. A length of 0 goes with any pointer.
#[no_mangle]
pub unsafe extern "C" fn second_report_write(
    plan: *const u8,
    len: usize,
    buffer: *mut u8,
    room: usize,
) -> u64 {
    let table = Table::of_plan(bytes(plan, len));
    let written = table.and_then(|t| report::write_into(t.figures(), bytes_mut(buffer, room)));
    match written {
        Ok(length) => 256 * length as u64,
        Err(refusal) => code(&refusal),
    }
}

/// What `kezhuvanam_report_check` should give.
///
/// # Safety
/// `report` has `len` bytes, and is any pointer if that is 0.
#[no_mangle]
pub unsafe extern "C" fn second_report_check(report: *const u8, len: usize) -> u64 {
    match report::read(bytes(report, len)) {
        Ok(_) => 0,
        Err(refusal) => code(&refusal),
    }
}

/// What `kezhuvanam_report_figure` should give.
///
/// # Safety
/// `report` has `len` bytes, and is any pointer if that is 0.
#[no_mangle]
pub unsafe extern "C" fn second_report_figure(
    report: *const u8,
    len: usize,
    number: u64,
    figure: u64,
) -> u64 {
    let lines = report::read(bytes(report, len)).unwrap_or_default();
    let line = lines.iter().find(|line| line.number as u64 == number);
    line.and_then(|line| chosen(line, figure))
        .map_or(0, |f| 1 + f as u64)
}

/// RULES, host calls.
fn chosen(line: &Figures, figure: u64) -> Option<i64> {
    match figure {
        1 => Some(line.bound),
        2 => Some(line.jitter),
        3 => Some(line.busy),
        _ => None,
    }
}

/// A slice may not be made of a null pointer, even if it has no bytes.
unsafe fn bytes<'a>(at: *const u8, len: usize) -> &'a [u8] {
    match len {
        0 => &[],
        _ => slice::from_raw_parts(at, len),
    }
}

unsafe fn bytes_mut<'a>(at: *mut u8, len: usize) -> &'a mut [u8] {
    match len {
        0 => &mut [],
        _ => slice::from_raw_parts_mut(at, len),
    }
}

#[cfg(test)]
mod tests {
    use super::*;

    /// One flow on node 1: T 10, D 60, cost 3.
    fn plan(deadline: u8) -> Vec<u8> {
        let links = [0x01, 0, 1, 0, 1];
        let flow = [0x02, 1, 0, 0, 10, 0, 0, 0, deadline, 1, 1];
        let mut out = [&links[..], &flow[..], &[0; 7], &[0, 3], &[0; 14]].concat();
        out.push(0x7F);
        out
    }

    const REPORT: [u8; 11] = [0x10, 1, 0x11, 1, 0, 3, 0, 0, 0, 3, 0x1F];

    fn write(plan: &[u8], buffer: &mut [u8]) -> u64 {
        unsafe { second_report_write(plan.as_ptr(), plan.len(), buffer.as_mut_ptr(), buffer.len()) }
    }

    #[test]
    fn writing() {
        let mut buffer = [0xA5; 13];
        assert_eq!(write(&plan(60), &mut buffer[..10]), 13);
        assert_eq!(write(&plan(60)[..39], &mut buffer), 12 + 65_536 * 39);
        // 13 comes last.
        assert_eq!(write(&plan(2), &mut buffer[..0]), 10 + 256);
        assert_eq!(buffer, [0xA5; 13]);
        assert_eq!(write(&plan(60), &mut buffer), 256 * 11);
        assert_eq!(buffer[..11], REPORT);
        assert_eq!(buffer[11..], [0xA5; 2]);
        assert_eq!(write(&plan(60), &mut []), 13);
        assert_eq!(write(&[], &mut []), 12);
    }

    #[test]
    fn checking() {
        let check = |report: &[u8]| unsafe { second_report_check(report.as_ptr(), report.len()) };
        assert_eq!(check(&REPORT), 0);
        assert_eq!(check(&REPORT[..10]), 12 + 65_536 * 10);
        assert_eq!(check(&[0x10, 1, 0x11, 1, 0, 3, 0, 3, 0, 3]), 3 + 65_536 * 2);
        assert_eq!(unsafe { second_report_check(std::ptr::null(), 0) }, 12);
    }

    #[test]
    fn figures() {
        let figure = |len: usize, number, which| unsafe {
            second_report_figure(REPORT.as_ptr(), len, number, which)
        };
        assert_eq!(
            [0, 1, 2, 3, 4].map(|which| figure(11, 1, which)),
            [0, 4, 1, 4, 0]
        );
        assert_eq!(figure(10, 1, 1), 0);
        for number in [0, 2, 257, (1 << 32) + 1, u64::MAX] {
            assert_eq!(figure(11, number, 1), 0);
            assert_eq!(figure(11, 1, number.max(4)), 0);
        }
    }
}
