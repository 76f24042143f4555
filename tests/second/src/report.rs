//! Reports as bytes: reading, asking and writing. RULES, the report.

use crate::flow::{push_two, two, FLOWS};
use crate::judge;
use crate::refusal::Refusal;
use crate::verdict::Figures;

pub const COUNT: u8 = 0x10;
pub const LINE: u8 = 0x11;
pub const END: u8 = 0x1F;
/// Body of a kind 11 record.
pub const BODY: usize = 7;
/// Bytes of the report of a full table.
pub const LONGEST: usize = length(FLOWS);

/// Bytes of a report of so many lines: 2 for the count, 8 for each line, 1 for
/// the end. RULES, the report.
pub const fn length(lines: usize) -> usize {
    3 + 8 * lines
}

/// The lines that a report lists, or the first refusal of its records: 12 or 3.
pub fn read(report: &[u8]) -> Result<Vec<Figures>, Refusal> {
    let announced = read_count(report)?;
    let mut lines: Vec<Figures> = Vec::new();
    let mut at = 2;
    while lines.len() < announced {
        let line = read_line(report, at, lines.last())?;
        lines.push(line);
        at += 1 + BODY;
    }
    // One line more is as wrong here as an unknown kind.
    if report.get(at) != Some(&END) {
        return Err(Refusal::at(12, at));
    }
    if report.len() > at + 1 {
        return Err(Refusal::at(12, at + 1));
    }
    Ok(lines)
}

/// How many lines the record at the start, which has to be 10, announces.
fn read_count(report: &[u8]) -> Result<usize, Refusal> {
    match report {
        [COUNT, announced, ..] if usize::from(*announced) <= FLOWS => Ok(usize::from(*announced)),
        _ => Err(Refusal::at(12, 0)),
    }
}

/// The record at `at`, which has to be 11, after the line read before it.
fn read_line(report: &[u8], at: usize, before: Option<&Figures>) -> Result<Figures, Refusal> {
    if report.get(at) != Some(&LINE) {
        return Err(Refusal::at(12, at));
    }
    let body = report
        .get(at + 1..at + 1 + BODY)
        .ok_or(Refusal::at(12, at))?;
    let line = from_bytes(body);
    // The first has to be above 0. Unlike that of a plan's flow, a number 0 is a
    // matter of form.
    if line.number <= before.map_or(0, |b| b.number) {
        return Err(Refusal::at(12, at));
    }
    if !possible(&line) {
        return Err(Refusal::at(3, at));
    }
    Ok(line)
}

/// Not refusal 3: figures that a flow can have.
pub fn possible(line: &Figures) -> bool {
    line.bound != 0 && line.busy != 0 && line.jitter < line.bound
}

/// The fields of a record 11, one after another.
pub fn from_bytes(body: &[u8]) -> Figures {
    Figures {
        number: i64::from(body[0]),
        bound: two(body, 1),
        jitter: two(body, 3),
        busy: two(body, 5),
    }
}

/// A line as its whole record.
pub fn record(line: &Figures) -> Vec<u8> {
    let mut out = vec![LINE, line.number as u8];
    push_two(&mut out, line.bound);
    push_two(&mut out, line.jitter);
    push_two(&mut out, line.busy);
    out
}

/// The bytes of a report of these lines: a table's figures, or what was read.
pub fn write(lines: &[Figures]) -> Vec<u8> {
    let mut out = vec![COUNT, lines.len() as u8];
    out.extend(lines.iter().flat_map(record));
    out.push(END);
    out
}

/// Puts the report at the start of the buffer, whose other bytes stay, and gives
/// its length. A buffer that is too short stays as it is.
pub fn write_into(lines: &[Figures], buffer: &mut [u8]) -> Result<usize, Refusal> {
    let length = length(lines.len());
    let room = buffer.get_mut(..length).ok_or(Refusal::plain(13))?;
    room.copy_from_slice(&write(lines));
    Ok(length)
}

/// The line of a flow. RULES, tables.
pub fn ask(lines: &[Figures], number: i64) -> Result<Figures, Refusal> {
    let line = lines.iter().find(|l| l.number == number);
    line.copied().ok_or(Refusal::plain(11))
}

/// What `report` prints. RULES, programs.
pub fn text(report: &[u8]) -> String {
    match read(report) {
        Ok(lines) => judge::lines_text(&lines),
        Err(refusal) => format!("{refusal}\n"),
    }
}

#[cfg(test)]
mod tests {
    use super::*;

    fn line(number: i64, bound: i64, jitter: i64, busy: i64) -> Figures {
        Figures {
            number,
            bound,
            jitter,
            busy,
        }
    }

    fn refused(report: &[u8]) -> (i64, usize) {
        let refusal = read(report).unwrap_err();
        assert_eq!(refusal.flow, 0);
        (refusal.number, refusal.place)
    }

    /// A report of these lines, whatever they are.
    fn of(lines: &[Figures]) -> (i64, usize) {
        refused(&write(lines))
    }

    fn sixteen() -> Vec<Figures> {
        (240..=255)
            .map(|n| line(n, 65_535, 65_534, 65_535))
            .collect()
    }

    /// The table of RULES, the report.
    #[test]
    fn the_rules_rows() {
        assert_eq!(read(&[0x10, 0, 0x1F]), Ok(vec![]));
        let rows = [0x10, 2, 0x11, 1, 0, 0, 0, 0, 0, 5, 0xFF];
        assert_eq!(refused(&rows), (3, 2));
        assert_eq!(refused(&[0x10, 1, 0x1F]), (12, 2));
        assert_eq!(refused(&[0x10, 17]), (12, 0));
        assert_eq!(refused(&[0x10, 17, 0x1F]), (12, 0));
        let row = [0x10, 1, 0x11, 1, 0, 7, 0, 4, 0, 3, 0x1F, 0];
        assert_eq!(read(&row[..11]), Ok(vec![line(1, 7, 4, 3)]));
        assert_eq!(refused(&row), (12, 11));
    }

    #[test]
    fn reports_go_and_come_back() {
        for lines in [vec![], vec![line(1, 1, 0, 1)], sixteen()] {
            let bytes = write(&lines);
            assert_eq!(bytes.len(), length(lines.len()));
            assert_eq!(read(&bytes), Ok(lines));
        }
        assert_eq!(LONGEST, 131);
    }

    #[test]
    fn each_cut_is_refused_at_its_record() {
        let bytes = write(&[line(1, 7, 4, 3), line(2, 8, 3, 8)]);
        let places: Vec<(i64, usize)> = (0..bytes.len()).map(|n| refused(&bytes[..n])).collect();
        let wanted = [[0; 2].as_slice(), &[2; 8], &[10; 8], &[18]].concat();
        let wanted: Vec<(i64, usize)> = wanted.into_iter().map(|p| (12, p)).collect();
        assert_eq!(places, wanted);
    }

    #[test]
    fn counts_and_lines() {
        let mut bytes = write(&[line(1, 7, 4, 3), line(2, 8, 3, 8)]);
        for (announced, wanted) in [(0, 2), (1, 10), (3, 18), (16, 18), (17, 0), (255, 0)] {
            bytes[1] = announced;
            assert_eq!(refused(&bytes), (12, wanted), "{announced}");
        }
        let mut more = sixteen();
        more.insert(0, line(1, 7, 4, 3));
        let mut bytes = write(&more);
        assert_eq!(refused(&bytes), (12, 0));
        bytes[1] = 16;
        assert_eq!(refused(&bytes), (12, 130));
    }

    #[test]
    fn numbers_rise() {
        assert_eq!(of(&[line(0, 7, 4, 3)]), (12, 2));
        assert_eq!(of(&[line(2, 7, 4, 3), line(0, 7, 4, 3)]), (12, 10));
        assert_eq!(of(&[line(2, 7, 4, 3), line(2, 7, 4, 3)]), (12, 10));
        assert_eq!(of(&[line(2, 7, 4, 3), line(1, 7, 4, 3)]), (12, 10));
        // No number is above 255, but that shows only at the second line.
        assert_eq!(of(&[line(255, 7, 4, 3), line(1, 7, 4, 3)]), (12, 10));
    }

    #[test]
    fn figures_that_no_flow_can_have() {
        for bad in [(0, 0, 3), (7, 4, 0), (7, 7, 3), (7, 8, 3), (255, 256, 1)] {
            let bad = line(2, bad.0, bad.1, bad.2);
            assert_eq!(of(&[bad]), (3, 2));
            assert_eq!(of(&[line(1, 7, 4, 3), bad]), (3, 10));
        }
        for good in [(1, 0, 1), (7, 6, 3), (256, 255, 256), (1, 0, 65_535)] {
            let good = line(2, good.0, good.1, good.2);
            assert_eq!(read(&write(&[good])), Ok(vec![good]));
        }
    }

    #[test]
    fn the_first_record_at_fault_decides_and_12_goes_before_3() {
        let bad = |number| line(number, 0, 0, 3);
        let good = line(2, 7, 4, 3);
        assert_eq!(of(&[bad(0)]), (12, 2));
        assert_eq!(of(&[good, bad(2)]), (12, 10));
        assert_eq!(of(&[bad(2), bad(2)]), (3, 2));
        assert_eq!(of(&[line(0, 7, 4, 3), bad(3)]), (12, 2));
        let mut bytes = write(&[bad(2)]);
        assert_eq!(refused(&bytes[..9]), (12, 2));
        assert_eq!(refused(&bytes[..10]), (3, 2));
        bytes[1] = 0;
        assert_eq!(refused(&bytes), (12, 2));
        bytes[1] = 17;
        assert_eq!(refused(&bytes), (12, 0));
    }

    #[test]
    fn asking() {
        let lines = [line(1, 7, 4, 3), line(255, 8, 3, 8)];
        assert_eq!(ask(&lines, 255), Ok(lines[1]));
        for number in [0, 2, 254, 256, 257] {
            assert_eq!(ask(&lines, number), Err(Refusal::plain(11)));
        }
    }

    #[test]
    fn writing_keeps_the_rest_of_the_buffer() {
        let lines = [line(1, 7, 4, 3), line(2, 8, 3, 8)];
        let mut buffer = [9; 24];
        let short = write_into(&lines, &mut buffer[..18]);
        assert_eq!(short, Err(Refusal::plain(13)));
        assert_eq!(buffer, [9; 24]);
        assert_eq!(write_into(&lines, &mut buffer), Ok(19));
        assert_eq!(buffer[..19], write(&lines));
        assert_eq!(buffer[19..], [9; 5]);
    }

    #[test]
    fn the_text() {
        let bytes = write(&[line(1, 7, 4, 3)]);
        assert_eq!(text(&bytes), "flow bound jitter busy\n1 7 4 3\n");
        assert_eq!(text(&bytes[..10]), "refused 12 flow 0 at 10\n");
    }
}
