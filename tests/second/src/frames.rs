//! A corpus of plans: for each, its length in two bytes, then its bytes.

use crate::flow::{push_two, two};
use crate::judge;
use std::io::{self, Write};

/// The plan at the start, after its length; None if it is cut short.
pub fn first(input: &[u8]) -> Option<&[u8]> {
    let length = two(input.get(..2)?, 0) as usize;
    input.get(2..2 + length)
}

/// The plans of a corpus. What is left of a frame cut short is no plan.
pub fn plans(mut input: &[u8]) -> Vec<&[u8]> {
    let mut out = Vec::new();
    while let Some(plan) = first(input) {
        out.push(plan);
        input = &input[2 + plan.len()..];
    }
    out
}

/// For each plan, what `judge` prints, then a line with a single dot.
pub fn judge_all(input: &[u8], out: &mut dyn Write) -> io::Result<()> {
    for bytes in plans(input) {
        writeln!(out, "{}.", judge::text(bytes))?;
    }
    Ok(())
}

pub fn push(out: &mut Vec<u8>, plan: &[u8]) {
    push_two(out, plan.len() as i64);
    out.extend(plan);
}

#[cfg(test)]
mod tests {
    use super::*;

    #[test]
    fn frames_follow_one_another() {
        let mut input = Vec::new();
        push(&mut input, &[0x01, 0, 1, 0, 1, 0x7F]);
        push(&mut input, &[]);
        push(&mut input, &[0x7F]);
        assert_eq!(plans(&input).len(), 3);
        let mut out = Vec::new();
        judge_all(&input, &mut out).unwrap();
        let text =
            "flow bound jitter busy\n.\nrefused 12 flow 0 at 0\n.\nrefused 12 flow 0 at 0\n.\n";
        assert_eq!(String::from_utf8(out).unwrap(), text);
    }

    #[test]
    fn a_frame_cut_short_is_left_out() {
        assert!(plans(&[]).is_empty());
        assert!(plans(&[0]).is_empty());
        assert!(plans(&[0, 2, 0x7F]).is_empty());
    }
}
