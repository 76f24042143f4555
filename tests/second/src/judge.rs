//! What `judge` prints. RULES, programs.

use crate::table::Table;
use crate::verdict::Figures;

const HEADER: &str = "flow bound jitter busy\n";

/// For a plan: its table, or its refusal.
pub fn text(plan: &[u8]) -> String {
    match Table::of_plan(plan) {
        Ok(table) => lines_text(table.figures()),
        Err(refusal) => format!("{refusal}\n"),
    }
}

/// The header and the lines of the flows, of a table or a report.
pub fn lines_text(figures: &[Figures]) -> String {
    let mut out = String::from(HEADER);
    out.extend(figures.iter().map(line));
    out
}

pub fn line(figures: &Figures) -> String {
    format!(
        "{} {} {} {}\n",
        figures.number, figures.bound, figures.jitter, figures.busy
    )
}

#[cfg(test)]
mod tests {
    use super::*;

    #[test]
    fn the_text_of_a_refusal() {
        assert_eq!(text(&[]), "refused 12 flow 0 at 0\n");
    }
}
