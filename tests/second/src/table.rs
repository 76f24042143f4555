//! A model of the table that the library keeps.

use crate::flow::{Links, Record, FLOWS};
use crate::plan;
use crate::refusal::Refusal;
use crate::set::Set;
use crate::verdict::{judge_set, Figures};

/// The flows present and their figures, worked out anew after each change. The
/// default, without flows and with Lmin = Lmax = 0, is given where a fresh table
/// or a set is refused. RULES, tables.
#[derive(Clone, Debug, Default, PartialEq, Eq)]
pub struct Table {
    set: Set,
    figures: Vec<Figures>,
}

impl Table {
    pub fn fresh(links: Links) -> Result<Table, Refusal> {
        if !links.allowed() {
            return Err(Refusal::plain(1));
        }
        let set = Set {
            links,
            ..Set::default()
        };
        Ok(Table {
            set,
            ..Table::default()
        })
    }

    /// The table of a set, or the lowest of refusals 7 to 10. RULES, judging.
    pub fn judge(set: &Set) -> Result<Table, Refusal> {
        let figures = judge_set(set)?;
        let set = set.clone();
        Ok(Table { set, figures })
    }

    /// A plan is read, then its set judged. RULES, judging.
    pub fn of_plan(bytes: &[u8]) -> Result<Table, Refusal> {
        Table::judge(&plan::read(bytes)?)
    }

    /// Refusals 2 to 10, of which 7 to 10 judge the flows with the new one among
    /// them; a refusal leaves the table as it was. RULES, refusals.
    pub fn admit(&mut self, record: &Record) -> Result<(), Refusal> {
        let flow = record.flow().map_err(Refusal::plain)?;
        if self.place(flow.number).is_some() {
            return Err(Refusal::plain(5));
        }
        if self.set.flows.len() == FLOWS {
            return Err(Refusal::plain(6));
        }
        let mut set = self.set.clone();
        set.flows.push(flow);
        set.flows.sort_by_key(|f| f.number);
        *self = Table::judge(&set)?;
        Ok(())
    }

    /// Fewer flows never raise a bound, so what is left is accepted again.
    pub fn withdraw(&mut self, number: i64) -> Result<(), Refusal> {
        let place = self.place(number).ok_or(Refusal::plain(11))?;
        let mut set = self.set.clone();
        set.flows.remove(place);
        *self = Table::judge(&set)?;
        Ok(())
    }

    pub fn ask(&self, number: i64) -> Result<Figures, Refusal> {
        let place = self.place(number).ok_or(Refusal::plain(11))?;
        Ok(self.figures[place])
    }

    /// Bytes of the plan: 5 for the links, 34 for each flow, 1 for the end.
    /// RULES, writing.
    pub fn length(&self) -> usize {
        6 + 34 * self.set.flows.len()
    }

    /// Puts the plan at the start of the buffer, whose other bytes stay, and
    /// gives its length. A buffer that is too short stays as it is. RULES,
    /// writing.
    pub fn write(&self, buffer: &mut [u8]) -> Result<usize, Refusal> {
        let room = buffer.get_mut(..self.length()).ok_or(Refusal::plain(13))?;
        room.copy_from_slice(&plan::write(&self.set));
        Ok(self.length())
    }

    pub fn figures(&self) -> &[Figures] {
        &self.figures
    }

    pub fn set(&self) -> &Set {
        &self.set
    }

    fn place(&self, number: i64) -> Option<usize> {
        self.set.flows.iter().position(|f| f.number == number)
    }
}

#[cfg(test)]
mod tests {
    use super::*;
    use crate::flow::Flow;

    fn flow(number: i64) -> Flow {
        Flow {
            number,
            priority: 1,
            period: 1_000,
            jitter: 0,
            deadline: 1_000,
            path: vec![1],
            costs: vec![1],
        }
    }

    fn table(numbers: &[i64]) -> Table {
        let mut table = Table::fresh(Links { least: 1, most: 2 }).unwrap();
        for number in numbers {
            table.admit(&flow(*number).record()).unwrap();
        }
        table
    }

    #[test]
    fn the_order_of_admissions_leaves_no_trace() {
        assert_eq!(table(&[3, 200, 7]), table(&[200, 7, 3]));
        let mut back = table(&[3, 9, 7]);
        back.withdraw(9).unwrap();
        assert_eq!(back, table(&[7, 3]));
    }

    #[test]
    fn the_lowest_refusal_of_an_admission_is_given() {
        let mut full = table(&(1..=16).collect::<Vec<i64>>());
        let mut refused = |change: &dyn Fn(&mut Record)| {
            let mut record = flow(17).record();
            change(&mut record);
            let before = full.clone();
            let refusal = full.admit(&record).unwrap_err();
            assert_eq!(full, before);
            refusal.number
        };
        assert_eq!(refused(&|_| {}), 6);
        assert_eq!(refused(&|r| r.number = 4), 5);
        assert_eq!(refused(&|r| r.nodes[1] = 5), 3);
        assert_eq!(
            refused(&|r| {
                r.number = 4;
                r.deadline = 0
            }),
            3
        );
        assert_eq!(
            refused(&|r| {
                r.number = 4;
                r.length = 2;
                r.nodes[1] = 1;
                r.costs[1] = 1;
            }),
            4
        );
        assert_eq!(
            refused(&|r| {
                r.number = 0;
                r.deadline = 0
            }),
            2
        );
        full.withdraw(4).unwrap();
        assert_eq!(full.admit(&flow(17).record()), Ok(()));
        assert_eq!(full.ask(4), Err(Refusal::plain(11)));
        assert_eq!(full.withdraw(4), Err(Refusal::plain(11)));
    }

    #[test]
    fn writing_keeps_the_rest_of_the_buffer() {
        let table = table(&[5, 6]);
        let mut buffer = [9; 80];
        assert_eq!(table.write(&mut buffer[..73]), Err(Refusal::plain(13)));
        assert_eq!(buffer, [9; 80]);
        assert_eq!(table.write(&mut buffer), Ok(74));
        assert_eq!(plan::read(&buffer[..74]).as_ref(), Ok(table.set()));
        assert_eq!(buffer[74..], [9; 6]);
    }
}
