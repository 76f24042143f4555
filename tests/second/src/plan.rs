//! Plans as bytes: reading and writing.

use crate::flow::{Flow, Links, Record, BODY, FLOWS};
use crate::refusal::Refusal;
use crate::set::Set;

pub const LINKS: u8 = 0x01;
pub const FLOW: u8 = 0x02;
pub const END: u8 = 0x7F;

/// The set that a plan lists, or the first refusal of its records: 12, 1, 2, 3,
/// 4 or 6. RULES, reading.
pub fn read(plan: &[u8]) -> Result<Set, Refusal> {
    let links = read_links(plan)?;
    let mut flows: Vec<Flow> = Vec::new();
    let mut at = 5;
    loop {
        match plan.get(at) {
            Some(&FLOW) => {
                let flow = read_flow(plan, at, &flows)?;
                flows.push(flow);
                at += 1 + BODY;
            }
            Some(&END) => break,
            // No kind byte left, an unknown kind, or 01 at a wrong place.
            _ => return Err(Refusal::at(12, at)),
        }
    }
    // Nothing may follow the end. RULES, the plan.
    if plan.len() > at + 1 {
        return Err(Refusal::at(12, at + 1));
    }
    Ok(Set { links, flows })
}

/// The record at the start, which has to be 01.
fn read_links(plan: &[u8]) -> Result<Links, Refusal> {
    if plan.first() != Some(&LINKS) || plan.len() < 5 {
        return Err(Refusal::at(12, 0));
    }
    let links = Links::from_bytes(&plan[1..5]);
    if !links.allowed() {
        return Err(Refusal::at(1, 0));
    }
    Ok(links)
}

/// The record 02 whose kind byte is at `at`, after the flows read before it.
fn read_flow(plan: &[u8], at: usize, before: &[Flow]) -> Result<Flow, Refusal> {
    let body = plan.get(at + 1..at + 1 + BODY).ok_or(Refusal::at(12, at))?;
    let record = Record::from_bytes(body);
    let rising = before.last().is_none_or(|last| last.number < record.number);
    // Number 0, which cannot rise, has a refusal of its own. RULES, reading.
    if record.number != 0 && !rising {
        return Err(Refusal::at(12, at));
    }
    let flow = record.flow().map_err(|number| Refusal::at(number, at))?;
    // The fields are judged before the room for them. RULES, reading.
    if before.len() == FLOWS {
        return Err(Refusal::at(6, at));
    }
    Ok(flow)
}

/// The bytes of a set.
pub fn write(set: &Set) -> Vec<u8> {
    let mut out = vec![LINKS];
    out.extend(set.links.bytes());
    for flow in &set.flows {
        out.push(FLOW);
        out.extend(flow.record().bytes());
    }
    out.push(END);
    out
}

#[cfg(test)]
mod tests {
    use super::*;
    use crate::{frames, make_frames};

    fn flow(number: i64) -> Flow {
        Flow {
            number,
            priority: 1,
            period: 1_000,
            jitter: 0,
            deadline: 1_000,
            path: vec![1, 2],
            costs: vec![1, 1],
        }
    }

    fn of(numbers: &[i64]) -> Vec<u8> {
        let flows = numbers.iter().map(|n| flow(*n)).collect();
        write(&Set {
            links: Links { least: 1, most: 1 },
            flows,
        })
    }

    fn refused(plan: &[u8]) -> (i64, usize) {
        let refusal = read(plan).unwrap_err();
        assert_eq!(refusal.flow, 0);
        (refusal.number, refusal.place)
    }

    fn changed(mut plan: Vec<u8>, changes: &[(usize, u8)]) -> Vec<u8> {
        changes.iter().for_each(|(at, byte)| plan[*at] = *byte);
        plan
    }

    /// Offset of the kind byte of the k-th flow, from 0.
    fn at(k: usize) -> usize {
        5 + 34 * k
    }

    #[test]
    fn plans_go_and_come_back() {
        let plan = of(&[1, 7, 255]);
        assert_eq!(plan.len(), 6 + 34 * 3);
        assert_eq!(write(&read(&plan).unwrap()), plan);
        assert_eq!(of(&[]).len(), 6);
        assert_eq!(write(&read(&of(&[])).unwrap()), of(&[]));
    }

    /// Whatever judging says of it. RULES, demands.
    #[test]
    fn every_plan_that_is_read_comes_back() {
        let corpus = make_frames::make(2_000, 1);
        for plan in frames::plans(&corpus) {
            if let Ok(set) = read(plan) {
                assert_eq!(write(&set), plan);
            }
        }
    }

    #[test]
    fn no_kind_byte_left() {
        assert_eq!(refused(&[]), (12, 0));
        assert_eq!(refused(&[1, 0, 1, 0, 1]), (12, 5));
        let plan = of(&[1]);
        assert_eq!(refused(&plan[..39]), (12, 39));
    }

    #[test]
    fn short_bodies() {
        assert_eq!(refused(&[1]), (12, 0));
        assert_eq!(refused(&[1, 0, 9, 0]), (12, 0));
        let plan = of(&[1, 2]);
        assert_eq!(refused(&plan[..38]), (12, 5));
        assert_eq!(refused(&plan[..6]), (12, 5));
        assert_eq!(refused(&plan[..40]), (12, 39));
    }

    #[test]
    fn kinds_and_their_order() {
        assert_eq!(refused(&[0x7F]), (12, 0));
        assert_eq!(refused(&of(&[1])[5..]), (12, 0));
        assert_eq!(refused(&[3, 0, 1, 0, 1, 0x7F]), (12, 0));
        assert_eq!(refused(&[1, 0, 1, 0, 1, 0]), (12, 5));
        assert_eq!(refused(&[1, 0, 1, 0, 1, 1, 0, 1, 0, 1, 0x7F]), (12, 5));
        assert_eq!(refused(&[1, 0, 1, 0, 1, 0x7F, 0x7F]), (12, 6));
        assert_eq!(refused(&[of(&[1]), vec![2]].concat()), (12, 40));
    }

    #[test]
    fn numbers_rise() {
        assert_eq!(refused(&of(&[2, 2])), (12, 39));
        assert_eq!(refused(&of(&[2, 1])), (12, 39));
        assert_eq!(refused(&of(&[0])), (2, 5));
        assert_eq!(refused(&of(&[2, 0])), (2, 39));
        // Not rising goes before the fields; number 0 goes before both.
        assert_eq!(
            refused(&changed(of(&[2, 1]), &[(at(1) + 3, 0), (at(1) + 4, 0)])),
            (12, 39)
        );
        assert_eq!(
            refused(&changed(of(&[2, 0]), &[(at(1) + 3, 0), (at(1) + 4, 0)])),
            (2, 39)
        );
    }

    #[test]
    fn link_delays_before_flows() {
        assert_eq!(refused(&changed(of(&[0]), &[(2, 2)])), (1, 0));
        assert_eq!(
            refused(&changed(of(&[]), &[(1, 16), (3, 16), (2, 0), (4, 0)])),
            (1, 0)
        );
        // A body that is short is 12 though the delays that are there are bad.
        assert_eq!(refused(&[1, 9, 9, 0]), (12, 0));
    }

    #[test]
    fn the_first_record_at_fault_decides() {
        let bad = changed(of(&[1, 2, 3]), &[(at(1) + 11, 1), (at(2) + 9, 0)]);
        assert_eq!(refused(&bad), (4, 39));
        assert_eq!(
            refused(&changed(of(&[1, 2, 1]), &[(at(1) + 9, 9)])),
            (3, 39)
        );
    }

    #[test]
    fn a_seventeenth_flow() {
        let numbers: Vec<i64> = (1..=17).collect();
        let plan = of(&numbers);
        let place = at(16);
        assert_eq!(place, 549);
        assert!(read(&of(&numbers[..16])).is_ok());
        assert_eq!(refused(&plan), (6, place));
        assert_eq!(
            refused(&changed(plan.clone(), &[(place + 9, 9)])),
            (3, place)
        );
        assert_eq!(
            refused(&changed(plan.clone(), &[(place + 11, 1)])),
            (4, place)
        );
        assert_eq!(
            refused(&changed(plan.clone(), &[(place + 1, 0)])),
            (2, place)
        );
        assert_eq!(
            refused(&changed(plan.clone(), &[(place + 1, 16)])),
            (12, place)
        );
        assert_eq!(refused(&plan[..place + 33]), (12, place));
        assert_eq!(refused(&plan[..place + 34]), (6, place));
        assert_eq!(refused(&changed(plan, &[(place, 3)])), (12, place));
    }
}
