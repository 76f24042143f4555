//! Links and flows: their fields, their ranges, their bytes.

/// Nodes of the longest path. RULES, ranges.
pub const NODES: usize = 8;
/// H, which no bound and no busy length may pass. RULES, ranges.
pub const HORIZON: i64 = 65_535;
/// Greatest cost and greatest link delay.
pub const SMALL: i64 = 4_095;
/// Flows of a full table. RULES, ranges.
pub const FLOWS: usize = 16;
/// Body of a kind 02 record.
pub const BODY: usize = 33;

#[derive(Clone, Copy, Debug, Default, PartialEq, Eq)]
pub struct Links {
    pub least: i64,
    pub most: i64,
}

impl Links {
    /// Lmin and Lmax from four bytes.
    pub fn from_bytes(body: &[u8]) -> Links {
        Links {
            least: two(body, 0),
            most: two(body, 2),
        }
    }

    pub fn bytes(&self) -> Vec<u8> {
        let mut out = Vec::new();
        push_two(&mut out, self.least);
        push_two(&mut out, self.most);
        out
    }

    /// Not refusal 1: both delays in range and in order. RULES, refusals.
    pub fn allowed(&self) -> bool {
        self.least <= self.most && self.most <= SMALL
    }
}

/// A flow as its 33 bytes hold it: no field is known to be in range.
#[derive(Clone, Debug, PartialEq, Eq)]
pub struct Record {
    pub number: i64,
    pub priority: i64,
    pub period: i64,
    pub jitter: i64,
    pub deadline: i64,
    pub length: i64,
    pub nodes: [i64; NODES],
    pub costs: [i64; NODES],
}

/// A flow in range: path and costs have the same length, 1 to 8.
#[derive(Clone, Debug, PartialEq, Eq)]
pub struct Flow {
    pub number: i64,
    pub priority: i64,
    pub period: i64,
    pub jitter: i64,
    pub deadline: i64,
    pub path: Vec<i64>,
    pub costs: Vec<i64>,
}

impl Record {
    /// The fields of a record 02, one after another. RULES, the plan.
    pub fn from_bytes(body: &[u8]) -> Record {
        let mut nodes = [0; NODES];
        let mut costs = [0; NODES];
        for k in 0..NODES {
            nodes[k] = i64::from(body[9 + k]);
            costs[k] = two(body, 17 + 2 * k);
        }
        Record {
            number: i64::from(body[0]),
            priority: i64::from(body[1]),
            period: two(body, 2),
            jitter: two(body, 4),
            deadline: two(body, 6),
            length: i64::from(body[8]),
            nodes,
            costs,
        }
    }

    /// The record as a flow, or the number of the lowest of refusals 2, 3, 4
    /// that applies.
    pub fn flow(&self) -> Result<Flow, i64> {
        if self.number == 0 {
            return Err(2);
        }
        if !self.in_range() {
            return Err(3);
        }
        let used = self.length as usize;
        let path = self.nodes[..used].to_vec();
        if repeats(&path) {
            return Err(4);
        }
        Ok(Flow {
            number: self.number,
            priority: self.priority,
            period: self.period,
            jitter: self.jitter,
            deadline: self.deadline,
            path,
            costs: self.costs[..used].to_vec(),
        })
    }

    /// Not refusal 3: every field in its range, and nothing but zeros behind
    /// the path. RULES, refusals. Every J of two bytes is in range.
    fn in_range(&self) -> bool {
        if self.period == 0 || self.deadline == 0 {
            return false;
        }
        if self.length < 1 || self.length > NODES as i64 {
            return false;
        }
        let used = self.length as usize;
        (0..used).all(|k| self.nodes[k] >= 1 && (1..=SMALL).contains(&self.costs[k]))
            && (used..NODES).all(|k| self.nodes[k] == 0 && self.costs[k] == 0)
    }

    pub fn bytes(&self) -> Vec<u8> {
        let mut out = vec![self.number as u8, self.priority as u8];
        push_two(&mut out, self.period);
        push_two(&mut out, self.jitter);
        push_two(&mut out, self.deadline);
        out.push(self.length as u8);
        out.extend(self.nodes.iter().map(|n| *n as u8));
        for c in self.costs {
            push_two(&mut out, c);
        }
        out
    }
}

impl Flow {
    pub fn record(&self) -> Record {
        let mut nodes = [0; NODES];
        let mut costs = [0; NODES];
        nodes[..self.path.len()].copy_from_slice(&self.path);
        costs[..self.costs.len()].copy_from_slice(&self.costs);
        Record {
            number: self.number,
            priority: self.priority,
            period: self.period,
            jitter: self.jitter,
            deadline: self.deadline,
            length: self.path.len() as i64,
            nodes,
            costs,
        }
    }

    /// The place of a node on the path.
    pub fn place(&self, node: i64) -> Option<usize> {
        self.path.iter().position(|n| *n == node)
    }

    /// The cost at a node, if the flow visits it.
    pub fn cost_at(&self, node: i64) -> Option<i64> {
        self.place(node).map(|p| self.costs[p])
    }
}

fn repeats(path: &[i64]) -> bool {
    (0..path.len()).any(|k| path[..k].contains(&path[k]))
}

/// A number of two bytes: 256 times the first, plus the second.
pub fn two(bytes: &[u8], at: usize) -> i64 {
    i64::from(bytes[at]) * 256 + i64::from(bytes[at + 1])
}

pub fn push_two(out: &mut Vec<u8>, value: i64) {
    out.push((value / 256) as u8);
    out.push((value % 256) as u8);
}

#[cfg(test)]
mod tests {
    use super::*;

    fn good() -> Record {
        Flow {
            number: 7,
            priority: 3,
            period: 300,
            jitter: 65_535,
            deadline: 65_535,
            path: vec![9, 255],
            costs: vec![4_095, 1],
        }
        .record()
    }

    fn refusal(change: impl Fn(&mut Record)) -> Option<i64> {
        let mut record = good();
        change(&mut record);
        record.flow().err()
    }

    #[test]
    fn bytes_go_and_come_back() {
        let record = good();
        let bytes = record.bytes();
        assert_eq!(bytes.len(), BODY);
        assert_eq!(Record::from_bytes(&bytes), record);
        assert_eq!(record.flow().unwrap().record(), record);
    }

    #[test]
    fn fields_out_of_range() {
        assert_eq!(refusal(|_| {}), None);
        assert_eq!(refusal(|r| r.number = 0), Some(2));
        assert_eq!(refusal(|r| r.period = 0), Some(3));
        assert_eq!(refusal(|r| r.deadline = 0), Some(3));
        assert_eq!(refusal(|r| r.length = 0), Some(3));
        assert_eq!(refusal(|r| r.length = 1), Some(3));
        assert_eq!(refusal(|r| r.length = 3), Some(3));
        assert_eq!(refusal(|r| r.length = 9), Some(3));
        assert_eq!(refusal(|r| r.length = 255), Some(3));
        assert_eq!(refusal(|r| r.nodes[0] = 0), Some(3));
        assert_eq!(refusal(|r| r.costs[1] = 0), Some(3));
        assert_eq!(refusal(|r| r.costs[1] = 4_096), Some(3));
        assert_eq!(refusal(|r| r.nodes[2] = 1), Some(3));
        assert_eq!(refusal(|r| r.costs[7] = 1), Some(3));
        assert_eq!(refusal(|r| r.nodes[1] = 9), Some(4));
    }

    #[test]
    fn the_lowest_of_2_3_4_is_given() {
        assert_eq!(
            refusal(|r| {
                r.number = 0;
                r.period = 0;
                r.nodes[1] = 9
            }),
            Some(2)
        );
        assert_eq!(
            refusal(|r| {
                r.deadline = 0;
                r.nodes[1] = 9
            }),
            Some(3)
        );
    }

    #[test]
    fn link_delays() {
        let allowed = |least, most| Links { least, most }.allowed();
        assert!(allowed(0, 0) && allowed(0, 4_095) && allowed(4_095, 4_095));
        assert!(!allowed(1, 0) && !allowed(0, 4_096) && !allowed(4_096, 4_095));
    }
}
