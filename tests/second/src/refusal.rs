//! A refusal: number, flow and place.

use std::fmt;

#[derive(Clone, Copy, Debug, PartialEq, Eq)]
pub struct Refusal {
    pub number: i64,
    pub flow: i64,
    pub place: usize,
}

impl Refusal {
    /// A refusal that names no flow and no place.
    pub fn plain(number: i64) -> Refusal {
        Refusal {
            number,
            flow: 0,
            place: 0,
        }
    }

    /// 7, 8 and 10 name the least flow at fault.
    pub fn of_flow(number: i64, flow: i64) -> Refusal {
        Refusal {
            number,
            flow,
            place: 0,
        }
    }

    /// A refusal of a record, a plan's or a report's.
    pub fn at(number: i64, place: usize) -> Refusal {
        Refusal {
            number,
            flow: 0,
            place,
        }
    }
}

impl fmt::Display for Refusal {
    fn fmt(&self, out: &mut fmt::Formatter) -> fmt::Result {
        write!(
            out,
            "refused {} flow {} at {}",
            self.number, self.flow, self.place
        )
    }
}
