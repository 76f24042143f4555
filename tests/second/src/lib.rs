//! A second program for network plans, written from the rules alone. Nothing in
//! it is taken from the library that it is held against. RULES in the comments
//! is docs/RULES.md, with the heading of a section.

pub mod arith;
pub mod busy;
pub mod calls;
pub mod cases;
pub mod counts;
pub mod damage;
pub mod deadlines;
pub mod dense;
pub mod dice;
pub mod feedback;
pub mod flow;
pub mod found;
pub mod frames;
pub mod fronts;
pub mod horizon;
pub mod judge;
pub mod make_calls;
pub mod make_frames;
pub mod paths;
pub mod plan;
pub mod refusal;
pub mod report;
pub mod report_damage;
pub mod report_ways;
pub mod responses;
pub mod set;
pub mod sets;
pub mod steps;
pub mod table;
pub mod tangles;
pub mod verdict;
