//! The offer capping engine, written down from document 01, with requests F-1 to F-6 of document 02, and
//! from nothing else.
//!
//! It is a model: every function says one sentence of the paper, nothing is tuned, and whoever
//! doubts an engine can read here what the paper asks. The modules stand in the paper's order.
//!
//! | module | what the paper says there |
//! |---|---|
//! | [`csv`] | "File syntax is RFC 4180" |
//! | [`table`] | columns, ranges and the refusals 1, 2, 4 and 3 of one file |
//! | [`curves`] | offer curves: the price at ecomin, the refusals 32, 33 and 34 |
//! | [`parents`] | affiliated owners: chains, heads, the refusals 35 and 36 |
//! | [`rules`] | what rows must be to each other: the refusals 5 to 9 and 32 to 36 in their order |
//! | [`market`] | capped offer, eligible supply, clearing cost, relevant market |
//! | [`pivotal`] | the test of one supplier, within a study and on its own |
//! | [`fed`] | the same test, given one amount a call |
//! | [`choice`] | eligible schedules, their cost, the one taken |
//! | [`day`] | the hour and the running units; release |
//! | [`answer`] | the answer file |
//! | [`study`] | everything above in the order of the refusals |
//! | [`preview`] | the answer row of one unit, and the refusal 31 |
//! | [`check`] | the check for host programs |
//! | [`tidy`] | a file handed back tidy, and the refusal 30 |
//!
//! What follows isn't in the paper: [`case`] reads and answers cases written as lines, [`judge`]
//! weighs any answer by the words of demand 3, [`changes`] makes answers for it to reject,
//! [`generator`] makes cases up, and [`tally`] counts what they reached, by [`grouping`] where suppliers
//! are affiliated, by [`pricing`] where there are curves, by [`offering`] where costs or prices are around
//! 2,000 dollars and by [`feeding`] where the test is fed.
//!
//! Programs: `model` answers cases, and `generate SEED COUNT` prints them. `tests/compare` holds an
//! engine against the model on them.

pub mod csv;
pub mod refusal;
pub mod table;
pub mod curves;
pub mod parents;
pub mod rules;
pub mod market;
pub mod pivotal;
pub mod fed;
pub mod choice;
pub mod day;
pub mod answer;
pub mod study;
pub mod preview;
pub mod check;
pub mod tidy;

pub mod case;
pub mod judge;
pub mod changes;
pub mod generator;
pub mod grouping;
pub mod pricing;
pub mod offering;
pub mod feeding;
pub mod tally;
