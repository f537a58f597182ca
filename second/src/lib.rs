//! A second program for document 01, naive on purpose: a plain reference for interval records, labels, summaries, reports and verdicts, with
//! percentile delay and range. Verdicts follow Wish 3 of document 02, the largest delay and the most frames Wish 6. The library is
//! compared with it. READINGS.md has the places where the documents can be read in two ways.

pub mod delays;
pub mod evaluator;
pub mod frames;
pub mod labels;
pub mod program;
pub mod records;
pub mod refusals;
pub mod reports;
pub mod summaries;
pub mod verdicts;

#[cfg(test)]
mod edges;
