//! What both comparisons use: the second implementation, texts to try, random numbers and the report.

pub mod mutate;
pub mod random;
pub mod report;
pub mod samples;
pub mod second;
