//! Document 01 in plain Rust, written from the paper alone, to compare the proved code with.
pub mod agenda;
pub mod answer;
pub mod certificate;
pub mod clauses;
pub mod close;
pub mod combine;
pub mod compare;
pub mod different;
pub mod encode;
pub mod fault;
pub mod fill;
pub mod listing;
pub mod model;
#[cfg(proved)]
pub mod proved;
pub mod refusal;
pub mod settle;
pub mod sheet;
pub mod steps;
pub mod words;
