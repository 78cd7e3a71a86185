//! A second roster, written from the documents alone, plain and slow. README.md says where it takes a law of theirs as
//! given.

pub mod certificate;
pub mod chart;
pub mod command;
pub mod console;
pub mod counts;
pub mod library;
pub mod lines;
pub mod long;
pub mod make;
pub mod random;
pub mod refusal;
pub mod roster;
pub mod run;
pub mod sheet;
pub mod supply;
pub mod typed;
pub mod verdict;
pub mod visit;
