//! What the program compare and the search of tests/fuzz share: the comparisons
//! of the archives with the second implementation.

pub mod again;
mod archives;
pub mod comparisons;
pub mod counts;
pub mod difference;
mod every;
pub mod fault;
pub mod group;
pub mod groups;
pub mod guarded;
pub mod input;
mod pages;
pub mod probe;
pub mod program;
pub mod saved;
mod seeded;
mod session;
mod shrink;
mod smaller;
