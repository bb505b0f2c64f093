//! A second, independent implementation of the checker for claims about
//! Markov decision processes, written from document 01 alone.

pub mod check;
mod conditions;
pub mod file;
pub mod generate;
pub mod kind;
pub mod program;
pub mod rewrite;
pub mod stream;
pub mod tables;
pub mod verdict;
pub mod whole;
