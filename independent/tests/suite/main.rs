//! The tests of the library and of the commands.

mod answered;
mod commands;
mod files;
mod generated;
mod limits;
mod models;
mod refusals;
mod worked_cases;
mod written;
