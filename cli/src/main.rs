//! The program behind the front door, `./vartrymoy`: one thin layer over the proved library.

mod check;
mod fresh;
mod library;

use std::env;
use std::process::ExitCode;

/// What the program ends with where the sources have changed since it was built: the front door then builds it anew.
const STALE: u8 = 75;
const NOT_USABLE: u8 = 2;

fn main() -> ExitCode {
    if fresh::outdated() {
        eprintln!("vartrymoy: the sources have changed since this program was built");
        return ExitCode::from(STALE);
    }
    let mut words = env::args_os().skip(1);
    let command = words.next().unwrap_or_default();
    let names: Vec<_> = words.collect();
    if command != "check" || names.is_empty() {
        eprintln!("vartrymoy: usage: vartrymoy check FILE..");
        return ExitCode::from(NOT_USABLE);
    }
    ExitCode::from(check::check(&names))
}
