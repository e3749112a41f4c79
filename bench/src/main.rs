//! Compares the static library with the gate in plain Rust, and measures both.
//!
//! `compare` alone compares, `measure` alone measures; without an argument both are done.

mod compare;
mod measure;
mod northbound;

use std::env;
use std::process::ExitCode;

fn main() -> ExitCode {
    let arguments: Vec<String> = env::args().skip(1).collect();
    let arguments: Vec<&str> = arguments.iter().map(String::as_str).collect();
    let good = match arguments.as_slice() {
        [] => compare::run() && measure::run(),
        ["compare"] => compare::run(),
        ["measure"] => measure::run(),
        _ => {
            eprintln!("the argument is `compare`, `measure`, or none for both");
            false
        }
    };
    if good {
        ExitCode::SUCCESS
    } else {
        ExitCode::FAILURE
    }
}
