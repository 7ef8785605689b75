//! The bitmap beside the Rust crate bitmap-allocator, in one program: its answers and words compared, its instructions counted, its
//! time and its stack measured. bench/run builds and runs it, one mode at a time. See docs/SPEED.md.
#[path = "../../oracle/src/calls.rs"]
#[allow(dead_code)]
mod calls;
mod count;
mod lines;
mod maps;
#[path = "../../oracle/src/order.rs"]
#[allow(dead_code)]
mod order;
mod plain;
mod plans;
#[path = "../../bindings/rust/src/refusal.rs"]
#[allow(dead_code)]
mod refusal;
mod runs;
mod same;
mod sides;
mod stack;
#[path = "../../bindings/rust/src/sys.rs"]
#[allow(dead_code)]
mod sys;
mod table;
mod time;
mod whole;

use refusal::Refusal;
use std::process::ExitCode;

fn main() -> ExitCode {
    let args: Vec<String> = std::env::args().skip(1).collect();
    let words: Vec<&str> = args.iter().map(String::as_str).collect();
    match words[..] {
        ["same"] => same::all(),
        ["count"] => count::all(),
        ["time"] => time::all(),
        ["stack"] => stack::all(),
        ["table", folder] => return table::print(folder),
        _ => {
            eprintln!("usage: same, count, time, stack, or table FOLDER; bench/run runs it");
            return ExitCode::from(2);
        }
    }
    ExitCode::SUCCESS
}
