//! Measures the port through its libraries, beside the Rust: see ../../../README.md.

mod count;
mod growth;
mod handler;
mod measure;
mod operations;
mod table;

use std::io;
use std::process::ExitCode;

core::arch::global_asm!(
    ".section .text.pad,\"ax\",@progbits",
    ".globl bench_pad",
    "bench_pad:",
    concat!(".skip ", env!("PAD"), ", 0x90"),
    ".text"
);

extern "C" {
    fn bench_pad();
}

/// What moves all code behind it: see build.rs.
#[used]
static PAD: unsafe extern "C" fn() = bench_pad;

/// All rows of the table, in order.
pub fn rows() -> Vec<measure::Row> {
    handler::rows().into_iter().chain(operations::rows()).collect()
}

fn main() -> io::Result<ExitCode> {
    let args: Vec<String> = std::env::args().skip(1).collect();
    let words: Vec<&str> = args.iter().map(String::as_str).collect();
    match words[..] {
        ["time", seconds] => measure::print(rows(), seconds.parse().expect("a number of seconds")),
        ["count"] => count::under_callgrind(rows()),
        ["growth", seconds] => growth::print(seconds.parse().expect("a number of seconds")),
        ["table", seconds, ref programs @ ..] if !programs.is_empty() => {
            return table::print(seconds, programs)
        }
        _ => {
            eprintln!(
                "usage: bench time SECONDS | count | growth SECONDS | table SECONDS PROGRAM.."
            );
            return Ok(ExitCode::from(2));
        }
    }
    Ok(ExitCode::SUCCESS)
}
