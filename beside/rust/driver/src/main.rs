//! Runs Theseus's three files beside the port: see ../../../README.md.

use beside::compare::Damage;
use beside::port::Part;
use beside::{compare, exports, generate, lines, listing, oracle, sides};
use std::io::{self, BufWriter, Write};
use std::process::ExitCode;

/// Writes calls of every operation with the Rust's answers.
fn sample(calls: u64, seed: u64) -> io::Result<ExitCode> {
    let mut out = BufWriter::new(io::stdout().lock());
    writeln!(out, "# Calls of every operation with the Rust's answers: beside/sample --calls {calls} --seed {seed}")?;
    let mut written = Ok(());
    generate::sample(&mut oracle::Oracle::new(), calls, seed, &mut |oracle, call| {
        let pair = writeln!(out, "{}\n{}", call.line(), oracle.answer(&call));
        written = std::mem::replace(&mut written, Ok(())).and(pair);
    });
    written.and(out.flush())?;
    Ok(ExitCode::SUCCESS)
}

/// The value of an option.
fn option<'a>(args: &'a [String], name: &str) -> Option<&'a str> {
    args.iter().position(|arg| arg == name).and_then(|at| args.get(at + 1)).map(String::as_str)
}

fn number(args: &[String], name: &str) -> Option<u64> {
    option(args, name)?.parse().ok()
}

fn main() -> io::Result<ExitCode> {
    let args: Vec<String> = std::env::args().skip(1).collect();
    let side = args.get(1).map(String::as_str).filter(|word| *word != "--but");
    let (calls, seed) = (number(&args, "--calls"), number(&args, "--seed"));
    let part = match option(&args, "--part") {
        None | Some("refusal") => Some(Part::Refusal),
        Some("byte") => Some(Part::Byte),
        Some("number") => Some(Part::Number),
        _ => None,
    };
    let damaged = number(&args, "--damage");
    let whose = if option(&args, "--of") == Some("mirror") { "the mirror" } else { "the port" };
    let damage = Damage { call: damaged, side: whose };
    match (args.first().map(String::as_str), calls, seed) {
        (Some(word @ ("replay" | "held")), None, None) => {
            // What the mirror's handler calls can't tell a recorded answer has: `check` holds the mirror to the Rust.
            let is_told = (word, side) != ("held", Some("--mirror"));
            if let Some(mut side) = sides::by_name(side).filter(|_| is_told) {
                let but = option(&args, "--but").map_or(Ok(Default::default()), lines::calls_of)?;
                return match word {
                    "replay" => lines::replay(&mut *side),
                    _ => lines::held(&mut *side, &but),
                };
            }
        }
        (Some("tablekeys"), ..) => return listing::tablekeys(),
        (Some("check"), ..) => return exports::check(damage),
        (Some("sample"), Some(calls), Some(seed)) => return sample(calls, seed),
        (Some("compare"), Some(calls), Some(seed)) => return compare::compare(calls, seed, damage),
        (Some("exports"), Some(calls), Some(seed)) => {
            return exports::compare(calls, seed, damaged.zip(part), option(&args, "--only"))
        }
        _ => {}
    }
    eprintln!("usage: beside replay [--rust | --mirror] | held [--rust] [--but TRACE] | tablekeys");
    eprintln!("       beside check [--damage CALL [--of port|mirror]]");
    eprintln!("       beside sample --calls N --seed S");
    eprintln!("       beside compare --calls N --seed S [--damage CALL [--of port|mirror]]");
    eprintln!("       beside exports --calls N --seed S [--only OPERATION] [--damage CALL [--part refusal|byte|number]]");
    Ok(ExitCode::from(2))
}
