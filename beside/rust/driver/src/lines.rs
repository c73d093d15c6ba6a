//! Call lines of standard input, answered one by one: nothing is held beyond a line and its answer.

use crate::answer;
use crate::call::{self, Bad};
use crate::sides::Answerer;
use std::collections::BTreeSet;
use std::io::{self, BufRead, BufWriter, Write};
use std::process::ExitCode;

/// Calls a function with each line of standard input, by its number, from 1. A line that is no text is given as far as it is.
pub fn each_line(mut act: impl FnMut(usize, Result<&str, &str>) -> io::Result<()>) -> io::Result<()> {
    let (mut input, mut line) = (io::stdin().lock(), Vec::new());
    for number in 1.. {
        line.clear();
        if input.read_until(b'\n', &mut line)? == 0 {
            break;
        }
        let line = line.strip_suffix(b"\n").unwrap_or(&line);
        let line = line.strip_suffix(b"\r").unwrap_or(line);
        let text = std::str::from_utf8(line);
        act(number, text.map_err(|why| std::str::from_utf8(&line[..why.valid_up_to()]).unwrap()))?;
    }
    Ok(())
}

/// What is said of a line that has no answer, with the column where what can't be read begins.
fn error(line: &str, bad: &Bad) -> String {
    format!("column {}: {}", bad.column(line), bad.why)
}

/// The answer to a call line, or why it has none.
fn answer_to(side: &mut dyn Answerer, line: &str) -> Result<answer::Answer, String> {
    let call = call::parse(line).map_err(|bad| error(line, &bad))?;
    side.ask(&call)
}

/// Answers each call line of standard input. A bad line gets an error with its number, and the exit status is 1.
pub fn replay(side: &mut dyn Answerer) -> io::Result<ExitCode> {
    let mut out = BufWriter::new(io::stdout().lock());
    let mut bad = false;
    each_line(|number, line| {
        let answer = match line {
            Ok(line) if call::is_skipped(line) => return Ok(()),
            Ok(line) => answer_to(side, line),
            Err(text) => Err(format!("column {}: the line is no text", text.len() + 1)),
        };
        match answer {
            Ok(answer) => writeln!(out, "{answer}"),
            Err(why) => {
                bad = true;
                writeln!(out, "error: line {number}: {why}")
            }
        }
    })?;
    out.flush()?;
    Ok(ExitCode::from(bad as u8))
}

/// The call lines of a trace.
pub fn calls_of(path: &str) -> io::Result<BTreeSet<String>> {
    let lines = std::fs::read_to_string(path)?;
    Ok(lines.lines().filter(|line| !call::is_skipped(line)).map(String::from).collect())
}

/// Holds a side to the trace of standard input, without the calls `but`: each call must be followed by its answer, and be answered so.
/// Writes what is otherwise, by its line, or how many calls there were.
pub fn held(side: &mut dyn Answerer, but: &BTreeSet<String>) -> io::Result<ExitCode> {
    let (mut calls, mut wrong) = (0, 0);
    let mut tell = |number: usize, call: &str, what: &str| {
        wrong += 1;
        println!("line {number}: {call}\n{what}");
    };
    // The call that waits for its answer, with its line's number.
    let mut asked: Option<(usize, String)> = None;
    each_line(|number, line| {
        let line = line.unwrap_or("(no text)");
        if !call::is_skipped(line) {
            if let Some((number, call)) = asked.replace((number, line.to_string())) {
                tell(number, &call, "has no answer");
            }
        } else if line.starts_with("out=") {
            match asked.take() {
                None => tell(number, line, "is the answer to no call"),
                Some((_, call)) if but.contains(&call) => {}
                Some((number, call)) => {
                    calls += 1;
                    let given = answer_to(side, &call);
                    let given = given.map_or_else(|why| format!("error: {why}"), |answer| answer.to_string());
                    if !answer::alike(&given, line) {
                        tell(number, &call, &format!("is answered {given}\nand not     {line}"));
                    }
                }
            }
        }
        Ok(())
    })?;
    if let Some((number, call)) = asked {
        tell(number, &call, "has no answer");
    }
    if wrong == 0 {
        println!("{calls}");
    }
    Ok(ExitCode::from((wrong > 0) as u8))
}
