//! The tables of docs/PERFORMANCE.md, from the rows of the programs that differ in how their code
//! lies.

use crate::count::instructions;
use std::collections::BTreeMap;
use std::fs;
use std::io;
use std::process::{Command, ExitCode, Stdio};

/// A number with three digits or more, its thousands parted by commas.
pub fn number(value: f64) -> String {
    if value < 100.0 {
        return if value == value.trunc() { format!("{value}") } else { format!("{value:.1}") };
    }
    let digits = format!("{value:.0}");
    let part = |(i, digit)| {
        if i > 0 && (digits.len() - i) % 3 == 0 {
            format!(",{digit}")
        } else {
            format!("{digit}")
        }
    };
    digits.chars().enumerate().map(part).collect()
}

/// What a program writes on standard output.
fn output(program: &str, words: &[&str]) -> io::Result<String> {
    let output = Command::new(program).args(words).stderr(Stdio::inherit()).output()?;
    if !output.status.success() {
        return Err(io::Error::other(format!("the program '{program}' failed")));
    }
    Ok(String::from_utf8_lossy(&output.stdout).into_owned())
}

/// The nanoseconds of a call in each layout, and whether one of them wasn't stable.
#[derive(Default)]
struct Times {
    nanoseconds: Vec<f64>,
    unstable: bool,
}

impl Times {
    fn add(&mut self, word: &str) {
        self.unstable |= word.ends_with('?');
        self.nanoseconds.push(word.trim_end_matches('?').parse().expect("a number"));
    }

    /// The least of the layouts and the worst.
    fn ends(&self) -> (f64, f64) {
        let fold = |pick: fn(f64, f64) -> f64| {
            self.nanoseconds.iter().copied().reduce(pick).expect("a layout")
        };
        (fold(f64::min), fold(f64::max))
    }

    fn told(&self) -> String {
        let (least, worst) = self.ends();
        format!("{} to {}{}", number(least), number(worst), if self.unstable { "?" } else { "" })
    }
}

/// Linux's `rusage`, as words: the first four are seconds and microseconds of user and of system
/// time.
type Usage = [i64; 18];

extern "C" {
    fn getrusage(who: i32, usage: *mut Usage) -> i32;
}

/// Seconds of processor time that all programs of the machine have taken, and this one with those
/// that it ran.
fn all_and_own() -> Option<(f64, f64)> {
    const HUNDREDTHS: f64 = 100.0;
    let used = |who: i32| {
        let mut usage = [0; 18];
        unsafe { getrusage(who, &mut usage) };
        (usage[0] + usage[2]) as f64 + (usage[1] + usage[3]) as f64 / 1e6
    };
    let stat = fs::read_to_string("/proc/stat").ok()?;
    let words: Vec<f64> = stat
        .lines()
        .next()?
        .split_ascii_whitespace()
        .skip(1)
        .filter_map(|w| w.parse().ok())
        .collect();
    // user, nice, system, idle, iowait, irq, softirq, steal
    let busy: f64 = [0, 1, 2, 5, 6, 7].iter().map(|&i| words.get(i).unwrap_or(&0.0)).sum();
    Some((busy / HUNDREDTHS, used(0) + used(-1)))
}

fn heading(title: &str, columns: &[&str]) {
    println!("\n### {title}\n\n| {} |\n|{}", columns.join(" | "), "---|".repeat(columns.len()));
}

/// What a user asks for, from rows of the table.
fn bars(times: &BTreeMap<String, [Times; 2]>) {
    heading("What a table asks for", &["", "port", "the Rust, or plain Rust"]);
    // `things` of them are in a call of the row.
    let per_second = |name: &str, things: f64| {
        let each = |side: &Times| number(1e3 * things / side.ends().0);
        let [theirs, ours] = &times[name];
        format!("{} million a second | {} million a second", each(ours), each(theirs))
    };
    println!(
        "| keys through the handler, each event taken at once | {} |",
        per_second(crate::handler::DRAINED, 1.0)
    );
    println!(
        "| packets of a recorded session into a report | {} |",
        per_second(crate::operations::PACKETS, 1.0)
    );
    println!(
        "| characters of a text typed | {} |",
        per_second("`vd_type_text`, 16,000 characters", 16e3)
    );
    println!(
        "| bytes of a stream in set 2 converted | {} |",
        per_second("`vd_convert_set2`, 60,000 bytes", 60e3)
    );
    let lock = |name: &str| {
        let [theirs, ours] = &times[name];
        format!("{} ns | {} ns", number(ours.ends().0), number(theirs.ends().0))
    };
    println!("| a lock's exchange, 6 reads and 2 writes | {} |", lock("lock, `vd_handle`"));
    println!(
        "| the same, answered at the third poll: 10 reads | {} |",
        lock("lock, answered at the third poll, `vd_handle`")
    );
}

/// Measures and prints all tables, with the rows that have more instructions than the Rust.
pub fn print(limit: &str, programs: &[&str]) -> io::Result<ExitCode> {
    let (before, start) = (all_and_own(), std::time::Instant::now());
    let rows = crate::rows();
    let counted = instructions(programs[0], &rows)?;
    let mut times: BTreeMap<String, [Times; 2]> = BTreeMap::new();
    for program in programs {
        for line in output(program, &["time", limit])?.lines() {
            let words: Vec<&str> = line.split('\t').collect();
            let sides = times.entry(words[0].to_string()).or_default();
            sides.iter_mut().zip(&words[1..]).for_each(|(side, word)| side.add(word));
        }
    }
    bars(&times);
    heading(
        "Each call next to the Rust",
        &[
            "call",
            "Rust, ns",
            "port, ns",
            "port / Rust",
            "Rust, instructions",
            "port, instructions",
            "port / Rust",
            "what is in the row",
        ],
    );
    let mut above = Vec::new();
    for (row, [their_count, our_count]) in rows.iter().zip(&counted) {
        let [theirs, ours] = &times[&row.name];
        let ((their_least, their_worst), (our_least, our_worst)) = (theirs.ends(), ours.ends());
        let (ratio, count) = (our_least / their_least, our_count / their_count);
        println!(
            "| {} | {} | {} | {ratio:.2} to {:.2} | {} | {} | {count:.2} | {} |",
            row.name,
            theirs.told(),
            ours.told(),
            our_worst / their_worst,
            number(*their_count),
            number(*our_count),
            row.contents
        );
        if count > 1.005 {
            above.push(row.name.clone());
        }
    }
    heading("How a call grows", &["call", "measured at", "port, ns", "port, slope", "Rust, slope"]);
    print!("{}", output(programs[0], &["growth", limit])?);
    println!();
    println!(
        "Rows with more instructions than the Rust, or than what takes its place: {}.\n",
        above.len()
    );
    above.iter().for_each(|name| println!("- {name}"));
    println!();
    if let (Some((all, own)), Some((all_now, own_now))) = (before, all_and_own()) {
        let others = (all_now - all - (own_now - own)).max(0.0) / start.elapsed().as_secs_f64();
        println!("Other programs of the machine took {others:.2} of its processors meanwhile.");
    }
    Ok(ExitCode::SUCCESS)
}
