//! The library's operations over a live controller: QEMU's. `live/run` starts it; docs/LIVE.md has what it says.

mod lamps;
mod qemu;
mod traces;

use lamps::Way;
use std::collections::HashMap;
use std::io;
use std::path::Path;
use std::process::ExitCode;
use std::time::Instant;

/// The recorded files, and whether each initialisation was on a machine just switched on, or the first only.
const FILES: [(&str, &str, bool); 4] = [
    ("boot.txt", "the start-up of a fresh machine", false),
    ("boot_again.txt", "the same once more, resets, and a controller that translates", false),
    ("keys_set1.txt", "keys, with the lamp exchanges of locks", false),
    ("mouse_id.txt", "identities, packets at each, and packets in the way of commands", true),
];

/// Comes back with the number of differences.
fn traces(folder: &Path, short: bool) -> io::Result<usize> {
    let mut own_text = String::new();
    for file in std::fs::read_dir(folder.join("port"))? {
        own_text += &std::fs::read_to_string(file?.path())?;
    }
    let mut own = HashMap::new();
    let mut lines = own_text.lines().filter(|line| !line.is_empty() && !line.starts_with('#'));
    while let (Some(call), Some(answer)) = (lines.next(), lines.next()) {
        own.insert(call, answer);
    }
    let mut differences = 0;
    println!("Recorded calls, made live: each reads the bytes that were recorded, and answers as recorded");
    for (name, what, anew) in FILES {
        let made = traces::make(&std::fs::read_to_string(folder.join(name))?, anew, &own, short)?;
        println!("  {name}: {what}");
        for compared in &made.compared {
            let read = match compared.read.len() {
                0..=160 => compared.read.clone(),
                digits => format!("{} bytes", digits / 2),
            };
            let with = match compared.first[compared.name.len()..].trim() {
                "" => String::new(),
                arguments => format!(", {arguments},"),
            };
            println!("    {:3} {}; the first{with} read {read}", compared.times, compared.name);
        }
        println!("    the longest script has {} bytes", made.longest);
        if made.by_hand + made.passed_over > 0 {
            println!("    not of the library: {} made by hand, {} passed over", made.by_hand, made.passed_over);
        }
        if made.cut {
            println!("    cut short before a call that polls until it gives up");
        }
        for difference in &made.differences {
            println!("    OTHERWISE: {difference}");
        }
        differences += made.differences.len();
    }
    Ok(differences)
}

fn lamps() -> io::Result<usize> {
    let mut lost = 0;
    println!(
        "Caps Lock, and A while its lamp exchange runs: A comes before each of its reads and writes, and at the end"
    );
    let ways = [
        (Way::Keyboard, "pressed at the keyboard, which answers the exchange first and sends A then"),
        (Way::Controller, "in the controller already, before the answers, so that the exchange reads it"),
    ];
    for (way, what) in ways {
        println!("  {what}");
        let all = lamps::show(way)?;
        for (at, caught) in all.iter().enumerate() {
            let place = if at + 1 < all.len() { format!("before {at}") } else { "at the end".to_string() };
            let script: Vec<String> = caught.script.iter().map(|byte| format!("{byte:02X}")).collect();
            let said = if caught.is_whole() { "Caps Lock, then A under it" } else { "OTHERWISE" };
            println!("    {place}: read {}, {} waiting: {said}", script.join(" "), caught.waiting);
            lost += usize::from(!caught.is_whole());
        }
    }
    Ok(lost)
}

fn main() -> io::Result<ExitCode> {
    let arguments: Vec<String> = std::env::args().skip(1).collect();
    let (folder, short) = match arguments.iter().map(String::as_str).collect::<Vec<_>>()[..] {
        [folder] => (folder, false),
        ["--short", folder] => (folder, true),
        _ => {
            eprintln!(
                "usage: live [--short] FOLDER    FOLDER has the recorded calls, and in port/ the port's own answers"
            );
            return Ok(ExitCode::from(2));
        }
    };
    println!("{}", qemu::version()?);
    let begin = Instant::now();
    let differences = traces(Path::new(folder), short)? + lamps()?;
    println!("{differences} differences, in {:.1} seconds", begin.elapsed().as_secs_f64());
    Ok(if differences == 0 { ExitCode::SUCCESS } else { ExitCode::FAILURE })
}
