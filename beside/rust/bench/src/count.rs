//! Instructions of a call, by callgrind: it is asked to begin anew before each piece of work, and
//! to write what it counted behind it.

use crate::measure::Row;
use std::collections::BTreeMap;
use std::io;
use std::path::Path;
use std::process::{Command, Stdio};

const CALLGRIND: usize = (b'C' as usize) << 24 | (b'T' as usize) << 16;
const ZERO: usize = CALLGRIND + 1;
const DUMP_AT: usize = CALLGRIND + 3;

/// A request to valgrind, which is nothing to a processor.
fn request(what: usize, argument: *const u8) {
    let words: [usize; 6] = [what, argument as usize, 0, 0, 0, 0];
    unsafe {
        core::arch::asm!(
            "rol rdi, 3", "rol rdi, 13", "rol rdi, 61", "rol rdi, 51", "xchg rbx, rbx",
            inout("rdx") 0usize => _, in("rax") &words, inout("rdi") 0usize => _
        );
    }
}

fn counted(name: &str, work: &mut dyn FnMut()) {
    let name = format!("{name}\0");
    request(ZERO, std::ptr::null());
    work();
    request(DUMP_AT, name.as_ptr());
}

/// Makes each side's calls once, and what it does beside them, the second time with callgrind
/// counting.
pub fn under_callgrind(rows: Vec<Row>) {
    for (at, mut row) in rows.into_iter().enumerate() {
        for (number, side) in row.sides.iter_mut().enumerate() {
            for (what, work) in [("calls", &mut side.calls), ("beside", &mut side.beside)] {
                (side.prepare)();
                work();
                (side.prepare)();
                counted(&format!("{at}/{number}/{what}"), work);
            }
        }
    }
}

/// What a dump of callgrind says it is of, and how many instructions it has.
fn read(dump: &str) -> Option<(String, f64)> {
    let behind = |word: &str| dump.lines().find_map(|line| line.strip_prefix(word));
    let name = behind("desc: Trigger: Client Request: ")?;
    Some((name.to_string(), behind("summary: ").or(behind("totals: "))?.trim().parse().ok()?))
}

/// Instructions of a call of each row, by either side.
pub fn instructions(program: &str, rows: &[Row]) -> io::Result<Vec<[f64; 2]>> {
    let folder = std::env::temp_dir().join(format!("bench-{}", std::process::id()));
    std::fs::create_dir(&folder)?;
    let out = format!("--callgrind-out-file={}", folder.join("dump").display());
    let mut command = Command::new("valgrind");
    command.args(["-q", "--tool=callgrind", &out, program, "count"]).stdout(Stdio::null());
    let counted = command.status().and_then(|status| match status.success() {
        true => dumps(&folder),
        false => Err(io::Error::other("valgrind failed")),
    });
    std::fs::remove_dir_all(&folder)?;
    let counted = counted?;
    let of = |name: String| {
        counted.get(&name).copied().ok_or_else(|| io::Error::other(format!("no count of {name}")))
    };
    rows.iter()
        .enumerate()
        .map(|(at, row)| {
            let side = |number| {
                let [calls, beside] =
                    ["calls", "beside"].map(|what| of(format!("{at}/{number}/{what}")));
                Ok::<_, io::Error>((calls? - beside?) / row.times as f64)
            };
            Ok([side(0)?, side(1)?])
        })
        .collect()
}

fn dumps(folder: &Path) -> io::Result<BTreeMap<String, f64>> {
    let files = std::fs::read_dir(folder)?.map(|entry| std::fs::read_to_string(entry?.path()));
    Ok(files.collect::<io::Result<Vec<_>>>()?.iter().filter_map(|dump| read(dump)).collect())
}
