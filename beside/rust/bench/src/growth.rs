//! How the time of a call grows with its input: over four decades, with the slope of a line through
//! the logarithms.

use crate::measure::{measure, Row};
use crate::operations::*;
use crate::table::number;
use beside::device::Rng;
use beside::oracle::Oracle;
use std::cell::RefCell;
use std::rc::Rc;

const LENGTHS: [usize; 5] = [100, 1_000, 10_000, 100_000, 1_000_000];
/// The polls before a device answers: the last is nearly all that a call makes.
const POLLS: [usize; 5] = [6, 65, 655, 6_550, 65_500];

/// The slope of the line through the logarithms that is nearest to them, by squares.
fn slope(points: &[(usize, f64)]) -> f64 {
    let logs: Vec<(f64, f64)> = points.iter().map(|&(x, y)| ((x as f64).ln(), y.ln())).collect();
    let mean = |of: fn(&(f64, f64)) -> f64| logs.iter().map(of).sum::<f64>() / logs.len() as f64;
    let (x, y) = (mean(|it| it.0), mean(|it| it.1));
    let sum =
        |of: &dyn Fn(f64, f64) -> f64| logs.iter().map(|it| of(it.0 - x, it.1 - y)).sum::<f64>();
    sum(&|x, y| x * y) / sum(&|x, _| x * x)
}

/// A line for each operation: its name, how it was measured, and of either side the nanoseconds at
/// each length and the slope.
pub fn print(limit: f64) {
    let oracle = Rc::new(RefCell::new(Oracle::new()));
    type Of<'a> = Box<dyn Fn(usize) -> Row + 'a>;
    let operations: [(&str, &str, [usize; 5], Of); 7] = [
        (
            "`vd_convert_set2`",
            "bytes of set 2",
            LENGTHS,
            Box::new(|n| on_bytes("convert", &conversion(n), "")),
        ),
        ("`vd_type_text`", "characters", LENGTHS, Box::new(|n| on_bytes("type", &typing(n), ""))),
        (
            "`vd_salvage` at identity 0",
            "bytes",
            LENGTHS,
            Box::new(|n| salvage("salvage", 0, loose_plug(0, n), "")),
        ),
        (
            "`vd_salvage` at identity 4",
            "bytes",
            LENGTHS,
            Box::new(|n| salvage("salvage", 4, loose_plug(4, n), "")),
        ),
        (
            "`vd_salvage` at identity 0, by chance",
            "bytes",
            LENGTHS,
            Box::new(|n| salvage("salvage", 0, bytes(&mut Rng(2), n), "")),
        ),
        (
            "`vd_report_add` at identity 0",
            "packets",
            LENGTHS,
            Box::new(|n| session("session", 0, n, "")),
        ),
        (
            "`vd_keyboard_command` ED, a device that is silent at first",
            "polls",
            POLLS,
            Box::new(|n| on_ports(&oracle, "silent", &late_device(n), "", led_command)),
        ),
    ];
    for (name, unit, lengths, row) in operations {
        let mut points = [Vec::new(), Vec::new()];
        for length in lengths {
            for (side, it) in points.iter_mut().zip(measure(&mut row(length), limit)) {
                side.push((length, it.nanoseconds));
            }
        }
        let told = points.map(|side| {
            let times: Vec<String> =
                side.iter().map(|(_, nanoseconds)| number(*nanoseconds)).collect();
            (times, slope(&side))
        });
        let [(_, theirs), (times, ours)] = &told;
        let from_to =
            format!("{} to {} {unit}", number(lengths[0] as f64), number(lengths[4] as f64));
        println!("| {name} | {from_to} | {} | {ours:.3} | {theirs:.3} |", times.join(" · "));
    }
}
