//! Reports over sessions in plain safe Rust: what the port's are held to, and a fresh report's measured against.

use crate::call::KeyEvent;
use crate::report::{Numbers, Reported, Season, Width, KEYS, NARROW};
use std::ops::RangeInclusive;

/// A fresh report with a session.
#[derive(Debug, PartialEq)]
pub struct Report {
    pub number: u32,
    pub packets: u32,
    pub x: i32,
    pub y: i32,
}

/// The presses of each key, which the report keeps.
fn presses(events: &[u8]) -> [u64; KEYS] {
    let mut presses = [0; KEYS];
    for &code in events {
        if let Some(count) = presses.get_mut(code as usize) {
            *count += 1;
        }
    }
    presses
}

/// A byte, or 255 on overflow, less 256 where the sign bit is set; without a branch, which bytes by chance would mislead half the time.
fn movement(first: u8, overflow: u32, sign: u32, byte: u8) -> i64 {
    let value = byte | (first >> overflow & 1).wrapping_neg();
    i64::from(value) - (i64::from(first >> sign & 1) << 8)
}

fn sums_of<const LENGTH: usize>(mouse: &[u8]) -> (usize, i64, i64) {
    let packets = mouse.chunks_exact(LENGTH);
    let count = packets.len();
    let (x, y) = packets.fold((0, 0), |(x, y), packet| {
        (x + movement(packet[0], 6, 4, packet[1]), y + movement(packet[0], 7, 5, packet[2]))
    });
    (count, x, y)
}

/// How many packets of an identity, and their movements.
fn sums(id: u8, mouse: &[u8]) -> (usize, i64, i64) {
    match id {
        0 => sums_of::<3>(mouse),
        _ => sums_of::<4>(mouse),
    }
}

pub fn report(id: u8, events: &[u8], mouse: &[u8]) -> Report {
    let presses = presses(events);
    let (packets, x, y) = sums(id, mouse);
    let fits = presses.iter().all(|&count| u32::try_from(count).is_ok());
    match (fits, u32::try_from(packets), i32::try_from(x), i32::try_from(y)) {
        (true, Ok(packets), Ok(x), Ok(y)) => Report { number: 0, packets, x, y },
        _ => Report { number: 32, packets: 0, x: 0, y: 0 },
    }
}

/// The largest count of a report, and the least and the largest sum, at a session's end.
fn limits(width: &Width) -> (u64, RangeInclusive<i64>) {
    if *width == NARROW {
        (u32::MAX as u64, i32::MIN as i64..=i32::MAX as i64)
    } else {
        (281_474_976_710_656, -72_057_594_037_927_936..=72_057_594_037_927_936)
    }
}

/// A report with one session more, where none of its numbers leaves its range.
fn added(season: &Season, report: &Numbers, events: &[KeyEvent], id: u8, mouse: &[u8]) -> Option<Numbers> {
    let (most, range) = limits(season.width);
    let codes: Vec<u8> = events.iter().filter(|event| !event.released).map(|event| event.keycode).collect();
    let (packets, x, y) = sums(id, mouse);
    let mut sum = report.clone();
    for (count, more) in sum.presses.iter_mut().zip(presses(&codes)) {
        *count = count.checked_add(more)?;
    }
    sum.packets = sum.packets.checked_add(packets as u64)?;
    (sum.x, sum.y) = (sum.x.checked_add(x)?, sum.y.checked_add(y)?);
    let counts = sum.presses.iter().chain([&sum.packets]).all(|&count| count <= most);
    (counts && range.contains(&sum.x) && range.contains(&sum.y)).then_some(sum)
}

/// The mean of a sum: the quotient is rounded down.
fn mean(sum: i64, packets: u64) -> (i64, u64) {
    let (sum, packets) = (i128::from(sum), i128::from(packets));
    (sum.div_euclid(packets) as i64, sum.rem_euclid(packets) as u64)
}

/// The sessions of a line, added one after the other.
pub fn season(season: &Season) -> Reported {
    let mut report = season.from.clone();
    let ends = season.sessions.iter().map(|session| {
        match added(season, &report, &session.events, session.id, &session.mouse) {
            Some(sum) => {
                report = sum;
                0
            }
            None => 32,
        }
    });
    let ends = ends.collect();
    let means = (report.packets > 0).then(|| [report.x, report.y].map(|sum| mean(sum, report.packets)));
    Reported { ends, report, means, widened: season.widens }
}

