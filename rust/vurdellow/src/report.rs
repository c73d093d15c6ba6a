//! Reports over sessions, in 32 bits and, for long seasons, in 64.

use crate::raw;
use crate::refusal::Refusal;
use crate::{Identity, Keycode};

/// How many keys a report counts: those of events.
pub const REPORT_KEYS: usize = 94;

/// A mean movement: packets times quotient, and the remainder, are the sum. The remainder is below the packets.
#[derive(Clone, Copy, Debug, PartialEq, Eq, Hash)]
pub struct Mean {
    /// The quotient, rounded towards minus infinity.
    pub quotient: i64,
    /// The remainder, less than the count of packets.
    pub remainder: u64,
}

fn mean(answer: raw::vd_mean) -> Option<Mean> {
    let raw::vd_mean { present, quotient, remainder } = answer;
    (present != 0).then_some(Mean { quotient, remainder })
}

/// A report over sessions: presses by keycode, packets, and sums of x and y. Any numbers are a report.
///
/// ```
/// use vurdellow::{Identity, Keycode, Mean, Refusal, Report};
/// let mut report = Report::new();
/// // A pressed and released, B pressed; two packets.
/// report.add(Identity::NoWheel, &[0x1E, 0x9E, 0x30], &[0x08, 0x05, 0x00, 0x08, 0x02, 0x01])?;
/// assert_eq!((report.presses(Keycode::A), report.packets, report.x, report.y), (1, 2, 7, 1));
/// assert_eq!(report.mean_x(), Some(Mean { quotient: 3, remainder: 1 }));
/// assert_eq!(report.widen().packets, 2);
/// # Ok::<(), Refusal>(())
/// ```
#[derive(Clone, Copy, Debug, PartialEq, Eq)]
pub struct Report {
    /// How often each key was pressed, by its number.
    pub presses: [u32; REPORT_KEYS],
    /// How many packets were added.
    pub packets: u32,
    /// The sum of the movements sideways.
    pub x: i32,
    /// The sum of the movements up and down.
    pub y: i32,
}

impl Report {
    /// A report of no session.
    #[must_use]
    pub fn new() -> Report {
        Report::of(raw::vd_report_empty())
    }

    /// Adds a session: its events, a byte each ([`Event::code`](crate::Event::code)), and its mouse bytes, in packets of one identity.
    /// Refused with 32 if a number would be outside its range, with the report as it was.
    pub fn add(&mut self, identity: Identity, events: &[u8], mouse: &[u8]) -> Result<(), Refusal> {
        let raw::vd_report_added { refusal, report } =
            raw::vd_report_add(self.numbers(), identity.number(), events, mouse);
        *self = Report::of(report);
        Refusal::answered(refusal, 0).map_or(Ok(()), Err)
    }

    /// How often a key was pressed. The release codes, which occur in no event, are not counted.
    #[must_use]
    pub fn presses(&self, keycode: Keycode) -> u32 {
        self.presses.get(usize::from(keycode.number())).copied().unwrap_or(0)
    }

    /// The mean movement sideways, if there are packets.
    #[must_use]
    pub fn mean_x(&self) -> Option<Mean> {
        mean(raw::vd_report_mean_x(self.numbers()))
    }

    /// The mean movement up or down, if there are packets.
    #[must_use]
    pub fn mean_y(&self) -> Option<Mean> {
        mean(raw::vd_report_mean_y(self.numbers()))
    }

    /// A report in 64 bits with the same numbers.
    #[must_use]
    pub fn widen(&self) -> LongReport {
        LongReport::of(raw::vd_report_widen(self.numbers()))
    }

    fn numbers(&self) -> raw::vd_report {
        let Report { presses, packets, x, y } = *self;
        raw::vd_report { presses, packets, x, y }
    }

    fn of(report: raw::vd_report) -> Report {
        let raw::vd_report { presses, packets, x, y } = report;
        Report { presses, packets, x, y }
    }
}

impl Default for Report {
    fn default() -> Report {
        Report::new()
    }
}

/// A report over a long season: counts to 281,474,976,710,656, and sums to 72,057,594,037,927,936 either way.
#[derive(Clone, Copy, Debug, PartialEq, Eq)]
pub struct LongReport {
    /// How often each key was pressed, by its number.
    pub presses: [u64; REPORT_KEYS],
    /// How many packets were added.
    pub packets: u64,
    /// The sum of the movements sideways.
    pub x: i64,
    /// The sum of the movements up and down.
    pub y: i64,
}

impl LongReport {
    /// A report of no session.
    #[must_use]
    pub fn new() -> LongReport {
        LongReport::of(raw::vd_long_report_empty())
    }

    /// Adds a session, as [`Report::add`] does, within the wider limits.
    /// Refused with 32 if a number would be outside its range, with the report as it was.
    pub fn add(&mut self, identity: Identity, events: &[u8], mouse: &[u8]) -> Result<(), Refusal> {
        let raw::vd_long_added { refusal, report } =
            raw::vd_long_report_add(self.numbers(), identity.number(), events, mouse);
        *self = LongReport::of(report);
        Refusal::answered(refusal, 0).map_or(Ok(()), Err)
    }

    /// How often a key was pressed. The release codes, which occur in no event, are not counted.
    #[must_use]
    pub fn presses(&self, keycode: Keycode) -> u64 {
        self.presses.get(usize::from(keycode.number())).copied().unwrap_or(0)
    }

    /// The mean movement sideways, if there are packets.
    #[must_use]
    pub fn mean_x(&self) -> Option<Mean> {
        mean(raw::vd_long_report_mean_x(self.numbers()))
    }

    /// The mean movement up or down, if there are packets.
    #[must_use]
    pub fn mean_y(&self) -> Option<Mean> {
        mean(raw::vd_long_report_mean_y(self.numbers()))
    }

    fn numbers(&self) -> raw::vd_long_report {
        let LongReport { presses, packets, x, y } = *self;
        raw::vd_long_report { presses, packets, x, y }
    }

    fn of(report: raw::vd_long_report) -> LongReport {
        let raw::vd_long_report { presses, packets, x, y } = report;
        LongReport { presses, packets, x, y }
    }
}

impl Default for LongReport {
    fn default() -> LongReport {
        LongReport::new()
    }
}

impl From<&Report> for LongReport {
    fn from(report: &Report) -> LongReport {
        report.widen()
    }
}
