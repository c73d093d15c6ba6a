//! A keyboard and mouse input layer for PS/2 sockets, over a library in which every function is proved.
//!
//! There is no hardware in it. Each operation on the ports is a function of a *script*, the bytes that are read from ports 60 and 64 in
//! order, and a *log*, which takes two bytes for each write: the port and the value. Its result tells how many script bytes were used and
//! how many pairs were written. The log behind them is left as it was. A recording can be replayed so; `drive` runs an
//! operation on real ports.
//!
//! A refusal is a [`Refusal`], whose [`number`](Refusal::number) the repository's docs/REFUSALS.md explains. Where a call was refused a
//! [`Refused`] also has what was done until then. Nothing is allocated, and there is no global state: a record, as a [`Handler`], is the
//! caller's, and one caller at a time has it (`&mut`).
//!
//! ```
//! use vurdellow::{Handler, Keyboards, Profile, Side, HANDLER_LOG};
//!
//! // The handler reads a byte at a time: Control, T, and T released.
//! let mut handler = Handler::new(Keyboards::One, Profile::Any);
//! for byte in [0x1D, 0x14, 0x94] {
//!     handler.handle(Side::First, &[byte], &mut [0; HANDLER_LOG])?;
//! }
//! let pressed: Vec<_> = handler.events().filter(|event| event.is_press()).collect();
//! assert!(pressed[1].modifiers.is_control());
//! assert_eq!(pressed[1].character(), Some('t'));
//! # Ok::<(), vurdellow::Refused<vurdellow::Handled>>(())
//! ```
//!
//! The package has the library (`libvurdellow.a`) for x86-64 and 64-bit Arm; the variable `VURDELLOW_LIB` names another archive, as the
//! repository's `./build-lib` builds it.

#![cfg_attr(not(feature = "std"), no_std)]
#![deny(unsafe_code)]
#![warn(missing_debug_implementations, missing_docs, rust_2018_idioms)]

mod bytes;
mod controller;
mod dispatcher;
pub mod drive;
mod handler;
pub mod keyboard;
mod keys;
mod mouse;
mod preferences;
#[allow(unsafe_code)]
mod raw;
mod refusal;
mod report;
mod step;

pub use bytes::{convert_set2, salvage, type_text, Converted, Salvaged};
pub use controller::Controller;
pub use dispatcher::{Dispatcher, Source, Step, DISPATCHER_WORDS};
pub use handler::{Events, Handled, Handler, Keyboards, Profile, HANDLER_LOG, HANDLER_WORDS, LOG_BYTES};
pub use keys::{Action, Event, Keycode, Modifiers, NoKeycode, Side};
pub use mouse::{Identity, Mouse, MouseCommand, Packet, Resolution, SamplingRate};
pub use preferences::{Fields, Preferences};
pub use refusal::{Counted, Counts, Done, Exchange, Outcome, Port, Refusal, Refused};
pub use report::{LongReport, Mean, Report, REPORT_KEYS};
pub use step::{Handling, IdentitySet, Request, Session, Steps, STEP_WORDS};

/// The examples of docs/USING.md are tested with those here.
#[cfg(doctest)]
#[doc = include_str!("../../../docs/USING.md")]
struct Using;
