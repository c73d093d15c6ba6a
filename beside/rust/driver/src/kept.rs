//! A call with the bytes that it threw away, `show=kept`, and its answer. The Rust hands back no such bytes, but what it read tells them.

use crate::answer::Answer;
use crate::call::{Call, Hex, KeyboardOp, MouseOp, Op};
use std::fmt;

/// The most bytes that are handed back.
const KEPT_LIMIT: usize = 16;

#[derive(Clone, Debug, PartialEq)]
pub struct Kept {
    /// What the call answers beside them.
    pub answer: Box<Answer>,
    pub bytes: Vec<u8>,
    pub others: usize,
}

/// Whether a call of an operation hands back bytes: receiving, one command, or the lamp exchange.
pub fn keeps(op: &Op) -> bool {
    use KeyboardOp as K;
    use MouseOp as M;
    matches!(
        op,
        Op::PollingReceive
            | Op::Keyboard(K::Command(_) | K::DataSet(_) | K::DataLed(_) | K::SetLed(_))
            | Op::Mouse(M::Command(_) | M::DataRate(_) | M::DataResolution(_), _)
    )
}

/// The call with its bytes shown, where it hands back some and is made once.
pub fn shown(mut call: Call) -> Call {
    if call.repeat == 1 && keeps(&call.op) {
        call.op = Op::Kept(Box::new(call.op));
    }
    call
}

/// The earliest of the bytes that were thrown away, and the number of the others.
pub fn keeping(mut thrown: Vec<u8>) -> (Vec<u8>, usize) {
    let others = thrown.len().saturating_sub(KEPT_LIMIT);
    thrown.truncate(KEPT_LIMIT);
    (thrown, others)
}

impl fmt::Display for Kept {
    fn fmt(&self, f: &mut fmt::Formatter) -> fmt::Result {
        write!(f, "{} kept={} others={}", self.answer, Hex(&self.bytes), self.others)
    }
}
