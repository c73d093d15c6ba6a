//! Those who answer calls: the Rust, the port, and the mirror. One more is one more `Answerer`: named in `by_name`, and in the
//! comparison where the others are.

use crate::answer::Answer;
use crate::call::Call;
use crate::mirror::Mirror;
use crate::oracle::Oracle;
use crate::port::Port;

/// Who answers calls.
pub trait Answerer {
    fn name(&self) -> &'static str;

    /// The answer to a call, or why there is none.
    fn ask(&mut self, call: &Call) -> Result<Answer, String>;

    /// Whether an answer of its own is the Rust's, as far as it can tell that.
    fn is_alike(&self, own: &Answer, rust: &Answer) -> bool {
        own == rust
    }
}

impl Answerer for Oracle {
    fn name(&self) -> &'static str {
        "the Rust"
    }

    fn ask(&mut self, call: &Call) -> Result<Answer, String> {
        match call.op.beyond_rust() {
            Some(why) => Err(why.to_string()),
            None => Ok(self.answer(call)),
        }
    }
}

/// Who answers lines: the port, with `--rust` the Rust, or with `--mirror` the mirror.
pub fn by_name(name: Option<&str>) -> Option<Box<dyn Answerer>> {
    match name {
        None => Some(Box::new(Port::new(0))),
        Some("--rust") => Some(Box::new(Oracle::new())),
        Some("--mirror") => Some(Box::new(Mirror::new(0))),
        Some(_) => None,
    }
}
