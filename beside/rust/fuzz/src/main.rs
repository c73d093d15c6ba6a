//! One line, answered by the port, by the mirror and by the Rust or plain Rust, for libFuzzer (`beside/fuzz`): where they differ it stops.
#![no_main]

use beside::exports::agree;
use beside::mirror::Mirror;
use beside::oracle::Oracle;
use beside::port::Port;
use beside::call::{self, Call, Op};
use beside::dispatch::Move;
use std::cell::RefCell;

thread_local! {
    /// The sides, which are made once: the Rust's records are statics.
    static SIDES: RefCell<(Port, Mirror, Oracle)> =
        RefCell::new((Port::new(0), Mirror::new(0), Oracle::new()));
}

/// Whether a call is so short that many more can be made.
fn is_short(call: &Call) -> bool {
    const MOST: usize = 300_000;
    let more = match &call.op {
        Op::Season(season) => season.sessions.iter().map(|one| one.events.len() + one.mouse.len()).sum(),
        Op::Dispatch(told) => {
            let steps = told.moves.iter().map(|one| if let Move::Steps(count) = one { *count as usize } else { 1 });
            told.script3.len() + 100 * steps.sum::<usize>()
        }
        Op::Salvage(salvage) => salvage.places,
        _ => 0,
    };
    let scripts = call.script.len() + call.script2.as_ref().map_or(0, Vec::len);
    scripts + more + call.room <= MOST && call.repeat <= 2
}

#[no_mangle]
extern "C" fn LLVMFuzzerTestOneInput(bytes: *const u8, length: usize) -> i32 {
    // libFuzzer lends so many bytes; of none the pointer may be null.
    let bytes = if length == 0 { &[] } else { unsafe { std::slice::from_raw_parts(bytes, length) } };
    let Ok(line) = std::str::from_utf8(bytes) else { return -1 };
    if line.contains(['\n', '\r']) || call::is_skipped(line) {
        return -1;
    }
    let Ok(call) = call::parse(line) else { return 0 };
    if !is_short(&call) {
        return 0;
    }
    SIDES.with_borrow_mut(|(port, mirror, rust)| {
        if let Err(why) = agree(port, mirror, rust, &call) {
            eprintln!("{line}\n{why}");
            std::process::abort();
        }
    });
    0
}
