//! Stand-in for `event_types`: only a keyboard event is ever made.
#![no_std]

use keycodes_ascii::KeyEvent;

#[derive(Clone, Copy, Debug)]
pub struct Event(pub KeyEvent);

impl Event {
    pub fn new_keyboard_event(event: KeyEvent) -> Event {
        Event(event)
    }
}
