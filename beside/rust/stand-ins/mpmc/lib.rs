//! Stand-in for `mpmc::Queue`: first in, first out, and a push onto a full queue gives the value back.
//! The number of places is document 01's: 128. (In Theseus the caller brings the queue.)

use std::cell::RefCell;
use std::collections::VecDeque;
use std::rc::Rc;

pub const PLACES: usize = 128;

pub struct Queue<T>(Rc<RefCell<VecDeque<T>>>);

impl<T> Clone for Queue<T> {
    fn clone(&self) -> Self {
        Queue(self.0.clone())
    }
}

impl<T> Queue<T> {
    pub fn new() -> Self {
        Queue(Rc::new(RefCell::new(VecDeque::with_capacity(PLACES))))
    }

    pub fn push(&self, value: T) -> Result<(), T> {
        let mut queue = self.0.borrow_mut();
        if queue.len() == PLACES {
            return Err(value);
        }
        queue.push_back(value);
        Ok(())
    }

    pub fn pop(&self) -> Option<T> {
        self.0.borrow_mut().pop_front()
    }

    /// Ours: no event waits.
    pub fn clear(&self) {
        self.0.borrow_mut().clear();
    }

    /// Ours: what waits, oldest first.
    pub fn for_each(&self, f: impl FnMut(&T)) {
        self.0.borrow().iter().for_each(f);
    }
}
