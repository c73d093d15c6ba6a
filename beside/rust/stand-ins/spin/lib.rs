//! Stand-in for `spin`: there is one thread, so a lock is always free. `Once` can be reset.
#![no_std]

use core::cell::UnsafeCell;
use core::ops::{Deref, DerefMut};

pub struct Mutex<T>(UnsafeCell<T>);

// One thread runs the Rust.
unsafe impl<T> Sync for Mutex<T> {}

pub struct MutexGuard<'a, T>(&'a mut T);

impl<T> Mutex<T> {
    pub const fn new(value: T) -> Self {
        Mutex(UnsafeCell::new(value))
    }

    pub fn lock(&self) -> MutexGuard<'_, T> {
        MutexGuard(unsafe { &mut *self.0.get() })
    }
}

impl<T> Deref for MutexGuard<'_, T> {
    type Target = T;
    fn deref(&self) -> &T {
        self.0
    }
}

impl<T> DerefMut for MutexGuard<'_, T> {
    fn deref_mut(&mut self) -> &mut T {
        self.0
    }
}

pub struct Once<T>(UnsafeCell<Option<T>>);

unsafe impl<T> Sync for Once<T> {}

impl<T> Once<T> {
    pub const fn new() -> Self {
        Once(UnsafeCell::new(None))
    }

    pub fn get(&self) -> Option<&T> {
        unsafe { (*self.0.get()).as_ref() }
    }

    pub fn is_completed(&self) -> bool {
        self.get().is_some()
    }

    pub fn call_once<F: FnOnce() -> T>(&self, f: F) -> &T {
        if !self.is_completed() {
            let value = f();
            unsafe { *self.0.get() = Some(value) };
        }
        self.get().unwrap()
    }

    /// Ours: as if `call_once` had never been called. No reference from `get` may be in use.
    pub fn reset(&self) {
        unsafe { *self.0.get() = None };
    }
}
