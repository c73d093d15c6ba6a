//! Stand-in for `once_cell::unsync::Lazy`: the value is made at its first use.
#![no_std]

pub mod unsync {
    use core::cell::OnceCell;
    use core::ops::{Deref, DerefMut};

    pub struct Lazy<T> {
        value: OnceCell<T>,
        make: fn() -> T,
    }

    impl<T> Lazy<T> {
        pub const fn new(make: fn() -> T) -> Self {
            Lazy { value: OnceCell::new(), make }
        }
    }

    impl<T> Deref for Lazy<T> {
        type Target = T;
        fn deref(&self) -> &T {
            self.value.get_or_init(self.make)
        }
    }

    impl<T> DerefMut for Lazy<T> {
        fn deref_mut(&mut self) -> &mut T {
            self.value.get_or_init(self.make);
            self.value.get_mut().unwrap()
        }
    }
}
