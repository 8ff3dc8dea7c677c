// SPDX-License-Identifier: BSD-2-Clause OR GPL-2.0-or-later
//! A value that is worked out when it is first asked for, as the standard
//! library's OnceCell is, which Debian's compiler does not have yet.

use std::cell::UnsafeCell;

pub struct Once<T>(UnsafeCell<Option<T>>);

impl<T> Once<T> {
    pub fn new() -> Once<T> {
        Once(UnsafeCell::new(None))
    }

    pub fn get_or_init(&self, make: impl FnOnce() -> T) -> &T {
        // SAFETY: the cell is written below alone, and only while it is empty,
        // so nothing that was handed out changes. It is for one thread.
        if let Some(value) = unsafe { &*self.0.get() } {
            return value;
        }
        let value = make();
        // SAFETY: nothing is borrowed from an empty cell; `make` may have
        // filled it, and then what it put there stays.
        unsafe { (*self.0.get()).get_or_insert(value) }
    }
}
