//! What the files of tests share.

use jh_name::Row;
use rattle_std::alloc::Global;
use std::panic::resume_unwind;
use std::thread::{scope, Builder};

pub mod files;
pub mod queries;
pub mod random;
pub mod source;
pub mod text;
pub mod values;
pub mod words;

/// Runs what needs more stack than a test has: calls on large programs, on the 8 MB that a host gives a program.
pub fn with_large_stack(run: impl FnOnce() + Send) {
    scope(|threads| {
        let running = Builder::new()
            .stack_size(8 << 20)
            .spawn_scoped(threads, run);
        running
            .expect("a thread")
            .join()
            .unwrap_or_else(|fault| resume_unwind(fault));
    });
}

/// The row of some items.
pub fn row<T>(items: impl IntoIterator<Item = T>) -> Row<T> {
    let mut made = rattle_std::vec::Vec::new(Global);
    for item in items {
        made.push(item).expect("memory");
    }
    Row::of(made)
}
