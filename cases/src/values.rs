//! Values of the crates from those of Rust's own library.

use jh_name::Name;
use rattle_std::alloc::Global;

/// The name of a text and a turn.
pub fn name(text: &str, turn: u32) -> Name {
    jh_name::name(Global, text, turn).expect("memory")
}
