//! What the programs of cases use of `anyhow`: for builds without proofs.

/// The answer of what may fail by any error.
pub type Result<T> = std::result::Result<T, Box<dyn std::error::Error>>;
