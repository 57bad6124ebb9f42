//! The package comfy_table_proved under the name of the original crate, for `[patch.crates-io]`.
pub use comfy_table_proved::*;
