// The Rust's encoder as it is; the driver is its child so that it sees the private items.

include!("source_mod.rs");

pub mod driver;
mod inner;
mod job;
