// The Rust's log encoding as it is; a child module reaches the two adders.

include!("source_log.rs");

#[path = "adders.rs"]
pub(super) mod adders;
