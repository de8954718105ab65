// Crate root of the driver: the Rust's modules, the recorder as `sat`, stubs for what is missing.

mod arithmetic;
mod domain;
mod encoder;
mod norm_csp;
mod sat;
mod stubs;
mod util;

use stubs::{config, custom_constraints, propagators};

fn main() {
    encoder::driver::run();
}
