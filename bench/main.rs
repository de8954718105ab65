// Crate root of the benchmark: the Rust's modules as the judge has them, the columns, the job files and the figures.

mod arithmetic;
mod domain;
mod encoder;
mod norm_csp;
mod sat;
mod stubs;
mod util;

use stubs::{config, custom_constraints, propagators};

fn main() {
    encoder::columns::run();
    encoder::jobs::run();
    encoder::figures::run();
}
