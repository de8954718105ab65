// Stand-ins for modules that the log encoding never enters: only their names are needed.

pub mod config {
    use crate::sat::{GraphDivisionMode, OrderEncodingLinearMode};

    pub struct Config {
        pub domain_product_threshold: usize,
        pub native_linear_encoding_terms: usize,
        pub native_linear_encoding_domain_product_threshold: usize,
        pub order_encoding_linear_mode: OrderEncodingLinearMode,
        pub graph_division_mode: GraphDivisionMode,
        pub use_direct_encoding: bool,
        pub direct_encoding_for_binary_vars: bool,
        pub use_log_encoding: bool,
        pub force_use_log_encoding: bool,
    }

    impl Config {
        pub fn new() -> Config {
            Config {
                domain_product_threshold: 0,
                native_linear_encoding_terms: 0,
                native_linear_encoding_domain_product_threshold: 0,
                order_encoding_linear_mode: OrderEncodingLinearMode::Cpp,
                graph_division_mode: GraphDivisionMode::Cpp,
                use_direct_encoding: false,
                direct_encoding_for_binary_vars: false,
                use_log_encoding: true,
                force_use_log_encoding: true,
            }
        }
    }
}

pub mod custom_constraints {
    pub trait PropagatorGenerator {}
}

pub mod propagators {
    pub mod graph_division {
        pub struct GraphDivisionOptions;
    }
}
