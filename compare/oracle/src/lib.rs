//! ds-decomp's analysis, its text unchanged, among stand-ins for the modules that are not at hand.
#![allow(dead_code, unused_imports, clippy::all)]

pub mod analysis {
    pub mod function_branch {
        include!(concat!(env!("ANALYSIS"), "/function_branch.rs"));
    }

    pub mod illegal_code {
        include!(concat!(env!("ANALYSIS"), "/illegal_code.rs"));
    }

    pub mod inline_table {
        include!(concat!(env!("ANALYSIS"), "/inline_table.rs"));
    }

    pub mod jump_table {
        include!(concat!(env!("ANALYSIS"), "/jump_table.rs"));
    }

    pub mod functions {
        include!(concat!(env!("ANALYSIS"), "/functions.rs"));

        // What that file names and does not define.
        mod missing;
        pub use missing::{CalledFunction, FunctionSearchOptions, PoolConstant, PoolConstantUsage, instruction_size};

        // A child, since the walk's context is private.
        pub mod walk;
    }

    mod function_start;
    mod secure_area;
}

pub mod config;
pub mod util;
