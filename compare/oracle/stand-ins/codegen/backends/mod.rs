//! Stands in for the source's code generators, which src/codegen/mod.rs registers. None is ever called.

use crate::codegen::{Backend, BackendOptions, CodegenOutput};
use crate::lang::ir::Module;

fn absent(_: &Module, _: &BackendOptions) -> Result<CodegenOutput, Vec<String>> {
    Err(vec!["not here".to_string()])
}

const ABSENT: Backend = Backend {
    name: "absent",
    description: "not here",
    commands: &[],
    generate_production: absent,
    generate_unit_tests: absent,
    generate_model_checker: absent,
};

pub mod c {
    pub static C_BACKEND: crate::codegen::Backend = super::ABSENT;
}

pub mod rust {
    pub static RUST_BACKEND: crate::codegen::Backend = super::ABSENT;
}
