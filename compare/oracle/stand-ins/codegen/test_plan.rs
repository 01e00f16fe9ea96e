//! Stands in for the source's src/codegen/test_plan.rs; nothing that is compared uses it.
