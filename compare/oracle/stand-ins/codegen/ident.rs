//! Stands in for the source's src/codegen/ident.rs; nothing that is compared uses it.
