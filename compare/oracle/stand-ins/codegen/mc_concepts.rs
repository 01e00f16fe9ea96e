//! Stands in for the source's src/codegen/mc_concepts.rs: the names that src/codegen/mod.rs uses for
//! its command line. Nothing that is compared reads them.

pub const EXACT_DEFAULT_MAX_STATES: usize = 1_000_000;
pub const EXACT_DEFAULT_TIMEOUT_SEC: u64 = 0;
pub const EXACT_DEFAULT_THREADS: usize = 1;
pub const SMT_DEFAULT_BOUND: usize = 10;
pub const COUNTEREXAMPLE_FORMAT_ERROR: &str = "unknown counterexample format";

#[derive(Debug, Clone, Copy, PartialEq, Eq)]
pub enum CounterexampleFormat {
    Text,
    Json,
}

impl CounterexampleFormat {
    pub fn parse(word: &str) -> Option<Self> {
        match word {
            "text" => Some(Self::Text),
            "json" => Some(Self::Json),
            _ => None,
        }
    }
}
