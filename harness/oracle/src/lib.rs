//! The oracle: enforce_distribution.rs (000), utils.rs (001) and output_requirements.rs (002) as they are, compiled over stand-ins that
//! carry a sheet's facts. An accepted sheet goes in, the answer of document 01 comes out. The decisions are the files' own; reading the
//! sheet and labelling the result are the harness's.

// The files hold plans in `Arc`; here they stay in one thread.
#![allow(clippy::arc_with_non_send_sync)]

// The names under which the files import the stand-ins.
extern crate standins as arrow;
extern crate standins as datafusion_common;
extern crate standins as datafusion_execution;
extern crate standins as datafusion_expr;
extern crate standins as datafusion_physical_expr;
extern crate standins as datafusion_physical_expr_common;
extern crate standins as datafusion_physical_plan;
extern crate standins as itertools;

#[cfg(files)]
include!(concat!(env!("OUT_DIR"), "/files.rs"));

#[cfg(files)]
mod build;
#[cfg(files)]
mod exchanges;
#[cfg(files)]
mod inputs;
#[cfg(files)]
mod keys;
#[cfg(files)]
mod label;
#[cfg(files)]
mod sheet;

/// What 002 imports from its own crate.
#[cfg(files)]
pub trait PhysicalOptimizerRule {
    fn optimize(
        &self,
        plan: std::sync::Arc<dyn standins::ExecutionPlan>,
        config: &standins::config::ConfigOptions,
    ) -> standins::Result<std::sync::Arc<dyn standins::ExecutionPlan>>;
    fn name(&self) -> &str;
    fn schema_check(&self) -> bool;
}

/// How often each block was come by, in a copy of the files that has probes: see harness/coverage.py.
pub mod coverage {
    use std::sync::atomic::{AtomicU64, Ordering};

    static SEEN: [AtomicU64; 6000] = [const { AtomicU64::new(0) }; 6000];

    pub fn seen(block: usize) {
        SEEN[block].fetch_add(1, Ordering::Relaxed);
    }

    /// Blocks that were come by, with how often.
    pub fn blocks() -> impl Iterator<Item = (usize, u64)> {
        let counts = SEEN.iter().map(|count| count.load(Ordering::Relaxed));
        counts.enumerate().filter(|(_, count)| *count > 0)
    }
}

/// Whether the three files were at hand when this was built.
pub const AVAILABLE: bool = cfg!(files);

/// The file 000, and the copy of it that is compiled.
pub const DISTRIBUTION: &str = env!("DISTRIBUTION");
pub const COMPILED_DISTRIBUTION: &str = concat!(env!("OUT_DIR"), "/enforce_distribution.rs");

/// Whether this is the answer to an accepted sheet: a decision, or refusal 9, 10 or 11.
pub fn is_accepted(answer: &[u8]) -> bool {
    let refusals = [&b"e,9,0\n"[..], b"e,10,0\n", b"e,11,0\n"];
    answer[0] != b'e' || refusals.contains(&answer)
}

/// The answer to an accepted sheet, or `e,number,0` for refusals 9, 10 and 11.
#[cfg(files)]
pub fn decide(text: &[u8]) -> Vec<u8> {
    let sheet = sheet::Sheet::read(text);
    let answer = match text[0] {
        b'K' => keys::decide(&sheet),
        b'I' => inputs::decide(&sheet),
        _ => exchanges::decide(&sheet),
    };
    let answer = answer.unwrap_or_else(|number| format!("e,{number},0\n"));
    answer.into_bytes()
}

/// The forms that each child of the worked node of an accepted D sheet passes through.
#[cfg(files)]
pub fn forms(text: &[u8]) -> Vec<Vec<usize>> {
    exchanges::forms(&sheet::Sheet::read(text))
}

#[cfg(not(files))]
pub fn forms(_: &[u8]) -> Vec<Vec<usize>> {
    vec![]
}

#[cfg(not(files))]
pub fn decide(_: &[u8]) -> Vec<u8> {
    panic!("the three files were not at hand: see AVAILABLE")
}
