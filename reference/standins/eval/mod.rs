//! Evaluation: the original statements, and stand-ins for the rest.

mod caches;
mod data_check;
mod eval_context;
mod expr;
mod global_state;
mod stmt;
mod target;

pub use caches::Caches;
pub use eval_context::EvalContext;
pub use global_state::GlobalRuntimeState;
pub use target::Target;

/// Stand-in for a range of a `switch`. Never made: `switch` is left out.
#[derive(Clone, Debug, Hash)]
pub enum RangeCase {}

impl RangeCase {
    pub fn index(&self) -> usize {
        match *self {}
    }
    pub fn contains(&self, _: &crate::Dynamic) -> bool {
        match *self {}
    }
}
