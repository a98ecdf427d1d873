// Written by bindings/erase from crates/vm_ranges/src/lib.rt: do not edit.

//! Ranges of addresses, alignment, requests, errors, states of blocks, and the saved values of
//! ranges and states.

mod alignment;
mod constraint;
mod error;
mod range;
mod saved;
mod state;

pub use alignment::{align_down, align_up};
pub use constraint::{AllocPolicy, Constraint, DEFAULT_CONSTRAINT_ALIGN, SPLIT_LIMIT};
pub use error::{Error, ListError, Result};
pub use range::RangeInclusive;
pub use saved::{Condition, SavedError, ValueError};
pub use state::NodeState;
