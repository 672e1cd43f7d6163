//! The proved scalar graph for Rust, with the names and shapes of `Graph` in VMLabDev/vmlab-hypervisor.
//!
//! Every call is one call of the proved library (`crates/export` of this repository), on regions that [`Graph`] owns.
//! What is proved of the library's calls (docs/CALLS.md, docs/PROOF.md) is not proved of this crate, which is tested: by
//! its own examples, by the differential driver, and by the original's linear.rs compiled against it.
//!
//! A call needs at most some 448 KB of stack: less than 445 bytes for each of its 1,024 units, and the call's own frames
//! (measured, not proved; README.md).
//!
//! What is not as in the original:
//! - A graph holds 512 nodes, and a call may enter the builders 1,024 times.
//! - A call that the original has no answer for is refused, and the graph is as it was: [`Refusal`]. Methods with the
//!   original's shape panic with the refusal's words, their twins `try_..` answer it.
//! - `graph.scalars` is read and cannot be changed.
//! - A [`Graph`] has marks: [`Graph::mark`] remembers it, [`Graph::return_to`] makes it what it was.
//! - [`Graph::assume_guards`] takes a list of guards, or none of them.
//! - `guard` and `Guard`, which stand in the original's module `linear`, stand here and in [`linear`].
mod answer;
mod evaluate;
mod graph;
mod library;
mod refusal;
mod text;
mod types;

pub use evaluate::{
    Guard, evaluate_binary, evaluate_unary, guard, mask, try_evaluate_binary, try_evaluate_unary,
    try_guard, try_mask,
};
pub use graph::{Graph, Nodes};
pub use refusal::Refusal;
pub use text::Picture;
pub use types::{Binary, InputId, Operation, Range, Scalar, ScalarId, ScalarType, Unary};

/// The two names of the original's module that this crate has.
pub mod linear {
    pub use crate::{Guard, guard};
}
