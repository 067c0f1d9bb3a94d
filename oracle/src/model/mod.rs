//! The store of document 01, its rules W1 to W5 and its calls, as plain as that document reads.
//! Written from the document alone, so that the proved code has something to be compared with.

pub mod bytes;
pub mod calls;
pub mod entries;
pub mod judge;
pub mod lengths;
pub mod levels;
pub mod numbers;
pub mod pages;
pub mod pool;
pub mod reached;
pub mod rules;
pub mod store;
pub mod walk;

pub use rules::well_formed;
pub use store::Store;
