//! Compares the proved check, and the proved set-up, with the model.

pub mod changes;
pub mod editor;
pub mod fresh;
pub mod grow;
pub mod lengths;
pub mod places;
pub mod proved;
pub mod report;
pub mod samples;
pub mod stores;
pub mod tally;
pub mod trial;
