//! The proved calls in an archive that bench/run makes of libinterface.a: the same code, but the function that checks whether
//! a store is well formed says yes at once. So what a call does besides its check is timed by itself.

use crate::archive::{Numbers, Reply, Slices};

#[link(name = "unchecked", kind = "static")]
unsafe extern "C" {}

every_call!("unchecked_");
