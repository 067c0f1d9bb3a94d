// `trap`: the Rust imports the name and does not use it.

pub fn kernel_trap() {}
