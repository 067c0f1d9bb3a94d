// `memory::kalloc`: the Rust imports the heap and does not use it; pages come from the shim `boxed`.

pub static KERNEL_HEAP: () = ();
