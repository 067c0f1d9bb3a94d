//! Bytes from a process to the kernel: all that the buffer has room for, over page ends, or none of them.

use ronakvesh::{Refusal, Store, VirtualAddress};

/// Copies bytes from an address on, and prints the buffer.
fn copy_in(store: &Store, va: u64, length: usize) {
    let mut buffer = vec![b'.'; length];
    match store.copy_in(0, VirtualAddress(va), &mut buffer) {
        Ok(()) => println!("{length} bytes from {va:#x} on: {:?}", String::from_utf8_lossy(&buffer)),
        Err(refusal) => {
            let same = buffer == vec![b'.'; length];
            println!("{length} bytes from {va:#x} on: no {}, {refusal}; as before: {same}", refusal.number());
        }
    }
}

fn main() -> Result<(), Refusal> {
    let (mut words, mut tmarks) = ([0; 512 * 3], [0; 3]);
    let (mut bytes, mut fmarks) = ([0; 4096 * 4], [0; 4]);
    let mut store = Store { words: &mut words, tmarks: &mut tmarks, bytes: &mut bytes, fmarks: &mut fmarks };
    store.set_up()?;
    store.uvmcreate()?;

    // page 1 gets frame 0 and page 0 frame 1
    store.uvm_alloc(0, 4096, 8192)?;
    store.uvm_init(0, &[])?;
    store.copy_out(0, VirtualAddress(4090), b"one text in two pages")?;
    println!("frame 0: {:?}", String::from_utf8_lossy(&store.bytes[..15]));
    copy_in(&store, 4090, 21);
    copy_in(&store, 4090, 6);
    copy_in(&store, 4096, 15);
    copy_in(&store, 8191, 0);
    copy_in(&store, 8191, 2);
    copy_in(&store, 8192, 0);
    copy_in(&store, (1 << 38) - 1, 2);
    store.uvm_clear(0, VirtualAddress(4096))?;
    copy_in(&store, 4090, 7);
    Ok(())
}
