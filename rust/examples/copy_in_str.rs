//! A string from a process to the kernel: up to its zero, or to the end of the buffer, and no page behind that is looked at.

use ronakvesh::{Refusal, Store, VirtualAddress};

/// Copies a string from an address on, and prints the answer and the buffer.
fn copy_in_str(store: &Store, va: u64, room: usize) {
    let mut buffer = vec![b'.'; room];
    match store.copy_in_str(0, VirtualAddress(va), &mut buffer) {
        Ok((copied, met)) => {
            println!("{va:#x}, {room}: {copied} bytes, a zero: {met}, {:?}", String::from_utf8_lossy(&buffer));
        }
        Err(refusal) => println!("{va:#x}, {room}: no {}, {refusal}", refusal.number()),
    }
}

fn main() -> Result<(), Refusal> {
    let (mut words, mut tmarks) = ([0; 512 * 3], [0; 3]);
    let (mut bytes, mut fmarks) = ([0; 4096 * 4], [0; 4]);
    let mut store = Store { words: &mut words, tmarks: &mut tmarks, bytes: &mut bytes, fmarks: &mut fmarks };
    store.set_up()?;
    store.uvmcreate()?;

    // page 1 gets frame 0 and page 0 frame 1
    store.uvm_alloc(0, 4096, 8192)?;
    store.uvm_init(0, &[])?;
    store.copy_out(0, VirtualAddress(4092), b"/bin/sh\0/etc")?;
    copy_in_str(&store, 4092, 12);
    copy_in_str(&store, 4092, 8);
    copy_in_str(&store, 4092, 7);
    copy_in_str(&store, 4092, 4);
    copy_in_str(&store, 4099, 4);
    copy_in_str(&store, 4099, 0);

    // the last string of page 1: without its zero, page 2 is on the way
    store.copy_out(0, VirtualAddress(8189), b"sh\0")?;
    copy_in_str(&store, 8189, 6);
    store.copy_out(0, VirtualAddress(8191), b"!")?;
    copy_in_str(&store, 8189, 3);
    copy_in_str(&store, 8189, 6);
    copy_in_str(&store, 8192, 0);
    Ok(())
}
