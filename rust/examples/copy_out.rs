//! Bytes from the kernel to a process: all of them, over page ends, or none.

use ronakvesh::{PhysicalAddress, Refusal, Store, VirtualAddress};

/// Copies a source to the addresses from one on, and prints what came of it.
fn copy_out(store: &mut Store, va: u64, src: &[u8]) {
    let before = store.bytes.to_vec();
    match store.copy_out(0, VirtualAddress(va), src) {
        Ok(()) => println!("{} bytes to {va:#x} on: copied", src.len()),
        Err(refusal) => {
            let same = store.bytes == before;
            println!("{} bytes to {va:#x} on: no {}, {refusal}; as before: {same}", src.len(), refusal.number());
        }
    }
}

fn main() -> Result<(), Refusal> {
    let (mut words, mut tmarks) = ([0; 512 * 3], [0; 3]);
    let (mut bytes, mut fmarks) = ([0; 4096 * 4], [0; 4]);
    let mut store = Store { words: &mut words, tmarks: &mut tmarks, bytes: &mut bytes, fmarks: &mut fmarks };
    store.set_up()?;
    store.uvmcreate()?;

    // page 1 gets frame 0, page 0 frame 1, and page 2 a frame outside the pool
    store.uvm_alloc(0, 4096, 8192)?;
    store.uvm_init(0, &[])?;
    store.map(0, VirtualAddress(8192), PhysicalAddress(0x8000_0000), 4096, 22)?;
    copy_out(&mut store, 4093, &[1, 2, 3, 4, 5]);
    println!("frame 1 ends {:?}, frame 0 begins {:?}", &store.bytes[8188..8192], &store.bytes[..4]);
    copy_out(&mut store, 4092, &[9; 4]);
    println!("frame 1 ends {:?}, frame 0 begins {:?}", &store.bytes[8188..8192], &store.bytes[..4]);
    copy_out(&mut store, 8191, &[7]);
    copy_out(&mut store, 8191, &[7, 8]);
    copy_out(&mut store, 12287, &[]);
    copy_out(&mut store, 12288, &[]);
    copy_out(&mut store, 1 << 38, &[]);
    println!("well formed: {}", store.check()?);
    Ok(())
}
