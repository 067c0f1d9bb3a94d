//! Mapping: a range of pages is entered whole, or refused and nothing has changed.

use ronakvesh::{PhysicalAddress, Refusal, Store, VirtualAddress};

/// Maps a range of a root to frames from 0x8000_0000 on, and prints what came of it.
fn map(store: &mut Store, root: u64, va: u64, size: u64) {
    let before = (store.words.to_vec(), store.tmarks.to_vec());
    match store.map(root, VirtualAddress(va), PhysicalAddress(0x8000_0000), size, 22) {
        Ok(taken) => println!("{size} bytes at {va:#x}: {taken} tables taken"),
        Err(refusal) => {
            let same = before == (store.words.to_vec(), store.tmarks.to_vec());
            println!("{size} bytes at {va:#x}: no {}, {refusal}; as before: {same}", refusal.number());
        }
    }
}

fn main() -> Result<(), Refusal> {
    let (mut words, mut tmarks) = ([0; 512 * 8], [0; 8]);
    let (mut bytes, mut fmarks) = ([0; 4096 * 8], [0; 8]);
    let mut store = Store { words: &mut words, tmarks: &mut tmarks, bytes: &mut bytes, fmarks: &mut fmarks };
    store.set_up()?;
    let root = store.uvmcreate()?;
    map(&mut store, root, 0x1000, 4096);
    map(&mut store, root, 0xfff, 2);
    map(&mut store, root, 0x2000, 4096);
    map(&mut store, root, 0x3fff_f000, 8192);
    map(&mut store, root, 1 << 31, 1 << 31);
    map(&mut store, root, 1 << 38, 1);
    Ok(())
}
