//! The calls that are compared, each with its numbers, its three sides and where the Rust is not followed. A call is added
//! here; archive.rs declares ours, original.rs has the Rust's and no_original.rs its name.

use crate::answer::{Answer, Build};
use crate::archive::{self, Numbers, Reply, Slices, NO_NUMBERS};
use crate::call::directed::chosen::Chosen;
use crate::call::directed::numbers;
use crate::call::inputs::{self, Inputs};
use crate::call::listed;
use crate::call::{copies, map, original, release};
use crate::call::{uvm_alloc, uvm_clear, uvm_copy, uvm_dealloc, uvm_init, uvm_unmap, uvmcreate};
use crate::listed::Listed;
use crate::model::calls;
use crate::model::numbers::ROOT;
use crate::model::Store;
use crate::random::Random;

/// What a call may write to, beside its buffer.
#[derive(Clone, Copy, PartialEq, Eq)]
pub enum Writes {
    Nothing,
    /// Words and table marks.
    Tables,
    /// Words and both kinds of marks.
    Marks,
    /// Words, bytes and both kinds of marks.
    Frames,
}

/// What is made of a well-formed store before the calls on it.
#[derive(Clone, Copy, PartialEq, Eq)]
pub enum On {
    /// Nothing.
    Grown,
    /// It is given pages with bytes in them.
    Peopled,
    /// Its roots are made those of processes.
    Processes,
}

/// What is listed for a call on a store, with its numbers and what the model says.
pub type Rule = fn(Build, &Store, Numbers, Result<u64, u64>) -> Option<Listed>;

/// A call on a store.
pub struct Call {
    pub name: &'static str,
    /// How many numbers it has.
    pub numbers: usize,
    /// How often it is made where others are made once.
    pub times: u64,
    /// In how many calls or fewer there is one for which the Rust may be run.
    pub for_one_run: u64,
    /// Whether its random choices come from a copy of the stream, so that those for other calls and later stores do not
    /// depend on it.
    pub apart: bool,
    /// What is made of a well-formed store first.
    pub on: On,
    pub writes: Writes,
    /// Numbers to make it with.
    pub any: fn(&Inputs, &mut Random) -> Numbers,
    /// The numbers to make it with on a chosen store.
    pub crossed: fn(&Chosen) -> Vec<Numbers>,
    /// Gives the tables of a well-formed store other marks before each call, so that it stays well formed.
    pub vary: Option<fn(&mut Store, &mut Random)>,
    /// Makes the kernel's buffer, where the call is lent one; its length is one of the numbers.
    pub buffer: Option<fn(Numbers, &mut Random) -> Vec<u8>>,
    pub ours: unsafe fn(Slices, Numbers) -> Reply,
    pub model: fn(&mut Store, Numbers, &mut [u8]) -> Result<u64, u64>,
    /// Whether the Rust may be run on a well-formed store: elsewhere it would touch memory that is not its own.
    pub may_run: fn(&Store, Numbers) -> bool,
    pub rust: fn(Numbers, &mut [u8]) -> Answer,
    /// The numbers of its refusals.
    pub refusals: &'static [u64],
    /// The names of what is listed, and of what is listed only where sums are checked.
    pub differences: &'static [&'static str],
    pub when_checked: &'static [&'static str],
    pub listed: Rule,
}

impl Call {
    /// The call in words, with the numbers that it has.
    pub fn with(&self, numbers: Numbers) -> String {
        let numbers: Vec<String> = numbers[..self.numbers].iter().map(|number| format!("{number:#x}")).collect();
        format!("{}({})", self.name, numbers.join(", "))
    }
}

/// What a call has that says nothing else of it: it is made once where others are, with its own random choices, on a store as
/// it grew and without a buffer, and the Rust is run each time. What every call says for itself is here that of `as_satp`.
const USUAL: Call = Call {
    name: "as_satp",
    numbers: 1,
    times: 1,
    for_one_run: 1,
    apart: true,
    on: On::Grown,
    writes: Writes::Nothing,
    any: inputs::root,
    crossed: numbers::root,
    vary: None,
    buffer: None,
    ours: archive::as_satp,
    model: |store, [root, ..], _| calls::as_satp(store, root),
    may_run: is_root,
    rust: original::as_satp,
    refusals: &[1, 2, 3],
    differences: &[],
    when_checked: &[],
    listed: listed::nothing,
};

/// Every call that is compared.
pub static CALLS: [Call; 17] = [
    Call {
        name: "pgt_translate",
        numbers: 2,
        apart: false,
        writes: Writes::Nothing,
        any: inputs::root_and_address,
        crossed: numbers::root_and_address,
        ours: archive::pgt_translate,
        model: |store, [root, va, ..], _| calls::pgt_translate(store, root, va),
        may_run: is_root,
        rust: original::pgt_translate,
        refusals: &[1, 2, 3, 6, 11, 12],
        differences: &listed::TRANSLATIONS,
        listed: listed::translation,
        ..USUAL
    },
    Call { name: "as_satp", apart: false, ..USUAL },
    Call {
        name: "uvmcreate",
        numbers: 0,
        apart: false,
        writes: Writes::Tables,
        any: |_, _| NO_NUMBERS,
        crossed: numbers::none,
        vary: Some(uvmcreate::vary),
        ours: archive::uvmcreate,
        model: |store, _, _| calls::uvmcreate(store),
        may_run: |_, _| true,
        rust: original::uvmcreate,
        refusals: &[1, 2, 17],
        differences: &[uvmcreate::NONE_FREE],
        listed: uvmcreate::creation,
        ..USUAL
    },
    Call {
        name: "map",
        numbers: 5,
        times: 2,
        apart: false,
        writes: Writes::Tables,
        any: map::inputs::any,
        crossed: numbers::map,
        ours: archive::map,
        model: |store, [root, va, pa, size, permissions], _| calls::map(store, root, va, pa, size, permissions),
        may_run: is_root,
        rust: original::map,
        refusals: &[1, 2, 3, 6, 8, 9, 10, 14, 17],
        differences: &map::listed::DIFFERENCES,
        when_checked: &[map::listed::EARLY],
        listed: map::listed::mapping,
        ..USUAL
    },
    Call {
        name: "uvm_unmap",
        numbers: 4,
        apart: false,
        writes: Writes::Frames,
        any: uvm_unmap::inputs::any,
        crossed: numbers::unmap,
        ours: archive::uvm_unmap,
        model: |store, [root, va, pages, freeing, _], _| calls::uvm_unmap(store, root, va, pages, freeing != 0),
        may_run: is_root,
        rust: original::uvm_unmap,
        refusals: &[1, 2, 3, 6, 7, 10, 11, 13],
        differences: &uvm_unmap::listed::DIFFERENCES,
        listed: uvm_unmap::listed::unmapping,
        ..USUAL
    },
    Call {
        name: "uvm_clear",
        numbers: 2,
        apart: false,
        writes: Writes::Tables,
        any: inputs::root_and_address,
        crossed: numbers::root_and_address,
        ours: archive::uvm_clear,
        model: |store, [root, va, ..], _| calls::uvm_clear(store, root, va),
        may_run: is_root,
        rust: original::uvm_clear,
        refusals: &[1, 2, 3, 6, 11],
        differences: &uvm_clear::DIFFERENCES,
        listed: uvm_clear::clearing,
        ..USUAL
    },
    Call {
        name: "uvm_dealloc",
        numbers: 3,
        writes: Writes::Frames,
        any: uvm_dealloc::inputs::any,
        crossed: numbers::old_and_new,
        ours: archive::uvm_dealloc,
        model: |store, [root, old, new, ..], _| calls::uvm_dealloc(store, root, old, new),
        may_run: is_root,
        rust: original::uvm_dealloc,
        refusals: &[1, 2, 3, 6, 11, 13],
        differences: &uvm_dealloc::listed::DIFFERENCES,
        when_checked: &[uvm_dealloc::listed::EARLY],
        listed: uvm_dealloc::listed::shrinking,
        ..USUAL
    },
    Call {
        name: "uvm_init",
        numbers: 2,
        writes: Writes::Frames,
        any: uvm_init::any,
        crossed: numbers::root_and_length,
        buffer: Some(uvm_init::source),
        ours: archive::uvm_init,
        model: |store, [root, ..], src| calls::uvm_init(store, root, src),
        may_run: is_root,
        rust: original::uvm_init,
        refusals: &[1, 2, 3, 5, 14, 16, 17],
        differences: &uvm_init::DIFFERENCES,
        listed: uvm_init::loading,
        ..USUAL
    },
    Call {
        name: "uvm_alloc",
        numbers: 3,
        writes: Writes::Frames,
        any: uvm_alloc::inputs::any,
        crossed: numbers::old_and_new,
        ours: archive::uvm_alloc,
        model: |store, [root, old, new, ..], _| calls::uvm_alloc(store, root, old, new),
        may_run: is_root,
        rust: original::uvm_alloc,
        refusals: &[1, 2, 3, 6, 14, 16, 17],
        differences: &uvm_alloc::listed::DIFFERENCES,
        when_checked: &[uvm_alloc::listed::EARLY],
        listed: uvm_alloc::listed::growing,
        ..USUAL
    },
    Call {
        name: "copy_in",
        numbers: 3,
        for_one_run: 3,
        on: On::Peopled,
        writes: Writes::Nothing,
        any: copies::inputs::any,
        crossed: numbers::copy,
        buffer: Some(copies::inputs::buffer),
        ours: archive::copy_in,
        model: |store, [root, va, ..], dst| calls::copy_in(store, root, va, dst),
        may_run: copies::guard::in_one_page,
        rust: original::copy_in,
        refusals: &[1, 2, 3, 6, 11, 12, 15],
        differences: &copies::listed::IN_ONE_PAGE,
        listed: copies::listed::reading,
        ..USUAL
    },
    Call {
        name: "copy_out",
        numbers: 3,
        for_one_run: 2,
        on: On::Peopled,
        writes: Writes::Frames,
        any: copies::inputs::any,
        crossed: numbers::copy,
        buffer: Some(copies::inputs::buffer),
        ours: archive::copy_out,
        model: |store, [root, va, ..], src| calls::copy_out(store, root, va, src),
        may_run: copies::guard::of_pool_frames,
        rust: original::copy_out,
        refusals: &[1, 2, 3, 6, 11, 12, 15],
        differences: &copies::listed::OUT,
        listed: copies::listed::writing,
        ..USUAL
    },
    Call {
        name: "copy_in_str",
        numbers: 3,
        for_one_run: 3,
        on: On::Peopled,
        writes: Writes::Nothing,
        any: copies::inputs::any,
        crossed: numbers::copy,
        buffer: Some(copies::inputs::buffer),
        ours: archive::copy_in_str,
        model: |store, [root, va, ..], dst| calls::copy_in_str(store, root, va, dst),
        may_run: copies::guard::in_one_page,
        rust: original::copy_in_str,
        refusals: &[1, 2, 3, 6, 11, 12, 15],
        differences: &copies::listed::IN_ONE_PAGE,
        listed: copies::listed::reading_str,
        ..USUAL
    },
    Call {
        name: "uvm_copy",
        numbers: 3,
        for_one_run: 2,
        on: On::Peopled,
        writes: Writes::Frames,
        any: uvm_copy::inputs::any,
        crossed: numbers::two_roots,
        ours: archive::uvm_copy,
        model: |store, [parent, child, size, ..], _| calls::uvm_copy(store, parent, child, size),
        may_run: uvm_copy::listed::may_run,
        rust: original::uvm_copy,
        refusals: &[1, 2, 3, 4, 6, 7, 11, 14, 15, 16, 17],
        differences: &uvm_copy::listed::DIFFERENCES,
        listed: uvm_copy::listed::copying,
        ..USUAL
    },
    Call {
        name: "free",
        numbers: 1,
        for_one_run: 2,
        on: On::Processes,
        writes: Writes::Tables,
        any: release::inputs::root,
        crossed: numbers::root,
        ours: archive::free,
        model: |store, [root, ..], _| calls::free(store, root),
        may_run: release::rust::free_may_run,
        rust: original::free,
        refusals: &[1, 2, 3, 18],
        differences: &[release::listed::LEFT],
        listed: release::listed::freeing,
        ..USUAL
    },
    Call {
        name: "uvm_free",
        numbers: 2,
        for_one_run: 2,
        on: On::Processes,
        writes: Writes::Marks,
        any: release::inputs::of_any,
        crossed: numbers::root_and_size,
        ours: archive::uvm_free,
        model: |store, [root, size, ..], _| calls::uvm_free(store, root, size),
        may_run: release::rust::uvm_free_may_run,
        rust: original::uvm_free,
        refusals: &[1, 2, 3, 6, 11, 13, 18],
        differences: &release::listed::OF_UVM_FREE,
        listed: release::listed::uvm_free,
        ..USUAL
    },
    Call {
        name: "free_shared_user_pagetable",
        numbers: 2,
        for_one_run: 2,
        on: On::Processes,
        writes: Writes::Marks,
        any: release::inputs::of_shared,
        crossed: numbers::root_and_size,
        ours: archive::free_shared_user_pagetable,
        model: |store, [root, size, ..], _| calls::free_shared_user_pagetable(store, root, size),
        may_run: release::rust::shared_may_run,
        rust: original::free_shared_user_pagetable,
        refusals: &[1, 2, 3, 6, 10, 11, 13, 18],
        differences: &release::listed::OF_SHARED,
        listed: release::listed::shared,
        ..USUAL
    },
    Call {
        name: "proc_free_pagetable",
        numbers: 2,
        for_one_run: 2,
        on: On::Processes,
        writes: Writes::Marks,
        any: release::inputs::of_proc,
        crossed: numbers::root_and_size,
        ours: archive::proc_free_pagetable,
        model: |store, [root, size, ..], _| calls::proc_free_pagetable(store, root, size),
        may_run: release::rust::proc_may_run,
        rust: original::proc_free_pagetable,
        refusals: &[1, 2, 3, 6, 10, 11, 13, 18],
        differences: &release::listed::OF_PROC,
        listed: release::listed::proc,
        ..USUAL
    },
];

/// Whether the first number is a root.
pub fn is_root(store: &Store, [root, ..]: Numbers) -> bool {
    store.table_marks.get(root as usize) == Some(&ROOT)
}
