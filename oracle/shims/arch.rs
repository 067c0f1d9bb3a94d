// `arch::riscv`: the layout is the Rust's own file; the registers are not there.

pub mod riscv {
    pub mod qemu {
        #[allow(warnings, clippy::all)]
        pub mod layout;
    }

    /// The register of the root table.
    pub mod satp {
        /// Mode 8, Sv39, in bits 60 to 63.
        pub const SATP_SV39: usize = 8 << 60;
    }

    /// The fence after a change of the root table: nothing to do here.
    pub fn sfence_vma() {}
}
