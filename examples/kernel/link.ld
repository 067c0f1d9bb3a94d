/* Where the kernel lies: text, constants, data and user code on pages of their own, as each gets other permissions. */
OUTPUT_ARCH(riscv)
ENTRY(_start)
SECTIONS
{
    . = 0x80200000;
    text_start = .;
    .text : { *(.text.start) *(.text .text.*) }
    . = ALIGN(4096);
    text_end = .;
    .rodata : { *(.rodata .rodata.* .srodata .srodata.*) }
    . = ALIGN(4096);
    data_start = .;
    .data : { *(.data .data.* .sdata .sdata.*) }
    .bss : ALIGN(8) {
        bss_start = .;
        *(.sbss .sbss.* .bss .bss.* COMMON)
        . = ALIGN(16);
        bss_end = .;
        . += 0x10000;
        stack_end = .;
    }
    . = ALIGN(4096);
    data_end = .;
    ASSERT(. <= 0x80400000, "the kernel reaches the frame of the user code")
    . = 0x80400000;
    .user : { *(.user) . = ALIGN(4096); }
    /DISCARD/ : { *(.comment) *(.eh_frame) *(.note*) *(.riscv.attributes) }
}
