# Where the firmware enters the kernel, in supervisor mode and without address translation.
    .section .text.start, "ax"
    .globl _start
_start:
    csrw sie, zero
    la t0, trap_entry
    csrw stvec, t0
    la sp, stack_end
    la t0, bss_start
    la t1, bss_end
zero_word:
    bgeu t0, t1, zeroed
    sd zero, 0(t0)
    addi t0, t0, 8
    j zero_word
zeroed:
    call kernel_main
stopped:
    wfi
    j stopped
