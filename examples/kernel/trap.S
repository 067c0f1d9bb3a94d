# Address translation switched, user code entered, and the traps that end it.
    .equ SPP, 0x100             # of sstatus: the mode before a trap, and after sret, is the supervisor's

    .text
# void set_satp(uint64_t satp): what the machine has kept of the tables is dropped, so that it walks them as they are.
    .globl set_satp
set_satp:
    sfence.vma
    csrw satp, a0
    sfence.vma
    ret

# uint64_t get_satp(void)
    .globl get_satp
get_satp:
    csrr a0, satp
    ret

# uint64_t run_user(uint64_t pc, uint64_t first, uint64_t second): runs user code at pc until it traps, with first and second
# in a0 and a1, and answers what a0 holds then. The code of user.S changes no other register.
    .globl run_user
run_user:
    csrw sscratch, ra
    csrw sepc, a0
    li t0, SPP
    csrc sstatus, t0
    mv a0, a1
    mv a1, a2
    sret

# Notes a trap; one of user code ends run_user, one of the kernel ends the run.
    .balign 4
    .globl trap_entry
trap_entry:
    la t0, trap_seen
    csrr t1, scause
    sd t1, 0(t0)
    csrr t1, stval
    sd t1, 8(t0)
    csrr t1, sepc
    sd t1, 16(t0)
    csrr t1, sstatus
    andi t1, t1, SPP
    bnez t1, of_kernel
    csrr ra, sscratch
    ret
of_kernel:
    la sp, stack_end
    li a0, 0
    call set_satp
    tail kernel_trapped
