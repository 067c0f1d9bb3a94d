# The code that runs in user mode, in a frame of its own: each piece makes one access and then asks for the kernel.
    .option norvc
    .section .user, "ax"
    .globl user_fetch_code, user_load_code, user_store_code
user_fetch_code:
    ecall
user_load_code:
    ld a0, 0(a0)
    ecall
user_store_code:
    sd a1, 0(a0)
    ecall
