# The machine has set the stack pointer, and memory that the image doesn't fill is zero.
    .section .text.start, "ax"
    .globl _start
_start:
    call main
    li a7, 93               # exit, with what main returned in a0
    ecall
