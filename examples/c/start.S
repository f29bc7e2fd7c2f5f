# Start-up code: a stack, then main, and what main returns is the exit number.
    .section .start, "ax"
    .globl _start
_start:
    la   sp, stack_end
    call main
    li   t0, 0x00100000     # the exit device
    sw   a0, 0(t0)
stopped:
    j    stopped
