# The stack below the end of 8 MB of RAM, and then main.
    .section .start, "ax"
    .globl _start
_start:
    li   sp, 0x80800000
    call main
end:
    j    end
