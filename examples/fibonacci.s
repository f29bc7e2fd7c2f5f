# The 90th number of Fibonacci in x10, in hexadecimal among the registers at the end. Made into fibonacci.elf by
#
#     bin/gemcore asm examples/fibonacci.s examples/fibonacci.elf
    addi  x10, x0, 0
    addi  x11, x0, 1
    addi  x12, x0, 90       # how many steps are left
next:
    add   x13, x10, x11
    addi  x10, x11, 0
    addi  x11, x13, 0
    addi  x12, x12, -1
    bne   x12, x0, next
    lui   x14, 0x100        # the exit device
    sw    x0, 0(x14)
