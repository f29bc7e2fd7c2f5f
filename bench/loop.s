# A loop of adds, a load, a store and a branch, for measuring: some 50 million instructions, and then exit number 0.
#
#     bin/gemcore asm bench/loop.s loop.elf
    auipc x10, 0            # this instruction's address
    lui   x11, 0x6d0        # 7,142,857 turns of the loop
    addi  x11, x11, -567
next:
    addi  x12, x12, 1
    add   x13, x13, x12
    ld    x14, 0x200(x10)
    add   x14, x14, x13
    sd    x14, 0x200(x10)
    addi  x11, x11, -1
    bne   x11, x0, next
    lui   x15, 0x100        # the exit device
    sw    x0, 0(x15)
