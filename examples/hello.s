# Prints a line by the UART and ends with exit number 0. Made into hello.elf by
#
#     bin/gemcore asm examples/hello.s examples/hello.elf
#
# The number of addi says where the text is: 0x28 bytes behind the first instruction.
    lui   x10, 0x10000      # the UART
    auipc x11, 0            # this instruction's address
    addi  x11, x11, 0x24    # the text
next:
    lb    x12, 0(x11)
    beq   x12, x0, done
    sb    x12, 0(x10)
    addi  x11, x11, 1
    jal   x0, next
done:
    lui   x13, 0x100        # the exit device
    sw    x0, 0(x13)
    .word 0x6c6c6548        # Hell
    .word 0x7266206f        # o fr
    .word 0x52206d6f        # om R
    .word 0x0a2e4d41        # AM. and a line feed
    .word 0
