# Sets a trap handler, executes a word that is no instruction, and ends with the trap's cause, 2, as the exit number.
# Made into trap.elf by
#
#     bin/gemcore asm examples/trap.s examples/trap.elf
    auipc x5, 0             # this instruction's address
    addi  x5, x5, 16        # the handler, four words on
    csrrw x0, mtvec, x5
    .word 0                 # no instruction
    csrrs x6, mcause, x0    # the handler
    lui   x7, 0x100         # the exit device
    sw    x6, 0(x7)
