# Counts down by the timer: sleeps, prints 3, 2 and 1, each at an interrupt, 1000 counts of the clock apart, and then a line feed,
# and ends with exit number 0. It needs a machine: over flat memory there is no timer. Made into timer.elf by
#
#     bin/gemcore asm examples/timer.s examples/timer.elf
#
# The number of the second instruction says where the handler is: 0x38 bytes behind the first one.
    auipc x5, 0             # this instruction's address
    addi  x5, x5, 0x38      # the handler
    csrrw x0, mtvec, x5
    lui   x10, 0x10000      # the UART
    lui   x11, 0x2004       # the timer's mtimecmp
    addi  x12, x0, 51       # the character 3
    addi  x13, x0, 48       # the character 0, behind the last one
    addi  x14, x0, 1000     # the count of the clock at which the first interrupt comes
    sd    x14, 0(x11)
    addi  x6, x0, 128       # bit 7: interrupts by the timer
    csrrw x0, mie, x6
    csrrsi x0, mstatus, 8   # bit 3, MIE: interrupts are taken from here on
sleep:
    wfi
    jal   x0, sleep
    sb    x12, 0(x10)       # the handler
    addi  x14, x14, 1000
    sd    x14, 0(x11)       # the clock hasn't come to the new number, so the line falls
    addi  x12, x12, -1
    beq   x12, x13, done
    mret
done:
    addi  x12, x0, 10       # a line feed
    sb    x12, 0(x10)
    lui   x15, 0x100        # the exit device
    sw    x0, 0(x15)
