# Copies 80 bytes by the DMA, waits for its interrupt, and stops with what STATUS was: 2, done without an error.
        lui   x10, 0x10000      # the DMA
        lui   x11, 0x100        # the system block
        jal   x5, setup         # x5 is the address of the handler
        lw    x12, 20(x10)      # STATUS
        sw    x0, 20(x10)       # clears it
        sw    x12, 0(x11)       # POWER: the machine stops
setup:  csrrw x0, mtvec, x5
        addi  x6, x0, 1
        sw    x6, 8(x11)        # ENABLE: line 0 interrupts
        lui   x6, 0x80000
        sw    x6, 0(x10)        # SRC: this program
        lui   x6, 0x80001
        sw    x6, 4(x10)        # DST: the next page
        addi  x6, x0, 80
        sw    x6, 8(x10)        # LEN
        lui   x6, 0x1
        addi  x6, x6, -2048     # bit 11: external interrupts
        csrrw x0, mie, x6
        addi  x6, x0, 3
        sw    x6, 16(x10)       # CONTROL: starts, and interrupts when it is done
        csrrsi x0, mstatus, 8   # interrupts are on
wait:   wfi
        jal   x0, wait
