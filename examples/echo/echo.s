# Sends back each byte that the UART hears, while the timer interrupts every 4,096 ticks and the DMA copies 64 KiB.
        lui   x10, 0x10000
        lui   x11, 0x10001
        lui   x12, 0x10002
        lui   x13, 0x100
        jal   x5, start
        csrrs x20, mcause, x0
        andi  x20, x20, 15
        addi  x21, x0, 7
        beq   x20, x21, tick
        lw    x22, 4(x11)
        beq   x22, x0, clear
        lw    x22, 0(x11)
        sw    x22, 0(x11)
clear:  sw    x0, 20(x12)
        mret
tick:   lw    x22, 0(x10)
        lui   x23, 0x1
        add   x22, x22, x23
        sw    x22, 4(x10)
        mret
start:  csrrw x0, mtvec, x5
        addi  x6, x0, 6
        sw    x6, 8(x13)
        addi  x6, x0, 1
        sw    x6, 12(x13)
        sw    x6, 8(x10)
        sw    x6, 8(x11)
        lui   x6, 0x1
        sw    x6, 4(x10)
        addi  x6, x6, -1920
        csrrw x0, mie, x6
        lui   x6, 0x80010
        sw    x6, 0(x12)
        lui   x6, 0x80020
        sw    x6, 4(x12)
        lui   x6, 0x10
        sw    x6, 8(x12)
        addi  x6, x0, 3
        sw    x6, 16(x12)
        csrrsi x0, mstatus, 8
loop:   jal   x0, loop
