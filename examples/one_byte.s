# Sends the byte 65 to a UART at 0x10000000, and stops the machine with code 0.
        lui   x1, 0x10000
        addi  x2, x0, 65
        sw    x2, 0(x1)         # the UART sends the low byte
        lui   x3, 0x100         # the system block
        sw    x0, 0(x3)         # the machine stops with this word as its code
stop:   jal   x0, stop
