# Sends a text over the UART, and stops with code 0.
        lui   x10, 0x10000      # the UART
        lui   x11, 0x100        # the system block
        auipc x12, 0
        addi  x12, x12, 32      # the text, 32 bytes behind the instruction before
send:   lbu   x13, 0(x12)
        beq   x13, x0, stop     # it ends with a zero
        sw    x13, 0(x10)       # DATA
        addi  x12, x12, 1
        jal   x0, send
stop:   sw    x0, 0(x11)        # POWER: the machine stops
        .word 0x6c6c6548        # Hell
        .word 0x77202c6f        # o, w
        .word 0x646c726f        # orld
        .word 0x00000a21        # !, and a line feed
