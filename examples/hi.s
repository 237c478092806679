# Prints "hi" and a newline: the first program.
# The three bytes are built in a register, stored on the stack, and given to PUT.
        lui  x5, 0xa7               # x5 = 0xa7000
        addi x5, x5, -1688          # x5 = 0xa6968: the bytes 68 69 0a, "hi\n"
        sd   x5, -8(x2)             # on the stack; x2 is the end of memory
        addi x10, x2, -8            # PUT's buffer
        addi x11, x0, 3             # PUT's count
        addi x17, x0, 1             # a7 = 1: PUT
        ecall
        addi x10, x0, 0             # EXIT's code
        addi x17, x0, 0             # a7 = 0: EXIT
        ecall
