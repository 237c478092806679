# Counts down from 9 to 1, a digit a line: a loop that prints.
        li   s0, 9                  # the number
        addi s1, sp, -16            # two bytes on the stack: a digit and a newline
        li   t0, 10
        sb   t0, 1(s1)              # the newline stays
again:  addi t0, s0, 48             # the number's digit in ASCII
        sb   t0, 0(s1)
        mv   a0, s1                 # PUT's buffer
        li   a1, 2                  # PUT's count
        li   a7, 1                  # PUT
        ecall
        addi s0, s0, -1
        bnez s0, again
        li   a0, 0                  # EXIT's code
        li   a7, 0                  # EXIT
        ecall
