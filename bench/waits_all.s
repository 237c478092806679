# Two ranks, each of which waits for two receives at once, and nobody sends: from the 23rd on every turn is one poll in
# vain.
        .ranks 2
_start: xori s0, a1, 1              # the other one
        addi s1, sp, -16            # the handles
        addi a0, sp, -32
        li   a1, 8
        mv   a2, s0
        li   a3, 1
        li   a4, 0
        li   a7, 21                 # IRECV
        ecall
        sd   a1, 0(s1)
        addi a0, sp, -40
        li   a1, 8
        mv   a2, s0
        li   a3, 2
        li   a4, 0
        li   a7, 21                 # IRECV
        ecall
        sd   a1, 8(s1)
        mv   a0, s1
        li   a1, 2
        li   a2, 0
        li   a7, 35                 # WAITALL
        ecall
        li   a0, 0
        li   a7, 0
        ecall
