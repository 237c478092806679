# Two ranks that each look 316 times for a message that nobody sends: for bench/explore.
#
# Each look is a meeting, and none knows of the others, so a search of all orders has 317 times 317 states, and twice 316
# times 317 moves.
        .ranks 2
        li   s0, 316
look:   li   a0, -1                 # ANY_SOURCE
        li   a1, -1                 # ANY_TAG
        li   a2, 0
        li   a3, 0
        li   a7, 24                 # IPROBE
        ecall
        addi s0, s0, -1
        bnez s0, look
        li   a0, 0
        li   a7, 0                  # EXIT
        ecall
