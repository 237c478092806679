# Rank 1 sends to rank 0, and then to rank 2. Rank 2 receives that, and then sends to rank 0. Rank 0 receives from any rank,
# and then from rank 2. Here each message arrives at once, so rank 1's is the first at rank 0. MPI lets rank 2's overtake it.
        .ranks 3
        beqz a1, first
        li   t0, 1
        beq  a1, t0, sender
        # rank 2
        li   s0, 1
        jal  take
        li   s0, 0
        jal  give
        j    end
sender: li   s0, 0
        jal  give
        li   s0, 2
        jal  give
        j    end
first:  li   s0, -1                 # ANY_SOURCE
        jal  take
        li   s0, 2
        jal  take
end:    li   a0, 0
        li   a7, 0                  # EXIT
        ecall
take:   la   a0, word
        li   a1, 8
        mv   a2, s0
        li   a3, 7
        li   a4, 0
        li   a5, 0
        li   a7, 18                 # RECV
        ecall
        ret
give:   la   a0, word
        li   a1, 8
        mv   a2, s0
        li   a3, 7
        li   a4, 0
        li   a7, 16                 # SEND
        ecall
        ret
        .data
        .balign 8
word:   .dword 0
