# The guest by which bench/messages says how much memory messages take: rank 0 sends 100,000 of 4,096 bytes, of which
# no two are the same, and rank 1 receives them. A round of rank 1 is the shorter one, so that few messages wait. Both
# end with the number of the last message that they have.
        .ranks 2

_start: li   s2, 100000             # messages to come
        li   s3, 4096               # bytes of each
        sub  s1, sp, s3             # the buffer, below the stack
        li   a3, 7                  # the tag
        li   a4, 0
        li   a5, 0                  # no status is wanted
        li   s5, 0
        bnez a1, take
        li   a2, 1
        li   a7, 16                 # SEND
give:   addi s5, s5, 1
        sd   s5, 0(s1)
        mv   a0, s1
        mv   a1, s3
        ecall
        bltu s5, s2, give
        j    end
take:   li   a2, 0
        li   a7, 18                 # RECV
next:   mv   a0, s1
        mv   a1, s3
        ecall
        ld   s5, 0(s1)
        bltu s5, s2, next
end:    mv   a0, s5
        li   a7, 0                  # EXIT
        ecall
