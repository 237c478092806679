# The guest by which bench/pingpong counts messages a second: 8 bytes go from rank 0 to rank 1 and back, 5,000 times, so
# each rank waits for a message of the other one before it sends. Each adds 1 to them, and ends with the last number
# that it got.
        .ranks 2

_start: mv   s0, a1                 # the own rank
        xori a2, s0, 1              # the other one: to whom, and from whom
        li   a3, 7                  # the tag
        li   a4, 0
        li   a5, 0                  # no status is wanted
        addi s1, sp, -8             # the buffer
        li   s2, 5000               # messages to come
        beqz s0, give
take:   mv   a0, s1
        li   a1, 8
        li   a7, 18                 # RECV
        ecall
        ld   s3, 0(s1)
        addi s2, s2, -1
        bnez s2, give
        beqz s0, end                # rank 0 ends with a message that it gets, rank 1 with one that it sends
give:   addi s4, s3, 1
        sd   s4, 0(s1)
        mv   a0, s1
        li   a1, 8
        li   a7, 16                 # SEND
        ecall
        bnez s2, take
end:    mv   a0, s3
        li   a7, 0                  # EXIT
        ecall
