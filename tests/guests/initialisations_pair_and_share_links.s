# Links 0 and 1 both go from rank 0 to rank 1. After each initialisation a letter for its code, a being 0, and a digit for
# its handle. Rank 0: tag 5, 4 of 64: a1. Rank 1: tag 5, 4 of 32: SHAPE (11); 4 of 64: a1; tag 6, 1 of 8: a2, which has
# reserved the other link. So rank 0: tag 7, 1 of 8: NO_CHANNEL (10); but tag 6, 1 of 8 is the other side of that: a2.
# Then one phase of each: the byte of each partition that rank 1 puts out tells which transfer it went through.
        .ranks 2
        .link 0, 1
        .link 0, 1
_start: la   s5, room
        bnez a1, take
        li   a2, 64
        li   a4, 5
        li   a1, 4
        jal  sends
        jal  meet                   # rank 1 makes its sides
        jal  wait
        li   a1, 1
        li   a2, 8
        li   a4, 7
        jal  sends
        li   a1, 1
        li   a2, 8
        li   a4, 6
        jal  sends
        li   t0, 52
        sb   t0, 0(s5)              # 4 in the buffer of both
        li   a0, 2
        li   a7, 32                 # START of the second
        ecall
        li   a0, 2
        li   a1, 0
        li   a7, 42                 # PREADY
        ecall
        li   a0, 2
        li   a7, 23                 # WAIT
        ecall
        li   t0, 53
        sb   t0, 0(s5)
        li   a0, 1
        li   a7, 32
        ecall
        li   s6, 0
ready:  li   a0, 1
        mv   a1, s6
        li   a7, 42
        ecall
        addi s6, s6, 1
        li   t0, 4
        blt  s6, t0, ready
        li   a0, 1
        li   a1, 0
        li   a7, 23
        ecall
        j    end
take:   jal  wait
        li   a1, 4
        li   a2, 32
        li   a4, 5
        jal  recvs
        li   a1, 4
        li   a2, 64
        li   a4, 5
        jal  recvs
        li   a1, 1
        li   a2, 8
        li   a4, 6
        jal  recvs
        jal  meet
        li   a0, 2
        jal  phase
        li   a0, 1
        jal  phase
end:    li   a0, 0
        li   a7, 0
        ecall
phase:  mv   s6, a0
        li   a7, 32
        ecall
        mv   a0, s6
        li   a1, 0
        li   a7, 23
        ecall
        mv   a0, s5
        li   a1, 1
        li   a7, 1
        ecall
        ret
sends:  mv   a0, s5
        li   a3, 1
        li   a5, 0
        li   a7, 40
        ecall
        j    tell
recvs:  mv   a0, s5
        li   a3, 0
        li   a5, 0
        li   a7, 41
        ecall
tell:   addi a0, a0, 97
        addi a1, a1, 48
        sb   a0, -16(sp)
        sb   a1, -15(sp)
        addi a0, sp, -16
        li   a1, 2
        li   a7, 1
        ecall
        ret
meet:   li   a0, 0                  # a message of no bytes to the other rank
        li   a1, 0
        li   a7, 2
        ecall
        xori a2, a1, 1
        li   a0, 0
        li   a1, 0
        li   a3, 1
        li   a4, 0
        li   a7, 16
        ecall
        ret
wait:   li   a0, 0
        li   a7, 2
        ecall
        xori a2, a1, 1
        mv   a0, s5
        li   a1, 0
        li   a3, 1
        li   a4, 0
        li   a5, 0
        li   a7, 18
        ecall
        ret
        .data
room:   .zero 256
