# Rank 0 makes two sending sides of one tag and one shape, and moves a phase of each at once, before rank 1 has a side. The
# first and the second receiving side that rank 1 makes are their pairs, whichever is started first; the one of another
# total in between is refused (SHAPE, 11) and isn't counted. Rank 1 puts out the second side's bytes, then the first's, and
# ends with the refusal's code.
        .ranks 2
        .link 0, 1
        .link 0, 1
_start: la   s0, first
        la   s1, second
        bnez a1, take               # at the start a1 is the rank
        mv   a0, s0
        jal  sends
        mv   a0, s1
        jal  sends
        li   s2, 1
move:   mv   a0, s2
        li   a7, 32                 # START
        ecall
        mv   a0, s2
        li   a1, 0
        li   a7, 42                 # PREADY
        ecall
        addi s2, s2, 1
        li   t0, 3
        blt  s2, t0, move
        li   a0, 1
        li   a1, 0
        li   a7, 23                 # WAIT
        ecall
        li   a0, 2
        ecall
        li   a0, 0
        j    end
take:   li   t0, 100                # rank 0 is done with PREADY long before
work:   addi t0, t0, -1
        bnez t0, work
        la   a0, room
        li   a1, 1
        jal  recvs
        la   a0, room
        li   a1, 2
        jal  recvs
        mv   s3, a0                 # 2 of 8 against 1 of 8: refused
        la   a0, other
        li   a1, 1
        jal  recvs
        li   a0, 2
        la   s0, other
        jal  get
        li   a0, 1
        la   s0, room
        jal  get
        mv   a0, s3
end:    li   a7, 0                  # EXIT
        ecall
sends:  li   a1, 1
        li   a2, 8
        li   a3, 1
        li   a4, 5
        li   a5, 0
        li   a7, 40                 # PSEND_INIT
        ecall
        ret
recvs:  li   a2, 8
        li   a3, 0
        li   a4, 5
        li   a5, 0
        li   a7, 41                 # PRECV_INIT
        ecall
        ret
get:    mv   s4, a0
        li   a7, 32
        ecall
        mv   a0, s4
        li   a1, 0
        li   a7, 23
        ecall
        mv   a0, s0
        li   a1, 8
        li   a7, 1                  # PUT
        ecall
        ret
        .data
first:  .ascii "first..\n"
second: .ascii "second.\n"
room:   .zero 8
other:  .zero 8
