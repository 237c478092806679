# One link, 4 partitions of 64 bytes, 3 phases. In phase p byte i of rank 0's buffer is (i + p) mod 256, and the partitions
# are made ready in the order 3, 0, 2, 1; rank 1 waits, and puts out its 256 bytes. In the last phase 3 is made ready twice,
# and rank 0 ends with that code: 15.
        .ranks 2
        .link 0, 1
_start: la   s0, room
        mv   s3, a1                 # the own rank
        xori a3, s3, 1              # the other one
        addi a7, s3, 40             # PSEND_INIT or PRECV_INIT
        mv   a0, s0
        li   a1, 4                  # partitions
        li   a2, 64                 # bytes of each
        li   a4, 5                  # the tag
        li   a5, 0
        ecall
        mv   s1, a1
        li   s2, 0                  # the phase
phase:  mv   a0, s1
        li   a7, 32                 # START
        ecall
        bnez s3, take
        li   t0, 0
fill:   add  t1, s0, t0
        add  t2, t0, s2
        sb   t2, 0(t1)
        addi t0, t0, 1
        li   t1, 256
        blt  t0, t1, fill
        li   s4, 4
        la   s5, order
next:   mv   a0, s1
        lbu  a1, 0(s5)
        li   a7, 42                 # PREADY
        ecall
        addi s5, s5, 1
        addi s4, s4, -1
        bnez s4, next
        mv   a0, s1
        li   a1, 3
        ecall
        mv   s6, a0
        mv   a0, s1
        li   a1, 0
        li   a7, 23                 # WAIT
        ecall
        j    on
take:   mv   a0, s1
        li   a1, 0
        li   a7, 23
        ecall
        mv   a0, s0
        li   a1, 256
        li   a7, 1                  # PUT
        ecall
        li   s6, 0
on:     addi s2, s2, 1
        li   t0, 3
        blt  s2, t0, phase
        mv   a0, s6
        li   a7, 0
        ecall
        .data
order:  .byte 3, 0, 2, 1
room:   .zero 256
