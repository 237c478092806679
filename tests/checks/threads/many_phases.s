# 25 phases of 16 partitions of 128 bytes, ready in changing orders: every word that comes is that of its phase.
#
# In phase p word w of partition k of rank 0's buffer is 256 p + 16 k + w, w from 0 to 15. The partitions become ready
# in the order (p + 7 i) mod 16, i from 0 to 15. Rank 1 asks for each partition by PARRIVED until it is there, in the
# order 15 to 0, compares its words, and completes the phase by WAIT. At its end it puts out how many words were right
# in all: 25 times 256.
        .ranks 2
        .link 0, 1

_start: mv   s0, a1                 # the own rank
        la   s1, buffer
        xori a3, s0, 1              # the other one
        addi a7, s0, 40             # PSEND_INIT or PRECV_INIT
        mv   a0, s1
        li   a1, 16                 # partitions
        li   a2, 128                # bytes of each
        li   a4, 5                  # the tag
        li   a5, 0
        ecall
        mv   s2, a1                 # the handle
        li   s3, 0                  # the phase
        li   s4, 0                  # words that were right
phase:  mv   a0, s2
        li   a7, 32                 # START
        ecall
        slli s5, s3, 8              # the word that is due
        bnez s0, take

# rank 0 writes all words, and makes partition by partition ready
        mv   t0, s1
        li   t1, 256
fill:   sd   s5, 0(t0)
        addi s5, s5, 1
        addi t0, t0, 8
        addi t1, t1, -1
        bnez t1, fill
        li   s6, 16                 # partitions to make ready
        mv   s7, s3
ready:  mv   a0, s2
        andi a1, s7, 15
        li   a7, 42                 # PREADY
        ecall
        addi s7, s7, 7
        addi s6, s6, -1
        bnez s6, ready
        j    whole

# rank 1 asks for partitions 15 to 0, and compares the words of each
take:   li   s6, 15
part:   mv   a0, s2
        mv   a1, s6
        li   a7, 43                 # PARRIVED
        ecall
        beqz a1, part
        slli t0, s6, 7
        add  t0, s1, t0             # where the partition stands
        slli t1, s6, 4
        add  t1, s5, t1             # its first word
        li   t2, 16
word:   ld   t3, 0(t0)
        bne  t3, t1, wrong
        addi s4, s4, 1
wrong:  addi t0, t0, 8
        addi t1, t1, 1
        addi t2, t2, -1
        bnez t2, word
        addi s6, s6, -1
        bgez s6, part

whole:  mv   a0, s2
        li   a1, 0
        li   a7, 23                 # WAIT: until all is taken, or nothing is left to take
        ecall
        addi s3, s3, 1
        li   t0, 25
        blt  s3, t0, phase

        beqz s0, end
        la   a0, line
        li   t0, 10
        addi t1, a0, 10
digit:  remu t2, s4, t0
        addi t2, t2, 48
        sb   t2, 0(t1)
        divu s4, s4, t0
        addi t1, t1, -1
        bnez s4, digit
        li   a1, 12
        li   a7, 1                  # PUT
        ecall
end:    li   a0, 0
        li   a7, 0                  # EXIT
        ecall

        .data
line:   .ascii "right     0\n"
        .balign 8
buffer: .zero 2048
