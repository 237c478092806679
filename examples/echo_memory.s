# Stores of each width, read back byte by byte and put out as hex digits; then what a trap looks like.
# run: one --source; status 3
        addi s0, sp, -16            # eight bytes on the stack
        addi s3, sp, -8             # three more: two digits and a blank
        li   t0, 0x01234567
        sw   t0, 0(s0)              # 67 45 23 01: the low byte comes first
        li   t1, -2
        sh   t1, 4(s0)              # fe ff
        sb   zero, 6(s0)            # 00
        li   t2, 90
        sb   t2, 7(s0)              # 5a
        li   t0, 32
        sb   t0, 2(s3)              # the blank stays
        li   s1, 0                  # the byte's number
byte:   add  t0, s0, s1
        lbu  t1, 0(t0)              # lb would sign-extend: fe would be -2
        srli a0, t1, 4              # the high digit
        jal  digit
        sb   a0, 0(s3)
        andi a0, t1, 15             # the low digit
        jal  digit
        sb   a0, 1(s3)
        mv   a0, s3
        li   a1, 3
        li   a7, 1                  # PUT of two digits and a blank
        ecall
        addi s1, s1, 1
        li   t3, 8
        blt  s1, t3, byte
        ld   t0, 0(s0)              # an address that is a multiple of 8: right
        ld   t0, 4(s0)              # not a multiple of 8: trap 4, load address misaligned
        li   a0, 0                  # never reached
        li   a7, 0
        ecall

# digit: a0 from 0 to 15 becomes its hex digit in ASCII
digit:  li   t4, 10
        blt  a0, t4, below
        addi a0, a0, 39             # 10 is a: 10 + 39 + 48 = 97
below:  addi a0, a0, 48
        ret
