# Seven ranks race to an eighth, which receives from any source: each order of arrival is right, and nothing else.
#
# Ranks 1 to 7 send their digit to rank 0, which receives seven times with ANY_SOURCE and ANY_TAG and puts the digits
# out in the order in which they came, in one line. It ends with the number of messages that had another digit than that
# of the source in their status, or another length than 1: 0.
        .ranks 8

_start: beqz a1, root
        addi t0, a1, 48
        la   a0, room
        sb   t0, 0(a0)              # the own digit
        mv   a3, a1                 # the tag: the own rank, too
        li   a1, 1
        li   a2, 0                  # to rank 0
        li   a4, 0
        li   a7, 16                 # SEND
        ecall
        li   a0, 0
        j    end

root:   la   s0, room               # where the next digit goes
        la   s1, status
        li   s2, 7                  # messages to come
        li   s3, 0                  # those that were wrong
next:   mv   a0, s0
        li   a1, 2                  # room for one byte more than there should be
        li   a2, -1                 # ANY_SOURCE
        li   a3, -1                 # ANY_TAG
        li   a4, 0
        mv   a5, s1
        li   a7, 18                 # RECV
        ecall
        lbu  t0, 0(s0)
        ld   t1, 0(s1)              # the source
        addi t1, t1, 48
        bne  t0, t1, wrong
        ld   t1, 16(s1)             # the number of bytes
        addi t1, t1, -1
        beqz t1, right
wrong:  addi s3, s3, 1
right:  addi s0, s0, 1
        addi s2, s2, -1
        bnez s2, next
        li   t0, 10
        sb   t0, 0(s0)              # a newline
        la   a0, room
        li   a1, 8
        li   a7, 1                  # PUT
        ecall
        mv   a0, s3
end:    li   a7, 0                  # EXIT
        ecall

        .data
status: .zero 24
room:   .zero 9
