# Eight ranks in a ring: a token goes round once, and each rank adds its own number to it.
#
# run: one --source; status 0
# run: one --source --order 7,6,5,4,3,2,1,0; status 0
# run: one --source --order 0,1,2,3,3,3,4,5,6,7,0; status 0
#
# Rank 0 sends first and receives last; each other rank receives from its left neighbour and then sends to its right one. So no
# rank needs to know when the token comes: RECV waits. Look at the numbers: rank 1 sees 0, rank 2 sees 0 + 1, .., rank 7 sees
# 0 + 1 + .. + 6 = 21, and rank 0 sees the sum of all, 28. Look at the turns too: a turn spent waiting is counted, so the further
# from rank 0, the more turns.
        .ranks 8

_start: li   a0, 0                  # communicator 0: all ranks in order
        li   a7, 2                  # RANK: a1 is the caller's place in it
        ecall
        mv   s0, a1
        li   a0, 0
        li   a7, 3                  # SIZE: a1 is the number of members
        ecall
        mv   s1, a1
        addi s2, s0, 1
        remu s2, s2, s1             # the right neighbour
        addi s3, s1, -1
        add  s3, s3, s0
        remu s3, s3, s1             # the left neighbour
        la   s4, token
        bnez s0, others
        jal  give                   # rank 0 begins
        jal  take
        j    end
others: jal  take
        jal  give
end:    li   a0, 0
        li   a7, 0                  # EXIT
        ecall

# give: adds the own number to the token and sends it to the right neighbour
give:   ld   t0, 0(s4)
        add  t0, t0, s0
        sd   t0, 0(s4)
        mv   a0, s4                 # SEND's buffer
        li   a1, 8                  # how many bytes
        mv   a2, s2                 # to whom
        li   a3, 5                  # the tag
        li   a4, 0                  # the communicator
        li   a7, 16                 # SEND: the bytes are copied, the buffer may be used again at once
        ecall
        ret

# take: receives the token from the left neighbour and puts out a line that shows it
take:   mv   a0, s4                 # RECV's buffer
        li   a1, 8                  # its capacity
        mv   a2, s3                 # from whom
        li   a3, 5                  # the tag
        li   a4, 0                  # the communicator
        li   a5, 0                  # no status is wanted
        li   a7, 18                 # RECV: the hart waits until the message is there
        ecall
        ld   t0, 0(s4)
        la   t1, line
        li   t2, 10
        divu t3, t0, t2
        addi t3, t3, 48
        sb   t3, 6(t1)              # the tens' digit
        remu t3, t0, t2
        addi t3, t3, 48
        sb   t3, 7(t1)              # the ones' digit
        mv   a0, t1
        li   a1, 9
        li   a7, 1                  # PUT
        ecall
        ret

        .data
token:  .dword 0
line:   .ascii "token 00\n"
