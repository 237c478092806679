# Rank 0 posts 182 receives of any source and any tag while the letters come, waits for the last one first, and puts the
# buffers out in the order of the receives. An earlier receive gets an earlier letter of each sender.
# behind: letters.guest
root:   la   s0, room
        la   s1, array
        li   s2, 182                # receives to post
post:   mv   a0, s0
        li   a1, 2
        li   a2, -1                 # ANY_SOURCE
        li   a3, -1                 # ANY_TAG
        li   a4, 0
        li   a7, 21                 # IRECV
        ecall
        sd   a1, 0(s1)
        addi s0, s0, 2
        addi s1, s1, 8
        addi s2, s2, -1
        bnez s2, post
        la   s0, array
wait:   addi s1, s1, -8             # from the last handle to the first
        ld   a0, 0(s1)
        li   a1, 0
        li   a7, 23                 # WAIT
        ecall
        bne  s1, s0, wait
        la   a0, room
        li   a1, 364
        li   a7, 1                  # PUT
        ecall
        li   a0, 0
        li   a7, 0                  # EXIT
        ecall

        .data
array:  .zero 1456
