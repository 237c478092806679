# Rank 0 receives 182 letters one by one, each from any source and with any tag, and puts them out as they came.
# behind: letters.guest
root:   la   s0, room
        li   s1, 182                # letters to come
take:   mv   a0, s0
        li   a1, 2
        li   a2, -1                 # ANY_SOURCE
        li   a3, -1                 # ANY_TAG
        li   a4, 0
        li   a5, 0
        li   a7, 18                 # RECV
        ecall
        addi s0, s0, 2
        addi s1, s1, -1
        bnez s1, take
        la   a0, room
        li   a1, 364
        li   a7, 1                  # PUT
        ecall
        li   a0, 0
        li   a7, 0                  # EXIT
        ecall
