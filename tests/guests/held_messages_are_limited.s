# A rank sends itself messages of no bytes, which nobody receives, until a send is refused. It ends with 16 times the
# number of sends that were taken, plus the code of the one that wasn't: 65,536 messages are held, and the code is 8.
        li   s1, 0
next:   li   a0, 0                  # buffer
        li   a1, 0                  # count
        li   a2, 0                  # to itself
        li   a3, 7                  # tag
        li   a4, 0                  # communicator
        li   a7, 16                 # SEND
        ecall
        bnez a0, full
        addi s1, s1, 1
        j    next
full:   slli s1, s1, 4
        or   a0, a0, s1
        li   a7, 0                  # EXIT
        ecall
