# Eight ranks, each of which receives from any of them, and nobody sends: every turn behind the first is one poll in vain.
.ranks 8
        addi a0, sp, -16
        li   a1, 8                  # capacity
        li   a2, -1                 # any source
        li   a3, 7                  # tag
        li   a4, 0                  # communicator
        li   a5, 0                  # no status
        li   a7, 18                 # RECV
        ecall
        li   a0, 0
        li   a7, 0                  # EXIT
        ecall
